//! The input, and what stands in it from a place on.

use super::{Fault, Reason, Target, refuse};

pub struct Input<'b> {
    bytes: &'b [u8],
    at: usize,
}

impl<'b> Input<'b> {
    pub fn new(bytes: &'b [u8]) -> Input<'b> {
        Input { bytes, at: 0 }
    }

    pub fn at(&self) -> usize {
        self.at
    }

    #[inline]
    pub fn left(&self) -> usize {
        self.bytes.len() - self.at
    }

    #[inline]
    pub fn array<const N: usize>(&mut self) -> Result<[u8; N], Fault> {
        match self.bytes[self.at..].first_chunk::<N>() {
            Some(chunk) => {
                self.at += N;
                Ok(*chunk)
            }
            None => refuse(Reason::Truncated, self.bytes.len()),
        }
    }

    #[inline]
    pub fn slice(&mut self, len: usize) -> Result<&'b [u8], Fault> {
        let rest = &self.bytes[self.at..];
        if rest.len() < len {
            return refuse(Reason::Truncated, self.bytes.len());
        }
        self.at += len;
        Ok(&rest[..len])
    }

    #[inline]
    pub fn byte(&mut self) -> Result<u8, Fault> {
        Ok(self.array::<1>()?[0])
    }

    /// A length, a count or an id.
    #[inline]
    pub fn short_compact(&mut self) -> Result<u32, Fault> {
        match self.bytes.get(self.at) {
            Some(&first) if first & 3 == 0 => {
                self.at += 1;
                Ok(u32::from(first >> 2))
            }
            _ => Ok(self.compact(Target::U32)? as u32),
        }
    }

    pub fn compact(&mut self, target: Target) -> Result<u128, Fault> {
        let at = self.at;
        let Some(&first) = self.bytes.get(at) else {
            return refuse(Reason::Truncated, self.bytes.len());
        };
        let (number, least) = match first & 3 {
            0 => {
                self.at += 1;
                (u128::from(first >> 2), 0)
            }
            1 => (u128::from(u16::from_le_bytes(self.array()?)) >> 2, 1 << 6),
            2 => (u128::from(u32::from_le_bytes(self.array()?)) >> 2, 1 << 14),
            _ => self.long_compact(first, target)?,
        };
        if number < least {
            return refuse(Reason::CompactNotShortest, at);
        }
        if number > target.greatest() {
            return refuse(Reason::CompactTooLarge, at);
        }
        Ok(number)
    }

    /// The number of a compact integer with a first byte that says its length, and the least that is spelled so.
    fn long_compact(&mut self, first: u8, target: Target) -> Result<(u128, u128), Fault> {
        let len = usize::from(first >> 2) + 4;
        if len > target.bytes() {
            return refuse(Reason::CompactTooLarge, self.at);
        }
        let mut number = [0; 16];
        number[..len].copy_from_slice(&self.slice(1 + len)?[1..]);
        let least = if len == 4 {
            1 << 30
        } else {
            1 << (8 * (len - 1))
        };
        Ok((u128::from_le_bytes(number), least))
    }

    #[inline]
    pub fn text(&mut self) -> Result<&'b str, Fault> {
        let len = self.short_compact()? as usize;
        let at = self.at;
        std::str::from_utf8(self.slice(len)?)
            .or_else(|fault| refuse(Reason::BadUtf8, at + fault.valid_up_to()))
    }

    #[inline]
    pub fn bool(&mut self) -> Result<bool, Fault> {
        match self.byte()? {
            0 => Ok(false),
            1 => Ok(true),
            _ => refuse(Reason::BadBool, self.at - 1),
        }
    }

    #[inline]
    pub fn char(&mut self) -> Result<char, Fault> {
        match char::from_u32(u32::from_le_bytes(self.array()?)) {
            Some(character) => Ok(character),
            None => refuse(Reason::BadChar, self.at - 4),
        }
    }
}
