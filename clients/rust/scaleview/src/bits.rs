//! Bit sequences.

use crate::buffer;
use crate::error::Error;
use crate::types::Primitive;
use std::hash::{Hash, Hasher};
use std::iter::FusedIterator;
use std::{fmt, str};

/// Where the bits of a bit sequence stand in its words.
#[derive(Clone, Copy, Debug, PartialEq, Eq)]
pub(crate) struct Form {
    /// The number of a word's bits: 8, 16, 32 or 64.
    width: u8,
    /// The first bit of a word is the one of the highest value.
    is_msb0: bool,
}

impl Form {
    /// Returns the form of a store and of the path of an order, or `None` for another store.
    // The library rejects the values of other orders.
    pub fn of(store: Option<Primitive>, order: &str) -> Option<Form> {
        let width = match store? {
            Primitive::U8 => 8,
            Primitive::U16 => 16,
            Primitive::U32 => 32,
            Primitive::U64 => 64,
            _ => return None,
        };
        let is_msb0 = order.ends_with("Msb0");
        Some(Form { width, is_msb0 })
    }

    /// Returns the number of bytes of the words of so many bits.
    pub fn bytes(self, bits: usize) -> usize {
        let width = usize::from(self.width);
        (width / 8).saturating_mul(bits.div_ceil(width))
    }

    /// Returns the byte of a bit, and its place in it.
    fn place(self, bit: usize) -> (usize, u32) {
        // The lowest byte of a word is the first, so with Lsb0 the width makes no difference. With
        // Msb0 the bits of a word are reversed: their number is a power of two.
        let reversed = if self.is_msb0 { self.width - 1 } else { 0 };
        let at = bit ^ usize::from(reversed);
        (at / 8, at as u32 % 8)
    }

    fn get(self, words: &[u8], bit: usize) -> Option<bool> {
        let (byte, place) = self.place(bit);
        words.get(byte).map(|byte| byte >> place & 1 == 1)
    }
}

/// Bits in the words of a value, or those of a program.
#[derive(Clone, Copy)]
enum Store<'a> {
    /// The words have as many bytes as the bits need.
    Words(Form, &'a [u8]),
    Bools(&'a [bool]),
}

/// The bits of a bit sequence, in their order. They are borrowed from a value, or from a slice of
/// `bool` that is to be encoded.
///
/// It displays as `0b` and the bits, each 0 or 1. Two are equal if their bits are, wherever these
/// are stored.
///
/// # Examples
///
/// ```
/// # use scaleview::{Error, Kind, OpenOptions};
/// # fn main() -> Result<(), Error> {
/// // A u8, the order Lsb0, and a bit sequence of both.
/// let types = b"\x0c\x00\0\0\x05\x03\0\x04\x04\x10Lsb0\0\0\0\0\x08\0\0\x07\x00\x04\0";
/// let registry = OpenOptions::new().bits(true).open(types)?;
/// let value = registry.decode(2, b"\x0c\x05")?;
/// let Kind::Bits(bits) = value.kind() else { panic!() };
/// assert_eq!((bits.len(), bits.get(1), bits.get(3)), (3, Some(false), None));
/// assert_eq!(bits.iter().collect::<Vec<bool>>(), [true, false, true]);
/// assert_eq!(bits.to_string(), "0b101");
/// # Ok(())
/// # }
/// ```
#[derive(Clone, Copy)]
pub struct Bits<'a> {
    store: Store<'a>,
    len: usize,
}

impl<'a> Bits<'a> {
    /// Returns the bits of a value's words, or none if these have too few bytes.
    pub(crate) fn of_words(form: Form, words: &'a [u8], len: usize) -> Bits<'a> {
        match words.get(..form.bytes(len)) {
            Some(words) => Bits {
                store: Store::Words(form, words),
                len,
            },
            None => Bits::default(),
        }
    }

    /// Returns the number of bits.
    pub fn len(self) -> usize {
        self.len
    }

    /// Returns whether there are no bits.
    pub fn is_empty(self) -> bool {
        self.len == 0
    }

    /// Returns the bit at this position.
    ///
    /// # Examples
    ///
    /// ```
    /// # use scaleview::Bits;
    /// let bits = Bits::from(&[true, false]);
    /// assert_eq!((bits.get(0), bits.get(1), bits.get(2)), (Some(true), Some(false), None));
    /// ```
    pub fn get(self, position: usize) -> Option<bool> {
        match self.store {
            Store::Words(form, words) if position < self.len => form.get(words, position),
            Store::Words(..) => None,
            Store::Bools(bools) => bools.get(position).copied(),
        }
    }

    /// Returns the bits in their order.
    ///
    /// # Examples
    ///
    /// ```
    /// # use scaleview::Bits;
    /// let bits = Bits::from(&[true, false, true]);
    /// assert_eq!(bits.iter().filter(|is| *is).count(), 2);
    /// assert_eq!(bits.iter().position(|is| !is), Some(1));
    /// ```
    pub fn iter(self) -> BitIter<'a> {
        BitIter {
            bits: self,
            front: 0,
            back: self.len,
        }
    }

    /// Appends the words of this form, and returns where they begin.
    pub(crate) fn append(self, form: Form, pool: &mut Vec<u8>) -> Result<usize, Error> {
        let start = pool.len();
        match self.store {
            Store::Words(its, words) if its == form => buffer::extend(pool, words)?,
            _ => self.append_each(form, pool)?,
        }
        Ok(start)
    }

    fn append_each(self, form: Form, pool: &mut Vec<u8>) -> Result<(), Error> {
        let (start, length) = (pool.len(), form.bytes(self.len));
        pool.try_reserve(length).map_err(|_| Error::Memory)?;
        pool.resize(start + length, 0);
        for (position, is) in self.iter().enumerate() {
            let (byte, place) = form.place(position);
            if let Some(byte) = pool.get_mut(start + byte) {
                *byte |= u8::from(is) << place;
            }
        }
        Ok(())
    }
}

/// No bits.
impl Default for Bits<'_> {
    fn default() -> Self {
        Bits::from([].as_slice())
    }
}

impl<'a> From<&'a [bool]> for Bits<'a> {
    fn from(bools: &'a [bool]) -> Self {
        Bits {
            store: Store::Bools(bools),
            len: bools.len(),
        }
    }
}

impl<'a, const N: usize> From<&'a [bool; N]> for Bits<'a> {
    fn from(bools: &'a [bool; N]) -> Self {
        Bits::from(bools.as_slice())
    }
}

impl<'a> From<&'a Vec<bool>> for Bits<'a> {
    fn from(bools: &'a Vec<bool>) -> Self {
        Bits::from(bools.as_slice())
    }
}

impl<'a> IntoIterator for Bits<'a> {
    type Item = bool;
    type IntoIter = BitIter<'a>;

    fn into_iter(self) -> BitIter<'a> {
        self.iter()
    }
}

impl PartialEq for Bits<'_> {
    fn eq(&self, other: &Bits<'_>) -> bool {
        if self.len != other.len {
            return false;
        }
        match (self.store, other.store) {
            // The unused bits of words are 0.
            (Store::Words(form, words), Store::Words(its, others)) if form == its => {
                words == others
            }
            _ => self.iter().eq(other.iter()),
        }
    }
}

impl Eq for Bits<'_> {}

impl PartialEq<[bool]> for Bits<'_> {
    fn eq(&self, other: &[bool]) -> bool {
        *self == Bits::from(other)
    }
}

impl<const N: usize> PartialEq<[bool; N]> for Bits<'_> {
    fn eq(&self, other: &[bool; N]) -> bool {
        *self == Bits::from(other)
    }
}

impl PartialEq<Vec<bool>> for Bits<'_> {
    fn eq(&self, other: &Vec<bool>) -> bool {
        *self == Bits::from(other)
    }
}

impl Hash for Bits<'_> {
    fn hash<H: Hasher>(&self, state: &mut H) {
        self.len.hash(state);
        self.iter().for_each(|is| is.hash(state));
    }
}

impl fmt::Display for Bits<'_> {
    fn fmt(&self, f: &mut fmt::Formatter<'_>) -> fmt::Result {
        buffer::pad(f, format_args!("{}", Digits(*self)))
    }
}

impl fmt::Debug for Bits<'_> {
    fn fmt(&self, f: &mut fmt::Formatter<'_>) -> fmt::Result {
        fmt::Display::fmt(self, f)
    }
}

/// Displays as `0b` and the bits, whatever the width.
struct Digits<'a>(Bits<'a>);

impl fmt::Display for Digits<'_> {
    fn fmt(&self, f: &mut fmt::Formatter<'_>) -> fmt::Result {
        f.write_str("0b")?;
        let mut room = [0; 128];
        let mut bits = self.0.iter();
        while bits.len() > 0 {
            let mut written = 0;
            for (digit, is) in room.iter_mut().zip(&mut bits) {
                *digit = b'0' + u8::from(is);
                written += 1;
            }
            let digits = room.get(..written).unwrap_or_default();
            f.write_str(str::from_utf8(digits).map_err(|_| fmt::Error)?)?;
        }
        Ok(())
    }
}

/// The bits of a bit sequence, by [`Bits::iter`].
///
/// # Examples
///
/// ```
/// # use scaleview::Bits;
/// let mut bits = Bits::from(&[true, false, false]).iter();
/// assert_eq!((bits.next(), bits.next_back(), bits.len()), (Some(true), Some(false), 1));
/// ```
#[derive(Clone)]
pub struct BitIter<'a> {
    bits: Bits<'a>,
    front: usize,
    back: usize,
}

impl Iterator for BitIter<'_> {
    type Item = bool;

    fn next(&mut self) -> Option<bool> {
        if self.front == self.back {
            return None;
        }
        let bit = self.bits.get(self.front);
        self.front += 1;
        bit
    }

    fn size_hint(&self) -> (usize, Option<usize>) {
        let left = self.back - self.front;
        (left, Some(left))
    }

    fn nth(&mut self, count: usize) -> Option<bool> {
        self.front += count.min(self.back - self.front);
        self.next()
    }
}

impl DoubleEndedIterator for BitIter<'_> {
    fn next_back(&mut self) -> Option<bool> {
        if self.front == self.back {
            return None;
        }
        self.back -= 1;
        self.bits.get(self.back)
    }
}

impl ExactSizeIterator for BitIter<'_> {}

impl FusedIterator for BitIter<'_> {}

impl fmt::Debug for BitIter<'_> {
    fn fmt(&self, f: &mut fmt::Formatter<'_>) -> fmt::Result {
        f.debug_list().entries(self.clone()).finish()
    }
}
