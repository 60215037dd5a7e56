//! The decimal digits of 256-bit integers.

use std::{fmt, str};

/// A 256-bit integer, which displays as its decimal digits.
pub(crate) struct Wide {
    is_negative: bool,
    /// The limbs of its magnitude, the lowest first.
    limbs: [u32; 8],
}

impl Wide {
    /// Returns the unsigned integer of these bytes, the lowest first.
    pub fn unsigned(bytes: [u8; 32]) -> Wide {
        let mut limbs = [0; 8];
        for (limb, four) in limbs.iter_mut().zip(bytes.chunks_exact(4)) {
            *limb = u32::from_le_bytes(four.try_into().unwrap_or_default());
        }
        Wide {
            is_negative: false,
            limbs,
        }
    }

    /// Returns the integer that these bytes are in two's complement, the lowest first.
    pub fn signed(bytes: [u8; 32]) -> Wide {
        let wide = Wide::unsigned(bytes);
        if wide.limbs.last().is_none_or(|limb| limb >> 31 == 0) {
            return wide;
        }
        let mut carry = true;
        let limbs = wide.limbs.map(|limb| {
            let (negated, carried) = (!limb).overflowing_add(u32::from(carry));
            carry = carried;
            negated
        });
        Wide {
            is_negative: true,
            limbs,
        }
    }
}

/// Divides an integer by ten, and returns the remainder.
fn divide(limbs: &mut [u32; 8]) -> u8 {
    let mut rest = 0;
    for limb in limbs.iter_mut().rev() {
        let whole = rest << 32 | u64::from(*limb);
        *limb = (whole / 10) as u32;
        rest = whole % 10;
    }
    rest as u8
}

impl fmt::Display for Wide {
    fn fmt(&self, f: &mut fmt::Formatter<'_>) -> fmt::Result {
        // 2^256 has 78 digits.
        let (mut room, mut limbs) = ([b'0'; 78], self.limbs);
        let mut first = room.len();
        for digit in room.iter_mut().rev() {
            *digit = b'0' + divide(&mut limbs);
            first -= 1;
            if limbs == [0; 8] {
                break;
            }
        }
        let digits = room.get(first..).unwrap_or_default();
        let digits = str::from_utf8(digits).map_err(|_| fmt::Error)?;
        f.pad_integral(!self.is_negative, "", digits)
    }
}
