//! The position of a type.

use crate::types::ParseTypeError;
use std::fmt;
use std::str::FromStr;

/// The position of a type in its registry, from 0 on.
///
/// A call that wants a type takes anything that converts into it: a `TypeId`, a `u32`, a
/// [`Type`](crate::Type) or what metadata names.
///
/// # Examples
///
/// ```
/// # use scaleview::{Error, Registry, TypeId};
/// # fn main() -> Result<(), Error> {
/// let registry = Registry::open(b"\x04\x00\x00\x00\x05\x03\x00")?;
/// let byte: TypeId = "0".parse().unwrap();
/// assert_eq!(registry.decode_json(byte, b"\x2a")?, "42");
/// assert_eq!(registry.decode_json(0, b"\x2a")?, "42");
/// assert_eq!((byte.to_string(), u32::from(byte)), ("0".to_string(), 0));
/// # Ok(())
/// # }
/// ```
#[derive(Clone, Copy, Debug, Default, PartialEq, Eq, PartialOrd, Ord, Hash)]
pub struct TypeId(u32);

impl TypeId {
    /// Returns the type at this position.
    pub const fn new(position: u32) -> TypeId {
        TypeId(position)
    }

    /// Returns the position.
    pub const fn get(self) -> u32 {
        self.0
    }

    /// Returns the position as an index of a slice.
    pub(crate) const fn index(self) -> usize {
        self.0 as usize
    }
}

impl From<u32> for TypeId {
    fn from(position: u32) -> TypeId {
        TypeId(position)
    }
}

impl From<TypeId> for u32 {
    fn from(id: TypeId) -> u32 {
        id.0
    }
}

impl fmt::Display for TypeId {
    fn fmt(&self, f: &mut fmt::Formatter<'_>) -> fmt::Result {
        fmt::Display::fmt(&self.0, f)
    }
}

/// Reads decimal digits alone, as the command does: `+1` is rejected.
impl FromStr for TypeId {
    type Err = ParseTypeError;

    fn from_str(text: &str) -> Result<TypeId, ParseTypeError> {
        let is_number = text.bytes().all(|byte| byte.is_ascii_digit());
        let position = is_number.then(|| text.parse().ok()).flatten();
        position.map(TypeId).ok_or(ParseTypeError(()))
    }
}
