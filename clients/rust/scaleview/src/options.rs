//! How a registry is opened.

use crate::error::Error;
use crate::metadata::Metadata;
use crate::registry::Registry;
use scaleview_sys as sys;

/// The first four bytes of metadata. No registry alone begins with them: its first type would have
/// the id 29.
const METADATA: &[u8] = b"meta";

/// How a registry is opened. [`Registry::open`], [`Metadata::open`] and the like take the default.
///
/// # Examples
///
/// ```
/// # use scaleview::{Error, OpenOptions, Registry, ValueReason};
/// # fn main() -> Result<(), Error> {
/// // A u8, the order Lsb0, and a bit sequence of both.
/// let types = b"\x0c\x00\0\0\x05\x03\0\x04\x04\x10Lsb0\0\0\0\0\x08\0\0\x07\x00\x04\0";
/// let registry = OpenOptions::new().bits(true).open(types)?;
/// assert_eq!(registry.decode_json(2, b"\x0c\x05")?, "\"0b101\"");
///
/// let error = Registry::open(types)?.decode_json(2, b"\x0c\x05").unwrap_err();
/// let reason = ValueReason::BitSequence;
/// assert_eq!(error, Error::Value { reason, place: 0 });
/// # Ok(())
/// # }
/// ```
#[derive(Clone, Copy, Debug, Default, PartialEq, Eq, Hash)]
#[must_use]
pub struct OpenOptions {
    bits: bool,
}

impl OpenOptions {
    /// Returns the default options: no values of bit sequences.
    pub const fn new() -> OpenOptions {
        OpenOptions { bits: false }
    }

    /// Sets whether the registry reads values of bit sequences.
    ///
    /// The store of such a type must be the primitive `u8`, `u16`, `u32` or `u64`, and its order a
    /// struct without fields whose path ends with `Lsb0` or `Msb0`. The values of other bit
    /// sequences are rejected with `BitSequence`, as all are without this option.
    ///
    /// # Examples
    ///
    /// ```
    /// # use scaleview::{Error, Item, OpenOptions};
    /// # fn main() -> Result<(), Error> {
    /// // A u8, the order Msb0, and a bit sequence of both.
    /// let types = b"\x0c\x00\0\0\x05\x03\0\x04\x04\x10Msb0\0\0\0\0\x08\0\0\x07\x00\x04\0";
    /// let registry = OpenOptions::new().bits(true).open(types)?;
    /// assert_eq!(registry.encode(2, &Item::bits(&[true, false]))?, [8, 0x80]);
    /// # Ok(())
    /// # }
    /// ```
    pub const fn bits(self, allowed: bool) -> OpenOptions {
        OpenOptions { bits: allowed }
    }

    fn flags(self) -> u32 {
        if self.bits { sys::SCALEVIEW_BITS } else { 0 }
    }

    /// Opens a registry as [`Registry::open`] does.
    ///
    /// # Errors
    /// As [`Registry::open`].
    pub fn open(self, bytes: &[u8]) -> Result<Registry, Error> {
        if bytes.starts_with(METADATA) {
            self.open_metadata(bytes)
        } else {
            self.open_raw(bytes)
        }
    }

    /// Opens a registry as [`Registry::open_raw`] does.
    ///
    /// # Errors
    /// As [`Registry::open`].
    ///
    /// # Examples
    ///
    /// ```
    /// # use scaleview::{Error, OpenOptions};
    /// # fn main() -> Result<(), Error> {
    /// let registry = OpenOptions::new().open_raw(b"\x04\x00\x00\x00\x05\x05\x00")?;
    /// assert_eq!(registry.version(), None);
    /// # Ok(())
    /// # }
    /// ```
    pub fn open_raw(self, bytes: &[u8]) -> Result<Registry, Error> {
        Registry::opened(bytes, self.flags())
    }

    /// Opens a registry as [`Registry::open_metadata`] does.
    ///
    /// # Errors
    /// As [`Registry::open`].
    ///
    /// # Examples
    ///
    /// ```
    /// # use scaleview::{Error, OpenOptions};
    /// # fn main() -> Result<(), Error> {
    /// let registry = OpenOptions::new().open_metadata(b"meta\x0e\x04\0\0\0\x05\x05\0")?;
    /// assert_eq!(registry.version(), Some(14));
    /// # Ok(())
    /// # }
    /// ```
    pub fn open_metadata(self, bytes: &[u8]) -> Result<Registry, Error> {
        Registry::opened(bytes, self.flags() | sys::SCALEVIEW_METADATA)
    }

    /// Opens a chain's metadata with its names, as [`Metadata::open`] does.
    ///
    /// # Errors
    /// As [`Metadata::open`].
    ///
    /// # Examples
    ///
    /// ```
    /// # use scaleview::{Error, OpenOptions};
    /// # fn main() -> Result<(), Error> {
    /// # let bytes = b"meta\x0f\x04\0\0\0\x05\x05\0\0\x04\0\0\0\0\0\0\0\0\0\0\0";
    /// let metadata = OpenOptions::new().bits(true).open_with_names(bytes)?;
    /// assert_eq!(u32::from(metadata.call()?.type_id()), 0);
    /// # Ok(())
    /// # }
    /// ```
    pub fn open_with_names(self, bytes: &[u8]) -> Result<Metadata, Error> {
        let flags = self.flags() | sys::SCALEVIEW_METADATA | sys::SCALEVIEW_NAMES;
        Registry::opened(bytes, flags).and_then(Metadata::of)
    }
}
