//! Values that have their length in front.

use crate::error::Error;
use crate::limits::Limits;
use crate::registry::Registry;
use crate::type_id::TypeId;
use crate::value::Value;
use scaleview_sys::{self as sys, scaleview_answer as Answer};

impl Registry {
    /// Makes a call on the bytes after the length. The places of its errors then count from the
    /// first byte of the length.
    fn after_length<T>(
        &self,
        id: TypeId,
        bytes: &[u8],
        call: impl FnOnce(&[u8]) -> Result<T, Error>,
    ) -> Result<T, Error> {
        if id.get() >= self.len() {
            return Err(Error::UnknownType { id });
        }
        let mut answer = Answer::default();
        // SAFETY: the slice and the place are this call's.
        let code = unsafe { sys::scaleview_opaque(bytes.as_ptr(), bytes.len(), &mut answer) };
        // All bytes from `at` on are the value's.
        let value = usize::try_from(answer.at)
            .ok()
            .and_then(|at| bytes.get(at..));
        match value {
            Some(value) if code == sys::SCALEVIEW_OK => call(value).map_err(|error| match error {
                Error::Value { reason, place } => Error::Value {
                    reason,
                    place: place.saturating_add(answer.at),
                },
                error => error,
            }),
            _ => Err(Error::of(answer)),
        }
    }

    /// Decodes an opaque value, of the type at this position, within the default limits: its length
    /// in front, as a compact integer, and then all of its bytes. So extrinsics stand in a block.
    ///
    /// # Errors
    /// As [`decode`](Registry::decode), and `Value` if the length is rejected. Places count from
    /// the first byte of the length.
    ///
    /// # Examples
    ///
    /// ```
    /// # use scaleview::{Error, Registry, ValueReason};
    /// # fn main() -> Result<(), Error> {
    /// let registry = Registry::open(b"\x04\x00\x00\x00\x05\x05\x00")?;
    /// assert_eq!(registry.decode_opaque(0, b"\x10\x2a\x00\x00\x00")?.as_u128(), Some(42));
    ///
    /// let error = registry.decode_opaque(0, b"\x0c\x2a\x00\x00").unwrap_err();
    /// let reason = ValueReason::Truncated;
    /// assert_eq!(error, Error::Value { reason, place: 4 });
    /// # Ok(())
    /// # }
    /// ```
    pub fn decode_opaque(&self, id: impl Into<TypeId>, bytes: &[u8]) -> Result<Value<'_>, Error> {
        self.decode_opaque_within(id, bytes, Limits::new())
    }

    /// Decodes a value as [`decode_opaque`](Registry::decode_opaque) does, within these limits. The
    /// limit of bytes doesn't count those of the length.
    ///
    /// # Errors
    /// As [`decode_opaque`](Registry::decode_opaque), and `LimitOutOfRange`.
    pub fn decode_opaque_within(
        &self,
        id: impl Into<TypeId>,
        bytes: &[u8],
        limits: Limits,
    ) -> Result<Value<'_>, Error> {
        let id = id.into();
        self.after_length(id, bytes, |value| self.decode_within(id, value, limits))
    }

    /// Returns the JSON of an opaque value, within the default limits.
    ///
    /// # Errors
    /// As [`decode_opaque`](Registry::decode_opaque).
    pub fn decode_opaque_json(&self, id: impl Into<TypeId>, bytes: &[u8]) -> Result<String, Error> {
        self.decode_opaque_json_within(id, bytes, Limits::new())
    }

    /// Returns JSON as [`decode_opaque_json`](Registry::decode_opaque_json) does, within these
    /// limits.
    ///
    /// # Errors
    /// As [`decode_opaque_within`](Registry::decode_opaque_within).
    pub fn decode_opaque_json_within(
        &self,
        id: impl Into<TypeId>,
        bytes: &[u8],
        limits: Limits,
    ) -> Result<String, Error> {
        let id = id.into();
        self.after_length(id, bytes, |value| {
            self.decode_json_within(id, value, limits)
        })
    }
}
