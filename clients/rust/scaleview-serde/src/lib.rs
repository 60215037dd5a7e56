//! Values of [`scaleview`] for serde.
//!
//! [`DecodeAs::decode_as`] decodes bytes into any type that is `Deserialize`, [`from_value`] does
//! so with a value or a part of one, and [`Serde`] makes a value `Serialize`.
//!
//! ```
//! # use scaleview::Registry;
//! use scaleview_serde::{DecodeAs, Serde};
//! # fn main() -> Result<(), Box<dyn std::error::Error>> {
//! # let bytes = b"\x08\x00\x00\x00\x05\x05\x00\x04\x04\x10Pair\x00\x00\x08\
//! #     \x01\x04a\x00\x00\x00\x01\x04b\x00\x00\x00\x00";
//! #[derive(Debug, PartialEq, serde::Deserialize)]
//! struct Pair {
//!     a: u32,
//!     b: u64,
//! }
//! let registry = Registry::open(bytes)?;
//! let pair: Pair = registry.decode_as(1, b"\x07\0\0\0\x09\0\0\0")?;
//! assert_eq!(pair, Pair { a: 7, b: 9 });
//!
//! let value = registry.decode(1, b"\x07\0\0\0\x09\0\0\0")?;
//! assert_eq!(serde_json::to_string(&Serde(value.root()))?, r#"{"a":7,"b":9}"#);
//! # Ok(())
//! # }
//! ```
//!
//! # How a value becomes a type of Rust
//!
//! | value | type of Rust |
//! |---|---|
//! | an integer | an integer type that holds it; one that has no type of 128 bits is 32 bytes |
//! | a composite or a tuple | a struct, a map or a tuple; a newtype also what it holds |
//! | a variant | an enum with a variant of that name; `None` and `Some` also an `Option` |
//! | bytes | `&[u8]`, `Vec<u8>`, `[u8; N]` |
//! | a text | `&str`, `String` |
//! | a list, or bits, which are `bool` | a `Vec`, a tuple |
//! | elements of no bytes | a `Vec` or a tuple of units, or a map with their `count` |
//! | the value of a type of no bytes | `()`, a unit struct |
//!
//! # How a value is serialized
//!
//! In formats that people read, as JSON, it is what
//! [`to_web_json`](scaleview::ValueRef::to_web_json) writes, with fields in the order of the type.
//! In others integers are integers, bytes are bytes, and bits are a sequence of `bool`.

#![deny(missing_docs)]
#![forbid(unsafe_code)]
#![deny(
    clippy::expect_used,
    clippy::indexing_slicing,
    clippy::panic,
    clippy::unwrap_used
)]

mod de;
mod error;
mod ser;

pub use de::{DecodeAs, from_value};
pub use error::Error;

/// A view of a value that serde reads: it is `Serialize`, and a `Deserializer`.
#[derive(Clone, Copy, Debug, PartialEq, Eq)]
pub struct Serde<'a>(pub scaleview::ValueRef<'a>);
