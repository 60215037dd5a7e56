//! Decodes and encodes SCALE, the binary codec of Polkadot and Substrate chains, by a registry of
//! types.
//!
//! A [`Registry`] is opened once, from a chain's metadata or from a registry alone. It decodes any
//! number of values: as a [`Value`] to walk through, as JSON text, or in pieces by a [`Session`].
//! It encodes a [`Value`] again, or an [`Item`] that a program builds. [`Metadata`] is a registry
//! that knows its types by what they are for: storage entries and their keys, constants, calls,
//! events, extrinsics. A [`Value`] borrows its registry, and an [`OwnedValue`] shares it. The
//! decoder behind this crate is proved; this wrapper is tested.
//!
//! ```
//! # fn main() -> Result<(), scaleview::Error> {
//! use scaleview::{Item, Registry};
//! # let metadata = [b"meta\x0e\x08\x00\x00\x00\x05\x05\x00".as_slice(),
//! #     b"\x04\x04\x10Pair\x00\x00\x08\x01\x04a\x00\x00\x00\x01\x04b\x00\x00\x00\x00"].concat();
//! let registry = Registry::open(&metadata)?;
//! let pair = registry.find("Pair").unwrap();
//! let value = registry.decode(pair, b"\x07\0\0\0\x09\0\0\0")?;
//! assert_eq!(value.get("b").and_then(|b| b.as_u128()), Some(9));
//! assert_eq!(value.to_string(), r#"{"a":7,"b":9}"#);
//!
//! let item = Item::named([("a", Item::from(1)), ("b", Item::from(2))]);
//! assert_eq!(registry.encode(pair, &item)?, b"\x01\0\0\0\x02\0\0\0");
//! # Ok(())
//! # }
//! ```

#![deny(missing_docs)]
#![deny(unsafe_op_in_unsafe_fn)]
#![deny(
    clippy::expect_used,
    clippy::indexing_slicing,
    clippy::panic,
    clippy::unwrap_used
)]

mod annotations;
mod bits;
mod buffer;
mod convert;
mod describe;
mod error;
mod error_path;
mod index;
mod item;
mod json;
mod limits;
mod lower;
mod metadata;
mod named;
mod opaque;
mod options;
mod parts;
mod path;
mod registry;
mod registry_ref;
mod session;
mod type_id;
mod types;
mod value;
mod view;
mod wide;

pub use annotations::{Param, Part};
pub use bits::{BitIter, Bits};
pub use convert::TryFromValueError;
pub use error::{Error, NodeReason, RegistryReason, ValueReason};
pub use item::{Item, Source};
pub use limits::{Limits, Memory};
pub use metadata::{Metadata, Names};
pub use named::{Constant, Method, Named, Storage};
pub use options::OpenOptions;
pub use parts::{Children, Fields};
pub use registry::Registry;
pub use registry_ref::RegistryRef;
pub use session::{AnySession, OwnedSession, Progress, Session};
pub use type_id::TypeId;
pub use types::{Class, Field, ParseTypeError, Primitive, Type, TypeKind, Types, Variant};
pub use value::{AnyValue, OwnedValue, Value};
pub use view::{Kind, ValueRef};
