//! What metadata names.

use crate::buffer;
use crate::error::Error;
use crate::index::{Entry, Index};
use crate::item::Source;
use crate::limits::Limits;
use crate::registry::Registry;
use crate::type_id::TypeId;
use crate::types::Type;
use crate::value::Value;
use scaleview_sys::{self as sys, scaleview_answer as Answer};
use std::fmt;

/// A type by the name that metadata gives to it.
#[derive(Clone, Copy)]
pub struct Named<'m> {
    registry: &'m Registry,
    entry: &'m Entry,
}

impl<'m> Named<'m> {
    pub(crate) fn of(registry: &'m Registry, entry: &'m Entry) -> Named<'m> {
        Named { registry, entry }
    }

    /// Returns the name as a whole, such as `storage:System.Account`.
    pub fn name(self) -> &'m str {
        &self.entry.name
    }

    /// Returns what follows the word and the colon, or the name as a whole if it has none.
    fn path(self) -> &'m str {
        let name = self.name();
        name.split_once(':').map_or(name, |(_, path)| path)
    }

    /// Returns the position of the type.
    pub fn type_id(self) -> TypeId {
        self.entry.type_id
    }

    /// Returns the type.
    pub fn ty(self) -> Option<Type<'m>> {
        self.registry.get(self.type_id())
    }

    /// Returns whether the metadata has bytes for the name: those of a constant, of a custom value,
    /// or of a storage entry's default.
    pub fn has_bytes(self) -> bool {
        self.entry.has_bytes
    }

    /// Returns the bytes that the metadata has for the name. They need not be a value.
    ///
    /// # Errors
    /// `NoBytes` with the name, `Memory`.
    pub fn bytes(self) -> Result<Vec<u8>, Error> {
        let name = self.name();
        let call = |out, room, answer: &mut Answer| {
            let (at, length) = (name.as_ptr(), name.len());
            // SAFETY: the registry is open; the slice and the places are this call's.
            self.registry.reading(|handle| unsafe {
                sys::scaleview_name_bytes(handle, at, length, out, room, answer)
            })
        };
        // SAFETY: the header promises what `bytes` wants.
        unsafe { buffer::bytes(64, call) }.map_err(|answer| match answer.code {
            sys::SCALEVIEW_NO_BYTES => Error::no_bytes(name),
            _ => Error::of(answer),
        })
    }

    /// Decodes the bytes that the metadata has for the name, within the default limits.
    ///
    /// # Errors
    /// `NoBytes` with the name, `Value` with the reason and the place in these bytes, `Memory`.
    pub fn value(self) -> Result<Value<'m>, Error> {
        self.decode(&self.bytes()?)
    }

    /// Decodes a value of the type as [`Registry::decode`] does.
    ///
    /// # Errors
    /// As [`Registry::decode`].
    pub fn decode(self, bytes: &[u8]) -> Result<Value<'m>, Error> {
        self.decode_within(bytes, Limits::new())
    }

    /// Decodes a value of the type as [`Registry::decode_within`] does.
    ///
    /// # Errors
    /// As [`Registry::decode_within`].
    pub fn decode_within(self, bytes: &[u8], limits: Limits) -> Result<Value<'m>, Error> {
        self.registry.decode_within(self, bytes, limits)
    }

    /// Returns the JSON of a value of the type as [`Registry::decode_json`] does.
    ///
    /// # Errors
    /// As [`Registry::decode_json`].
    pub fn decode_json(self, bytes: &[u8]) -> Result<String, Error> {
        self.registry.decode_json(self, bytes)
    }

    /// Encodes a value of the type as [`Registry::encode`] does.
    ///
    /// # Errors
    /// As [`Registry::encode`].
    pub fn encode<'a>(self, source: impl Into<Source<'a>>) -> Result<Vec<u8>, Error> {
        self.registry.encode(self, source)
    }
}

impl From<Named<'_>> for TypeId {
    fn from(named: Named<'_>) -> TypeId {
        named.type_id()
    }
}

impl fmt::Debug for Named<'_> {
    fn fmt(&self, f: &mut fmt::Formatter<'_>) -> fmt::Result {
        f.debug_struct("Named")
            .field("name", &self.name())
            .field("type_id", &self.type_id())
            .finish_non_exhaustive()
    }
}

/// A storage entry: the type of its values, and that of its keys.
///
/// # Examples
///
/// ```
/// # use std::{error::Error, fs};
/// # use scaleview::Metadata;
/// # fn main() -> Result<(), Box<dyn Error>> {
/// # std::env::set_current_dir(concat!(env!("CARGO_MANIFEST_DIR"), "/../../.."))?;
/// let metadata = Metadata::open(&fs::read("examples/chain/chain.metadata")?)?;
/// let account = metadata.storage("System.Account")?;
///
/// let key = account.decode_key(&fs::read("examples/chain/key.scale")?)?;
/// assert_eq!(key.at("key0").and_then(|id| id.as_bytes()).unwrap()[..2], [0xd4, 0x35]);
///
/// let value = account.decode(&fs::read("examples/runtime/account_info.scale")?)?;
/// assert_eq!(value.at("nonce").and_then(|nonce| nonce.as_u128()), Some(712_822));
/// # Ok(())
/// # }
/// ```
#[derive(Clone, Copy)]
pub struct Storage<'m> {
    value: Named<'m>,
    index: &'m Index,
}

impl<'m> Storage<'m> {
    pub(crate) fn of(value: Named<'m>, index: &'m Index) -> Storage<'m> {
        Storage { value, index }
    }

    /// Returns the name of the pallet and of the entry, such as `System.Account`.
    pub fn name(self) -> &'m str {
        self.value.path()
    }

    /// Returns the type of its values, by the name `storage:System.Account`.
    pub fn value(self) -> Named<'m> {
        self.value
    }

    /// Returns the type of its keys, by the name `key:System.Account`: a composite of the hashes of
    /// both names, and of what each hasher writes. It is `None` if the entry's type of keys isn't a
    /// tuple of one member for each hasher.
    pub fn key(self) -> Option<Named<'m>> {
        let key = self.index.find("key:", self.name());
        key.map(|entry| Named::of(self.value.registry, entry))
    }

    /// Returns the position of the type of its values.
    pub fn type_id(self) -> TypeId {
        self.value.type_id()
    }

    /// Decodes a value of the entry as [`Registry::decode`] does.
    ///
    /// # Errors
    /// As [`Registry::decode`].
    pub fn decode(self, bytes: &[u8]) -> Result<Value<'m>, Error> {
        self.value.decode(bytes)
    }

    /// Decodes a key of the entry. Hashes are not compared with what they should be.
    ///
    /// # Errors
    /// As [`Registry::decode`], and `UnknownName` if the keys have no type.
    pub fn decode_key(self, bytes: &[u8]) -> Result<Value<'m>, Error> {
        let unknown = || Error::unknown_name("key:", self.name());
        self.key().ok_or_else(unknown)?.decode(bytes)
    }

    /// Decodes the value that stands for an absent one, or returns `None` if there is none.
    ///
    /// # Errors
    /// `Value` with the reason and the place in the bytes that the metadata has; `Memory`.
    pub fn default(self) -> Result<Option<Value<'m>>, Error> {
        if self.value.has_bytes() {
            self.value.value().map(Some)
        } else {
            Ok(None)
        }
    }
}

impl fmt::Debug for Storage<'_> {
    fn fmt(&self, f: &mut fmt::Formatter<'_>) -> fmt::Result {
        f.debug_struct("Storage")
            .field("value", &self.value)
            .finish_non_exhaustive()
    }
}

impl From<Storage<'_>> for TypeId {
    fn from(entry: Storage<'_>) -> TypeId {
        entry.type_id()
    }
}

/// A constant of a pallet.
///
/// # Examples
///
/// ```
/// # use std::{error::Error, fs};
/// # use scaleview::Metadata;
/// # fn main() -> Result<(), Box<dyn Error>> {
/// # std::env::set_current_dir(concat!(env!("CARGO_MANIFEST_DIR"), "/../../.."))?;
/// let metadata = Metadata::open(&fs::read("examples/chain/chain.metadata")?)?;
/// let deposit = metadata.constant("Balances.ExistentialDeposit")?;
/// assert_eq!(deposit.value()?.as_u128(), Some(10_000_000_000));
/// # Ok(())
/// # }
/// ```
#[derive(Clone, Copy, Debug)]
pub struct Constant<'m> {
    named: Named<'m>,
}

impl<'m> Constant<'m> {
    pub(crate) fn of(named: Named<'m>) -> Constant<'m> {
        Constant { named }
    }

    /// Returns the name of the pallet and of the constant, such as `Balances.ExistentialDeposit`.
    pub fn name(self) -> &'m str {
        self.named.path()
    }

    /// Returns its type, by the name `constant:Balances.ExistentialDeposit`.
    pub fn named(self) -> Named<'m> {
        self.named
    }

    /// Returns the position of its type.
    pub fn type_id(self) -> TypeId {
        self.named.type_id()
    }

    /// Returns its bytes. They need not be a value.
    ///
    /// # Errors
    /// `Memory`.
    pub fn bytes(self) -> Result<Vec<u8>, Error> {
        self.named.bytes()
    }

    /// Decodes its value.
    ///
    /// # Errors
    /// `Value` with the reason and the place in its bytes, `Memory`.
    pub fn value(self) -> Result<Value<'m>, Error> {
        self.named.value()
    }
}

impl From<Constant<'_>> for TypeId {
    fn from(constant: Constant<'_>) -> TypeId {
        constant.type_id()
    }
}

/// A method of a runtime API.
#[derive(Clone, Copy, Debug)]
pub struct Method<'m> {
    /// The type of what it takes: a composite with a field for each input.
    pub params: Named<'m>,
    /// The type of what it returns.
    pub result: Named<'m>,
}
