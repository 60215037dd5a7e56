//! Metadata with the names that it gives to types.

use crate::error::Error;
use crate::index::{Entry, Index};
use crate::limits::Limits;
use crate::named::{Constant, Method, Named, Storage};
use crate::options::OpenOptions;
use crate::registry::Registry;
use crate::session::OwnedSession;
use crate::type_id::TypeId;
use crate::value::{AnyValue, OwnedValue, Value};
use std::iter::FusedIterator;
use std::ops::Deref;
use std::sync::Arc;
use std::{fmt, slice};

/// A chain's metadata, version 14 or 15, with the names that it gives to types.
///
/// It dereferences to its [`Registry`], which decodes and encodes the values. After the registry's
/// own types come synthetic ones: those of extrinsics, of storage keys and of what the methods of
/// runtime APIs take, and the few small types that these need.
///
/// A pallet, an entry and the like stand in a name as they do in the metadata, and a name is
/// compared as a whole, never cut at a dot.
///
/// # Examples
///
/// ```
/// # use std::{error::Error, fs};
/// use scaleview::Metadata;
/// # fn main() -> Result<(), Box<dyn Error>> {
/// # std::env::set_current_dir(concat!(env!("CARGO_MANIFEST_DIR"), "/../../.."))?;
/// let metadata = Metadata::open(&fs::read("examples/chain/chain.metadata")?)?;
///
/// let bytes = fs::read("examples/runtime/account_info.scale")?;
/// let account = metadata.storage("System.Account")?.decode(&bytes)?;
/// assert_eq!(account.at("nonce").and_then(|nonce| nonce.as_u128()), Some(712_822));
///
/// let deposit = metadata.constant("Balances.ExistentialDeposit")?;
/// assert_eq!(deposit.value()?.as_u128(), Some(10_000_000_000));
///
/// let extrinsic = metadata.decode_extrinsic(&fs::read("examples/chain/transfer.scale")?)?;
/// assert_eq!(extrinsic.variant_name(), Some("signed"));
/// # Ok(())
/// # }
/// ```
pub struct Metadata {
    registry: Registry,
    index: Index,
}

impl Metadata {
    pub(crate) fn of(registry: Registry) -> Result<Metadata, Error> {
        let index = Index::of(&registry)?;
        Ok(Metadata { registry, index })
    }

    /// Opens the metadata that all the bytes hold. They are not kept.
    ///
    /// Values of bit sequences are rejected, unless the metadata is opened with
    /// [`OpenOptions::bits`].
    ///
    /// # Errors
    /// `Registry` if the registry is rejected or bytes follow the metadata; `Metadata` if what
    /// follows the registry is rejected; `UnknownMetadataReference` if that refers to a type that
    /// doesn't exist, and `UnknownReference` if a type does; `Memory`, `Version`.
    ///
    /// # Examples
    ///
    /// ```
    /// # use scaleview::{Error, Metadata, ValueReason};
    /// # fn main() -> Result<(), Error> {
    /// # let bytes = b"meta\x0f\x04\0\0\0\x05\x05\0\0\x04\0\0\0\0\0\0\0\0\0\0\0";
    /// let metadata = Metadata::open(bytes)?;
    /// assert_eq!((metadata.version(), metadata.len()), (Some(15), 3));
    ///
    /// let error = Metadata::open(&bytes[..20]).unwrap_err();
    /// let reason = ValueReason::Truncated;
    /// assert_eq!(error, Error::Metadata { reason, place: 20 });
    /// # Ok(())
    /// # }
    /// ```
    pub fn open(bytes: &[u8]) -> Result<Metadata, Error> {
        OpenOptions::new().open_with_names(bytes)
    }

    /// Returns the registry alone. The positions of its types stay.
    pub fn into_registry(self) -> Registry {
        self.registry
    }

    /// Returns the storage entry of this name: the pallet's, a dot and the entry's, such as
    /// `System.Account`.
    ///
    /// # Errors
    /// `UnknownName`, `Memory`.
    pub fn storage(&self, name: &str) -> Result<Storage<'_>, Error> {
        let value = self.of_word("storage:", name)?;
        Ok(Storage::of(value, &self.index))
    }

    /// Returns the constant of this name: the pallet's, a dot and its own, such as
    /// `Balances.ExistentialDeposit`.
    ///
    /// # Errors
    /// `UnknownName`, `Memory`.
    pub fn constant(&self, name: &str) -> Result<Constant<'_>, Error> {
        self.of_word("constant:", name).map(Constant::of)
    }

    /// Returns the type of a pallet's calls.
    ///
    /// # Errors
    /// `UnknownName`, `Memory`.
    pub fn calls(&self, pallet: &str) -> Result<Named<'_>, Error> {
        self.of_word("calls:", pallet)
    }

    /// Returns the type of a pallet's events.
    ///
    /// # Errors
    /// `UnknownName`, `Memory`.
    pub fn events(&self, pallet: &str) -> Result<Named<'_>, Error> {
        self.of_word("events:", pallet)
    }

    /// Returns the type of a pallet's errors.
    ///
    /// # Errors
    /// `UnknownName`, `Memory`.
    pub fn errors(&self, pallet: &str) -> Result<Named<'_>, Error> {
        self.of_word("errors:", pallet)
    }

    /// Returns the type of extrinsics. In a block they have their length in front, which
    /// [`decode_extrinsic`](Metadata::decode_extrinsic) reads.
    ///
    /// # Errors
    /// `UnknownName`, `Memory`.
    pub fn extrinsic(&self) -> Result<Named<'_>, Error> {
        self.named("extrinsic")
    }

    /// Decodes an extrinsic of a block, with its length in front, as
    /// [`decode_opaque`](Registry::decode_opaque) does.
    ///
    /// # Errors
    /// As [`decode_opaque`](Registry::decode_opaque), and `UnknownName` if the metadata doesn't
    /// say what extrinsics are.
    pub fn decode_extrinsic(&self, bytes: &[u8]) -> Result<Value<'_>, Error> {
        self.registry.decode_opaque(self.extrinsic()?, bytes)
    }

    /// Decodes a value as [`Registry::decode_owned`] does. It shares the metadata, so it may be
    /// kept anywhere.
    ///
    /// # Errors
    /// As [`Registry::decode`].
    ///
    /// # Examples
    ///
    /// ```
    /// # use std::{error::Error, fs};
    /// use scaleview::{Metadata, OwnedValue};
    /// # use std::sync::Arc;
    /// type Account = Result<OwnedValue<Metadata>, scaleview::Error>;
    /// fn account(chain: &Arc<Metadata>, bytes: &[u8]) -> Account {
    ///     chain.decode_owned(chain.storage("System.Account")?, bytes)
    /// }
    /// # fn main() -> Result<(), Box<dyn Error>> {
    /// # std::env::set_current_dir(concat!(env!("CARGO_MANIFEST_DIR"), "/../../.."))?;
    /// let chain = Arc::new(Metadata::open(&fs::read("examples/chain/chain.metadata")?)?);
    /// let account = account(&chain, &fs::read("examples/runtime/account_info.scale")?)?;
    /// assert_eq!(account.at("nonce").and_then(|nonce| nonce.as_u128()), Some(712_822));
    /// # Ok(())
    /// # }
    /// ```
    pub fn decode_owned(
        self: &Arc<Self>,
        id: impl Into<TypeId>,
        bytes: &[u8],
    ) -> Result<OwnedValue<Metadata>, Error> {
        self.decode_owned_within(id, bytes, Limits::new())
    }

    /// Decodes a value as [`decode_owned`](Metadata::decode_owned) does, within these limits.
    ///
    /// # Errors
    /// As [`Registry::decode_within`].
    pub fn decode_owned_within(
        self: &Arc<Self>,
        id: impl Into<TypeId>,
        bytes: &[u8],
        limits: Limits,
    ) -> Result<OwnedValue<Metadata>, Error> {
        AnyValue::decoded(Arc::clone(self), id.into(), bytes, limits)
    }

    /// Starts a value as [`Registry::start_owned`] does. The session shares the metadata.
    ///
    /// # Errors
    /// As [`Registry::start`].
    pub fn start_owned(
        self: &Arc<Self>,
        id: impl Into<TypeId>,
        limits: Limits,
    ) -> Result<OwnedSession<Metadata>, Error> {
        OwnedSession::over(Arc::clone(self), id.into(), limits)
    }

    /// Returns the type of the calls of all pallets.
    ///
    /// # Errors
    /// `UnknownName`, `Memory`.
    pub fn call(&self) -> Result<Named<'_>, Error> {
        self.named("call")
    }

    /// Returns the type of the events of all pallets. Metadata of version 14 doesn't name it.
    ///
    /// # Errors
    /// `UnknownName`, `Memory`.
    pub fn event(&self) -> Result<Named<'_>, Error> {
        self.named("event")
    }

    /// Returns the type of the errors of all pallets. Metadata of version 14 doesn't name it.
    ///
    /// # Errors
    /// `UnknownName`, `Memory`.
    pub fn error(&self) -> Result<Named<'_>, Error> {
        self.named("error")
    }

    /// Returns what a method of a runtime API takes and returns, such as `Core.version`. Metadata
    /// of version 14 names no methods.
    ///
    /// # Errors
    /// `UnknownName`, `Memory`.
    pub fn api(&self, method: &str) -> Result<Method<'_>, Error> {
        Ok(Method {
            params: self.of_word("params:", method)?,
            result: self.of_word("result:", method)?,
        })
    }

    /// Returns the type of a custom value, which has bytes. Metadata of version 14 has none.
    ///
    /// # Errors
    /// `UnknownName`, `Memory`.
    pub fn custom(&self, name: &str) -> Result<Named<'_>, Error> {
        self.of_word("custom:", name)
    }

    /// Returns the type of a name as a whole, such as `storage:System.Account`.
    ///
    /// # Errors
    /// `UnknownName`, `Memory`.
    ///
    /// # Examples
    ///
    /// ```
    /// # use scaleview::{Error, Metadata};
    /// # fn main() -> Result<(), Error> {
    /// # let bytes = b"meta\x0f\x04\0\0\0\x05\x05\0\0\x04\0\0\0\0\0\0\0\0\0\0\0";
    /// let metadata = Metadata::open(bytes)?;
    /// assert_eq!(u32::from(metadata.named("extrinsic")?.type_id()), 1);
    ///
    /// let error = metadata.named("calls:Balances").unwrap_err();
    /// assert_eq!(error.to_string(), "type: UnknownName \"calls:Balances\"");
    /// # Ok(())
    /// # }
    /// ```
    pub fn named(&self, name: &str) -> Result<Named<'_>, Error> {
        let found = self.index.find_whole(name);
        found
            .map(|entry| Named::of(&self.registry, entry))
            .ok_or_else(|| Error::unknown_name("", name))
    }

    /// Returns all names, in the order of the metadata.
    ///
    /// # Examples
    ///
    /// ```
    /// # use scaleview::{Error, Metadata};
    /// # fn main() -> Result<(), Error> {
    /// # let bytes = b"meta\x0f\x04\0\0\0\x05\x05\0\0\x04\0\0\0\0\0\0\0\0\0\0\0";
    /// let metadata = Metadata::open(bytes)?;
    /// let mut lines = String::new();
    /// for named in metadata.names() {
    ///     lines += &format!("{} {}, ", named.name(), named.type_id());
    /// }
    /// assert_eq!(lines, "extrinsic 1, call 0, event 0, error 0, ");
    /// # Ok(())
    /// # }
    /// ```
    pub fn names(&self) -> Names<'_> {
        Names {
            registry: &self.registry,
            entries: self.index.entries.iter(),
        }
    }

    /// Returns all storage entries, in the order of the metadata.
    ///
    /// # Examples
    ///
    /// ```
    /// # use std::{error::Error, fs};
    /// # use scaleview::Metadata;
    /// # fn main() -> Result<(), Box<dyn Error>> {
    /// # std::env::set_current_dir(concat!(env!("CARGO_MANIFEST_DIR"), "/../../.."))?;
    /// let metadata = Metadata::open(&fs::read("examples/chain/chain.metadata")?)?;
    /// let mut entries = metadata.storage_entries();
    /// assert_eq!(entries.next().map(|entry| entry.name()), Some("System.Account"));
    /// # Ok(())
    /// # }
    /// ```
    pub fn storage_entries(&self) -> impl Iterator<Item = Storage<'_>> {
        let values = self.with_word("storage:");
        values.map(|value| Storage::of(value, &self.index))
    }

    /// Returns all constants, in the order of the metadata.
    ///
    /// # Examples
    ///
    /// ```
    /// # use std::{error::Error, fs};
    /// # use scaleview::Metadata;
    /// # fn main() -> Result<(), Box<dyn Error>> {
    /// # std::env::set_current_dir(concat!(env!("CARGO_MANIFEST_DIR"), "/../../.."))?;
    /// let metadata = Metadata::open(&fs::read("examples/chain/chain.metadata")?)?;
    /// let mut constants = metadata.constants();
    /// assert_eq!(constants.next().map(|one| one.name()), Some("System.BlockHashCount"));
    /// # Ok(())
    /// # }
    /// ```
    pub fn constants(&self) -> impl Iterator<Item = Constant<'_>> {
        self.with_word("constant:").map(Constant::of)
    }

    fn with_word<'m>(&'m self, word: &'m str) -> impl Iterator<Item = Named<'m>> {
        self.names()
            .filter(move |named| named.name().starts_with(word))
    }

    #[inline]
    fn of_word(&self, word: &str, path: &str) -> Result<Named<'_>, Error> {
        let found = self.index.find(word, path);
        found
            .map(|entry| Named::of(&self.registry, entry))
            .ok_or_else(|| Error::unknown_name(word, path))
    }
}

impl Deref for Metadata {
    type Target = Registry;

    fn deref(&self) -> &Registry {
        &self.registry
    }
}

impl fmt::Debug for Metadata {
    fn fmt(&self, f: &mut fmt::Formatter<'_>) -> fmt::Result {
        f.debug_struct("Metadata")
            .field("registry", &self.registry)
            .field("names", &self.index.entries.len())
            .finish()
    }
}

impl<'m> IntoIterator for &'m Metadata {
    type Item = Named<'m>;
    type IntoIter = Names<'m>;

    fn into_iter(self) -> Names<'m> {
        self.names()
    }
}

/// The names of metadata, in its order, by [`Metadata::names`].
#[derive(Clone)]
pub struct Names<'m> {
    registry: &'m Registry,
    entries: slice::Iter<'m, Entry>,
}

impl<'m> Iterator for Names<'m> {
    type Item = Named<'m>;

    fn next(&mut self) -> Option<Named<'m>> {
        let entry = self.entries.next()?;
        Some(Named::of(self.registry, entry))
    }

    fn size_hint(&self) -> (usize, Option<usize>) {
        self.entries.size_hint()
    }
}

impl DoubleEndedIterator for Names<'_> {
    fn next_back(&mut self) -> Option<Self::Item> {
        let entry = self.entries.next_back()?;
        Some(Named::of(self.registry, entry))
    }
}

impl ExactSizeIterator for Names<'_> {}

impl FusedIterator for Names<'_> {}

impl fmt::Debug for Names<'_> {
    fn fmt(&self, f: &mut fmt::Formatter<'_>) -> fmt::Result {
        f.debug_list().entries(self.clone()).finish()
    }
}
