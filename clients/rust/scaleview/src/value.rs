//! A value that is decoded.

use crate::bits::Bits;
use crate::error::Error;
use crate::limits::Limits;
use crate::parts::{Children, Fields};
use crate::registry::Registry;
use crate::registry_ref::{RegistryRef, Sealed};
use crate::type_id::TypeId;
use crate::types::Type;
use crate::view::{Kind, ValueRef};
use scaleview_sys::scaleview_node as Node;
use std::sync::Arc;
use std::{fmt, ptr};

/// A decoded value, as [`Value`] and [`OwnedValue`] are. It keeps its nodes and their bytes in one
/// list each, and a reference to its registry.
///
/// [`root`](AnyValue::root) is the view of the complete value; what a view offers is offered here
/// too. It displays as the JSON that [`Registry::decode_json`] returns, and so does every part. In
/// the alternate form, `{:#}`, that text has a line for each part.
///
/// # Examples
///
/// ```
/// # use scaleview::{Error, Kind, Registry};
/// # fn main() -> Result<(), Error> {
/// # let bytes = b"\x08\x00\x00\x00\x05\x05\x00\x04\x04\x18Option\x00\x01\x08\x10None\x00\x00\x00\
/// #     \x10Some\x04\x00\x00\x00\x00\x01\x00\x00";
/// // enum Option { None, Some(u32) }
/// let registry = Registry::open(bytes)?;
/// let value = registry.decode(1, b"\x01\x2a\0\0\0")?;
/// let (name, mut fields) = value.variant().unwrap();
/// assert_eq!((name, fields.len()), ("Some", 1));
/// assert_eq!(fields.next().map(|field| field.kind()), Some(Kind::Unsigned(42)));
/// assert_eq!(value.to_string(), r#"{"Some":[42]}"#);
/// # Ok(())
/// # }
/// ```
#[derive(Clone)]
pub struct AnyValue<R: RegistryRef> {
    owner: R,
    nodes: Vec<Node>,
    pool: Vec<u8>,
}

/// A decoded value, over a registry that it borrows.
pub type Value<'r> = AnyValue<&'r Registry>;

/// A decoded value, over a registry or metadata that it shares: a function may return it, and a
/// thread may take it along.
///
/// # Examples
///
/// ```
/// # fn main() -> Result<(), scaleview::Error> {
/// use scaleview::{Error, OwnedValue, Registry};
/// use std::sync::Arc;
/// fn read(types: &[u8], bytes: &[u8]) -> Result<OwnedValue, Error> {
///     Arc::new(Registry::open(types)?).decode_owned(0, bytes)
/// }
/// let value = read(b"\x04\x00\x00\x00\x05\x05\x00", b"\x2a\0\0\0")?;
/// let number = std::thread::spawn(move || value.as_u128());
/// assert_eq!(number.join().unwrap(), Some(42));
/// # Ok(())
/// # }
/// ```
pub type OwnedValue<R = Registry> = AnyValue<Arc<R>>;

impl Value<'_> {
    /// Returns the value over a share of its registry or metadata, or `None` if `owner` is another
    /// one.
    ///
    /// # Examples
    ///
    /// ```
    /// # fn main() -> Result<(), scaleview::Error> {
    /// # use scaleview::Metadata;
    /// # use std::sync::Arc;
    /// # let bytes = b"meta\x0f\x04\0\0\0\x05\x05\0\0\x04\0\0\0\0\0\0\0\0\0\0\0";
    /// let metadata = Arc::new(Metadata::open(bytes)?);
    /// let value = metadata.call()?.decode(b"\x2a\0\0\0")?.into_owned(&metadata).unwrap();
    /// drop(metadata);
    /// assert_eq!(value.as_u128(), Some(42));
    /// # Ok(())
    /// # }
    /// ```
    pub fn into_owned<R>(self, owner: &Arc<R>) -> Option<OwnedValue<R>>
    where
        Arc<R>: RegistryRef,
    {
        ptr::eq(self.owner, owner.registry()).then(|| AnyValue {
            owner: Arc::clone(owner),
            nodes: self.nodes,
            pool: self.pool,
        })
    }
}

impl<R: RegistryRef> AnyValue<R> {
    pub(crate) fn new(owner: R, nodes: Vec<Node>, pool: Vec<u8>) -> Result<AnyValue<R>, Error> {
        owner.registry().read_names(&nodes)?;
        Ok(AnyValue { owner, nodes, pool })
    }

    pub(crate) fn decoded(
        owner: R,
        id: TypeId,
        bytes: &[u8],
        limits: Limits,
    ) -> Result<AnyValue<R>, Error> {
        let (nodes, pool) = owner.registry().decode_nodes(id, bytes, limits)?;
        AnyValue::new(owner, nodes, pool)
    }

    /// Returns the view of the whole value.
    pub fn root(&self) -> ValueRef<'_> {
        ValueRef {
            registry: self.owner.registry(),
            nodes: &self.nodes,
            pool: &self.pool,
        }
    }

    /// Returns the registry of its types.
    pub fn registry(&self) -> &Registry {
        self.owner.registry()
    }

    /// Returns the reference that keeps its registry open.
    pub fn owner(&self) -> &R {
        &self.owner
    }

    /// Does what [`ValueRef::type_id`] does.
    pub fn type_id(&self) -> TypeId {
        self.root().type_id()
    }

    /// Does what [`ValueRef::ty`] does.
    pub fn ty(&self) -> Option<Type<'_>> {
        self.root().ty()
    }

    /// Does what [`ValueRef::kind`] does.
    pub fn kind(&self) -> Kind<'_> {
        self.root().kind()
    }

    /// Does what [`ValueRef::children`] does.
    pub fn children(&self) -> Children<'_> {
        self.root().children()
    }

    /// Does what [`ValueRef::child`] does.
    pub fn child(&self, position: usize) -> Option<ValueRef<'_>> {
        self.root().child(position)
    }

    /// Does what [`ValueRef::fields`] does.
    pub fn fields(&self) -> Fields<'_> {
        self.root().fields()
    }

    /// Does what [`ValueRef::get`] does.
    pub fn get(&self, name: &str) -> Option<ValueRef<'_>> {
        self.root().get(name)
    }

    /// Does what [`ValueRef::at`] does.
    pub fn at(&self, path: &str) -> Option<ValueRef<'_>> {
        self.root().at(path)
    }

    /// Does what [`ValueRef::inner`] does.
    pub fn inner(&self) -> ValueRef<'_> {
        self.root().inner()
    }

    /// Does what [`ValueRef::to_web_json`] does.
    ///
    /// # Errors
    /// As [`ValueRef::to_web_json`].
    pub fn to_web_json(&self) -> Result<String, Error> {
        self.root().to_web_json()
    }

    /// Does what [`ValueRef::variant_name`] does.
    pub fn variant_name(&self) -> Option<&str> {
        self.root().variant_name()
    }

    /// Does what [`ValueRef::variant_index`] does.
    pub fn variant_index(&self) -> Option<u8> {
        self.root().variant_index()
    }

    /// Does what [`ValueRef::variant`] does.
    pub fn variant(&self) -> Option<(&str, Children<'_>)> {
        self.root().variant()
    }

    /// Does what [`ValueRef::as_bool`] does.
    pub fn as_bool(&self) -> Option<bool> {
        self.root().as_bool()
    }

    /// Does what [`ValueRef::as_char`] does.
    pub fn as_char(&self) -> Option<char> {
        self.root().as_char()
    }

    /// Does what [`ValueRef::as_u128`] does.
    pub fn as_u128(&self) -> Option<u128> {
        self.root().as_u128()
    }

    /// Does what [`ValueRef::as_i128`] does.
    pub fn as_i128(&self) -> Option<i128> {
        self.root().as_i128()
    }

    /// Does what [`ValueRef::as_str`] does.
    pub fn as_str(&self) -> Option<&str> {
        self.root().as_str()
    }

    /// Does what [`ValueRef::as_bytes`] does.
    pub fn as_bytes(&self) -> Option<&[u8]> {
        self.root().as_bytes()
    }

    /// Does what [`ValueRef::as_bits`] does.
    pub fn as_bits(&self) -> Option<Bits<'_>> {
        self.root().as_bits()
    }
}

/// Two values are equal if their views are.
impl<R: RegistryRef, S: RegistryRef> PartialEq<AnyValue<S>> for AnyValue<R> {
    fn eq(&self, other: &AnyValue<S>) -> bool {
        self.root() == other.root()
    }
}

impl<R: RegistryRef> Eq for AnyValue<R> {}

impl<R: RegistryRef> fmt::Display for AnyValue<R> {
    fn fmt(&self, f: &mut fmt::Formatter<'_>) -> fmt::Result {
        fmt::Display::fmt(&self.root(), f)
    }
}

impl<R: RegistryRef> fmt::Debug for AnyValue<R> {
    fn fmt(&self, f: &mut fmt::Formatter<'_>) -> fmt::Result {
        self.root().write_debug(f, "Value")
    }
}
