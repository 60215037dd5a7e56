//! Conversions of a value's leaves into Rust's types, and of its parts into items.

use crate::bits::Bits;
use crate::item::Item;
use crate::registry_ref::RegistryRef;
use crate::types::Keys;
use crate::value::AnyValue;
use crate::view::{Kind, ValueRef};
use std::fmt;

/// The error of a conversion of a part of a value into a type of Rust.
///
/// # Examples
///
/// ```
/// # use scaleview::{Error, Registry};
/// # fn main() -> Result<(), Error> {
/// let registry = Registry::open(b"\x04\x00\x00\x00\x05\x05\x00")?;
/// let value = registry.decode(0, b"\x00\x01\x00\x00")?;
/// assert_eq!(u16::try_from(value.root()), Ok(256));
/// let error = u8::try_from(value.root()).unwrap_err();
/// assert_eq!(error.to_string(), "the value is of another kind or out of range");
/// # Ok(())
/// # }
/// ```
#[derive(Clone, Copy, Debug, PartialEq, Eq, Hash)]
pub struct TryFromValueError(());

impl fmt::Display for TryFromValueError {
    fn fmt(&self, f: &mut fmt::Formatter<'_>) -> fmt::Result {
        f.pad("the value is of another kind or out of range")
    }
}

impl std::error::Error for TryFromValueError {}

macro_rules! try_from_leaf {
    ($read:ident: $($leaf:ty)+) => {
        $(impl<'a> TryFrom<ValueRef<'a>> for $leaf {
            type Error = TryFromValueError;

            #[doc = concat!("Converts what [`ValueRef::", stringify!($read), "`] returns.")]
            fn try_from(value: ValueRef<'a>) -> Result<Self, TryFromValueError> {
                let leaf = value.$read().map(<$leaf>::try_from);
                leaf.and_then(Result::ok).ok_or(TryFromValueError(()))
            }
        })+
    };
}

try_from_leaf! { as_u128: u8 u16 u32 u64 u128 }
try_from_leaf! { as_i128: i8 i16 i32 i64 i128 }
try_from_leaf! { as_bool: bool }
try_from_leaf! { as_char: char }
try_from_leaf! { as_str: &'a str }
try_from_leaf! { as_bytes: &'a [u8] }
try_from_leaf! { as_bits: Bits<'a> }

/// Returns the item of a part without parts, or the item of one whose parts are made, its first one
/// last.
fn item_of<'a>(value: ValueRef<'a>, made: &mut Vec<Item<'a>>) -> Item<'a> {
    match value.kind() {
        Kind::Unit => Item::Unit,
        Kind::Bool(is) => Item::Bool(is),
        Kind::Char(c) => Item::Char(c),
        Kind::Text(text) => Item::Text(text.into()),
        Kind::Bytes(bytes) => Item::Bytes(bytes.into()),
        Kind::Unsigned(number) | Kind::Compact(number) => Item::Unsigned(number),
        Kind::Signed(number) => Item::Signed(number),
        Kind::Wide(bytes) => Item::Wide(bytes),
        Kind::Empties(count) => Item::Empties(count),
        Kind::Bits(bits) => Item::Bits(bits),
        Kind::Fields | Kind::Variant | Kind::List => parent_of(value, made),
    }
}

/// Returns whether an earlier variant of the type has the name of this one.
fn shares_name(value: ValueRef<'_>) -> bool {
    let variants = value.variants().and_then(<[_]>::split_last);
    variants.is_some_and(|(own, earlier)| earlier.iter().any(|one| one.name() == own.name()))
}

/// Returns the item of a part whose parts are made, its first one last.
fn parent_of<'a>(value: ValueRef<'a>, made: &mut Vec<Item<'a>>) -> Item<'a> {
    let first = made.len().saturating_sub(value.children().len());
    let parts = made.drain(first..).rev();
    if let Some(index) = value.variant_index().filter(|_| shares_name(value)) {
        return Item::indexed_variant(index, parts);
    }
    let fields = value.list().filter(|list| list.keys != Keys::Array);
    match (value.variant_name(), fields) {
        (None, None) if value.kind() == Kind::List => Item::List(parts.collect()),
        (None, None) => Item::Fields(parts.collect()),
        (Some(name), None) => Item::variant(name, parts),
        (name, Some(list)) => {
            let names = list.fields.iter().filter_map(|field| field.name());
            match name {
                None => Item::named(names.zip(parts)),
                Some(name) => Item::named_variant(name, names.zip(parts)),
            }
        }
    }
}

/// Borrows texts, bytes, bits and names, and encodes as the same bytes. Fields are given by their
/// names if all have different ones, and a variant by its name unless an earlier one has it too.
///
/// # Examples
///
/// ```
/// # use scaleview::{Error, Item, Registry};
/// # fn main() -> Result<(), Error> {
/// # let bytes = b"\x08\x00\x00\x00\x05\x05\x00\x04\x04\x10Pair\x00\x00\x08\
/// #     \x01\x04a\x00\x00\x00\x01\x04b\x00\x00\x00\x00";
/// // struct Pair { a: u32, b: u32 }
/// let registry = Registry::open(bytes)?;
/// let value = registry.decode(1, b"\x07\0\0\0\x09\0\0\0")?;
/// let Item::Named(mut fields) = Item::from(&value) else { panic!() };
/// fields[0].1 = 8.into();
/// assert_eq!(registry.encode(1, &Item::Named(fields))?, b"\x08\0\0\0\x09\0\0\0");
/// # Ok(())
/// # }
/// ```
impl<'a> From<ValueRef<'a>> for Item<'a> {
    // Nodes come before their children, so from the last one on a node's parts are made before it.
    fn from(value: ValueRef<'a>) -> Self {
        let mut made = Vec::new();
        for first in (0..value.nodes.len()).rev() {
            let nodes = value.nodes.get(first..).unwrap_or_default();
            let item = item_of(ValueRef { nodes, ..value }, &mut made);
            made.push(item);
        }
        made.pop().unwrap_or(Item::Unit)
    }
}

/// Converts the view of the whole value.
impl<'a, R: RegistryRef> From<&'a AnyValue<R>> for Item<'a> {
    fn from(value: &'a AnyValue<R>) -> Self {
        value.root().into()
    }
}
