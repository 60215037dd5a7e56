//! Values that a program builds, to be encoded.

use crate::bits::Bits;
#[cfg(doc)]
use crate::registry::Registry;
use crate::registry_ref::RegistryRef;
use crate::value::AnyValue;
use crate::view::ValueRef;
use std::borrow::Cow;

/// A value that a program builds, to be encoded by [`Registry::encode`]. Texts, bytes and names are
/// borrowed or owned, and bits are borrowed.
///
/// It has no types: the registry says which they are when it is encoded. So one kind of number is
/// enough for integers of all widths, compact ones too, and fields and variants are found by their
/// names.
///
/// A part whose type takes no bytes may be written as its type reads, or as [`Item::Unit`].
///
/// Drop, clone, `==`, `{:?}` and hashing recurse once for each level; encoding does not, and takes
/// at most 1024. A stack of 2 MiB holds 8,000 levels to drop and 1,200 to clone, compare, format or
/// hash, without optimization too. A program that builds an item from untrusted input must bound
/// its depth.
///
/// # Examples
///
/// ```
/// # use scaleview::{Error, Item, Registry};
/// # fn main() -> Result<(), Error> {
/// # let registry = Registry::open(
/// #     b"\x0c\x00\x00\x00\x05\x05\x00\x04\x04\x18Option\x00\x01\x08\x10None\x00\x00\x00\
/// #     \x10Some\x04\x00\x00\x00\x00\x01\x00\x00\
/// #     \x08\x04\x08At\x00\x00\x08\x01\x0cend\x04\x00\x00\x01\x14start\x00\x00\x00\x00")?;
/// // struct At { end: Option<u32>, start: u32 }
/// let at = registry.find("At").unwrap();
/// let end = Item::variant("Some", [2.into()]);
/// let item = Item::named([("start", 1.into()), ("end", end)]);
/// assert_eq!(registry.encode(at, &item)?, [1, 2, 0, 0, 0, 1, 0, 0, 0]);
/// # Ok(())
/// # }
/// ```
#[derive(Clone, Debug, PartialEq, Eq, Hash)]
#[non_exhaustive]
pub enum Item<'a> {
    /// The one value of a type that takes no bytes, whatever the type.
    Unit,
    /// A boolean.
    Bool(bool),
    /// A character.
    Char(char),
    /// A text.
    Text(Cow<'a, str>),
    /// A sequence or an array of u8.
    Bytes(Cow<'a, [u8]>),
    /// An integer of any width, or a compact one.
    Unsigned(u128),
    /// An integer of any width, or a compact one.
    Signed(i128),
    /// A 256-bit integer, the lowest byte first.
    Wide([u8; 32]),
    /// The fields of a composite or the members of a tuple, in their order.
    Fields(Vec<Item<'a>>),
    /// The fields of a composite by their names, in any order.
    Named(Vec<(Cow<'a, str>, Item<'a>)>),
    /// A variant by its name, with its fields in their order.
    Variant(Cow<'a, str>, Vec<Item<'a>>),
    /// A variant by its index, which is the first byte of its values, with its fields in their
    /// order.
    IndexedVariant(u8, Vec<Item<'a>>),
    /// A variant by its name, with its fields by their names.
    NamedVariant(Cow<'a, str>, Vec<(Cow<'a, str>, Item<'a>)>),
    /// The elements of an array, or of a sequence of another type than u8.
    List(Vec<Item<'a>>),
    /// A sequence of so many elements that take no bytes.
    Empties(u32),
    /// A bit sequence.
    Bits(Bits<'a>),
}

impl<'a> Item<'a> {
    /// Returns the fields of a composite or the members of a tuple, in their order.
    pub fn fields(fields: impl IntoIterator<Item = Item<'a>>) -> Item<'a> {
        Item::Fields(fields.into_iter().collect())
    }

    /// Returns the fields of a composite by their names, in any order.
    pub fn named<N: Into<Cow<'a, str>>>(
        fields: impl IntoIterator<Item = (N, Item<'a>)>,
    ) -> Item<'a> {
        Item::Named(by_name(fields))
    }

    /// Returns a variant by its name, with its fields in their order.
    pub fn variant(
        name: impl Into<Cow<'a, str>>,
        fields: impl IntoIterator<Item = Item<'a>>,
    ) -> Item<'a> {
        Item::Variant(name.into(), fields.into_iter().collect())
    }

    /// Returns a variant by its index, which is the first byte of its values, with its fields in
    /// their order. So variants that share a name are told apart.
    pub fn indexed_variant(index: u8, fields: impl IntoIterator<Item = Item<'a>>) -> Item<'a> {
        Item::IndexedVariant(index, fields.into_iter().collect())
    }

    /// Returns a variant by its name, with its fields by their names.
    pub fn named_variant<N: Into<Cow<'a, str>>>(
        name: impl Into<Cow<'a, str>>,
        fields: impl IntoIterator<Item = (N, Item<'a>)>,
    ) -> Item<'a> {
        Item::NamedVariant(name.into(), by_name(fields))
    }

    /// Returns the elements of an array, or of a sequence of another type than u8.
    pub fn list(elements: impl IntoIterator<Item = Item<'a>>) -> Item<'a> {
        Item::List(elements.into_iter().collect())
    }

    /// Returns a sequence or an array of u8.
    pub fn bytes(bytes: impl Into<Cow<'a, [u8]>>) -> Item<'a> {
        Item::Bytes(bytes.into())
    }

    /// Returns a bit sequence of a slice of `bool`, or of the bits of a decoded value.
    ///
    /// # Examples
    ///
    /// ```
    /// # use scaleview::{Error, Item, OpenOptions};
    /// # fn main() -> Result<(), Error> {
    /// // A u8, the order Lsb0, and a bit sequence of both.
    /// let types = b"\x0c\x00\0\0\x05\x03\0\x04\x04\x10Lsb0\0\0\0\0\x08\0\0\x07\x00\x04\0";
    /// let registry = OpenOptions::new().bits(true).open(types)?;
    /// let bytes = registry.encode(2, &Item::bits(&[true, false, true]))?;
    /// assert_eq!(bytes, b"\x0c\x05");
    ///
    /// let value = registry.decode(2, &bytes)?;
    /// let item = Item::bits(value.as_bits().unwrap());
    /// assert_eq!(registry.encode(2, &item)?, bytes);
    /// # Ok(())
    /// # }
    /// ```
    pub fn bits(bits: impl Into<Bits<'a>>) -> Item<'a> {
        Item::Bits(bits.into())
    }
}

/// Collects fields with their names.
fn by_name<'a, N: Into<Cow<'a, str>>>(
    fields: impl IntoIterator<Item = (N, Item<'a>)>,
) -> Vec<(Cow<'a, str>, Item<'a>)> {
    let fields = fields.into_iter();
    fields.map(|(name, item)| (name.into(), item)).collect()
}

macro_rules! from_number {
    ($kind:ident $wide:ident: $($number:ident)+) => {
        $(impl From<$number> for Item<'_> {
            fn from(number: $number) -> Self {
                Item::$kind($wide::from(number))
            }
        })+
    };
}

from_number! { Unsigned u128: u8 u16 u32 u64 u128 }
from_number! { Signed i128: i8 i16 i32 i64 i128 }

impl From<bool> for Item<'_> {
    fn from(is: bool) -> Self {
        Item::Bool(is)
    }
}

impl From<char> for Item<'_> {
    fn from(c: char) -> Self {
        Item::Char(c)
    }
}

macro_rules! from_cow {
    ($kind:ident: $($text:ty)+) => {
        $(impl<'a> From<$text> for Item<'a> {
            fn from(text: $text) -> Self {
                Item::$kind(text.into())
            }
        })+
    };
}

from_cow! { Text: &'a str &'a String String Cow<'a, str> }
from_cow! { Bytes: &'a [u8] &'a Vec<u8> Vec<u8> Cow<'a, [u8]> }

impl<'a, const N: usize> From<&'a [u8; N]> for Item<'a> {
    fn from(bytes: &'a [u8; N]) -> Self {
        Item::Bytes(bytes.as_slice().into())
    }
}

impl<'a> From<&'a [bool]> for Item<'a> {
    fn from(bits: &'a [bool]) -> Self {
        Item::bits(bits)
    }
}

impl<'a, const N: usize> From<&'a [bool; N]> for Item<'a> {
    fn from(bits: &'a [bool; N]) -> Self {
        Item::bits(bits)
    }
}

impl<'a> From<Bits<'a>> for Item<'a> {
    fn from(bits: Bits<'a>) -> Self {
        Item::Bits(bits)
    }
}

/// What [`Registry::encode`] takes: an item, a value, or a part of one.
#[derive(Clone, Copy, Debug)]
#[non_exhaustive]
pub enum Source<'a> {
    /// A value that a program built.
    Item(&'a Item<'a>),
    /// A value that was decoded, of this registry or of one whose types are at the same positions.
    ///
    /// The bit sequences in it are encoded as types of the same store and order. A part that is a
    /// bit sequence itself may be encoded as one of another.
    Value(ValueRef<'a>),
}

impl<'a, 'b: 'a> From<&'a Item<'b>> for Source<'a> {
    fn from(item: &'a Item<'b>) -> Self {
        Source::Item(item)
    }
}

impl<'a> From<ValueRef<'a>> for Source<'a> {
    fn from(value: ValueRef<'a>) -> Self {
        Source::Value(value)
    }
}

impl<'a, R: RegistryRef> From<&'a AnyValue<R>> for Source<'a> {
    fn from(value: &'a AnyValue<R>) -> Self {
        Source::Value(value.root())
    }
}
