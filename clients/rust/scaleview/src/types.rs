//! The types of a registry.

use crate::error::Error;
use crate::registry::Registry;
use crate::type_id::TypeId;
use scaleview_sys::{self as sys, scaleview_type_shape as Shape};
use std::fmt;
use std::iter::FusedIterator;
use std::ops::Range;
use std::str::FromStr;

/// The error of reading a position, a kind, a class or a primitive from a text.
///
/// # Examples
///
/// ```
/// # use scaleview::{Primitive, TypeKind};
/// assert_eq!("u16".parse(), Ok(Primitive::U16));
/// let error = "u16".parse::<TypeKind>().unwrap_err();
/// assert_eq!(error.to_string(), "the text names no position, kind, class or primitive");
/// ```
#[derive(Clone, Copy, Debug, PartialEq, Eq, Hash)]
pub struct ParseTypeError(pub(crate) ());

impl fmt::Display for ParseTypeError {
    fn fmt(&self, f: &mut fmt::Formatter<'_>) -> fmt::Result {
        f.pad("the text names no position, kind, class or primitive")
    }
}

impl std::error::Error for ParseTypeError {}

/// Makes an enum displayed and read as the command prints it.
macro_rules! words {
    ($name:ident: $($word:literal $one:ident)+) => {
        /// Displays as the command prints it.
        impl fmt::Display for $name {
            fn fmt(&self, f: &mut fmt::Formatter<'_>) -> fmt::Result {
                f.pad(match self {
                    $($name::$one => $word,)+
                })
            }
        }

        /// Reads what the command prints.
        impl FromStr for $name {
            type Err = ParseTypeError;

            fn from_str(text: &str) -> Result<$name, ParseTypeError> {
                match text {
                    $($word => Ok($name::$one),)+
                    _ => Err(ParseTypeError(())),
                }
            }
        }
    };
}

/// What a type is, in the order of scale-info's `TypeDef`.
#[derive(Clone, Copy, Debug, PartialEq, Eq, Hash)]
#[non_exhaustive]
pub enum TypeKind {
    /// A struct: [`Type::fields`].
    Composite,
    /// An enum: [`Type::variants`].
    Variant,
    /// A sequence: [`Type::element`].
    Sequence,
    /// An array: [`Type::element`] and [`Type::array_len`].
    Array,
    /// A tuple: [`Type::fields`], which have no names.
    Tuple,
    /// A primitive: [`Type::primitive`].
    Primitive,
    /// A compact integer: [`Type::element`] is its target.
    Compact,
    /// A bit sequence: [`Type::element`] is its store, and [`Type::order`] names its order. A
    /// registry that was opened with [`OpenOptions::bits`](crate::OpenOptions::bits) reads its
    /// values.
    BitSequence,
}

words! { TypeKind:
    "composite" Composite
    "variant" Variant
    "sequence" Sequence
    "array" Array
    "tuple" Tuple
    "primitive" Primitive
    "compact" Compact
    "bitsequence" BitSequence
}

/// How many bytes the values of a type take.
#[derive(Clone, Copy, Debug, PartialEq, Eq, Hash)]
#[non_exhaustive]
pub enum Class {
    /// The type has no finite value.
    NoValue,
    /// The type has one value, of no bytes.
    Empty,
    /// The values take bytes.
    Sized,
}

words! { Class:
    "NoValue" NoValue
    "Empty" Empty
    "Sized" Sized
}

/// A primitive type, in the order of scale-info's `TypeDefPrimitive`.
#[derive(Clone, Copy, Debug, PartialEq, Eq, Hash)]
#[non_exhaustive]
#[allow(missing_docs, reason = "the names say it")]
pub enum Primitive {
    Bool,
    Char,
    Str,
    U8,
    U16,
    U32,
    U64,
    U128,
    U256,
    I8,
    I16,
    I32,
    I64,
    I128,
    I256,
}

impl Primitive {
    pub(crate) fn of(number: u32) -> Option<Primitive> {
        use Primitive::*;
        const ALL: [Primitive; 15] = [
            Bool, Char, Str, U8, U16, U32, U64, U128, U256, I8, I16, I32, I64, I128, I256,
        ];
        ALL.get(number as usize).copied()
    }
}

words! { Primitive:
    "bool" Bool
    "char" Char
    "str" Str
    "u8" U8
    "u16" U16
    "u32" U32
    "u64" U64
    "u128" U128
    "u256" U256
    "i8" I8
    "i16" I16
    "i32" I32
    "i64" I64
    "i128" I128
    "i256" I256
}

/// A field of a composite or of a variant, or a member of a tuple.
#[derive(Clone, Debug, PartialEq, Eq, Hash)]
pub struct Field {
    pub(crate) name: Option<String>,
    pub(crate) type_id: TypeId,
}

impl Field {
    /// Returns its name. A member of a tuple and a field of a tuple struct have none.
    pub fn name(&self) -> Option<&str> {
        self.name.as_deref()
    }

    /// Returns the position of its type.
    pub fn type_id(&self) -> TypeId {
        self.type_id
    }
}

/// The order in which JSON has the fields of an object.
#[derive(Clone, Debug, PartialEq, Eq, Hash)]
pub(crate) enum Keys {
    /// The fields are an array: one has no name, two have the same, or there is none.
    Array,
    /// The names are in order.
    InOrder,
    /// The positions of the fields, in the order of their names.
    Sorted(Vec<u32>),
}

/// Fields, and the order of their names.
#[derive(Clone, Debug, PartialEq, Eq, Hash)]
pub(crate) struct FieldList {
    pub fields: Vec<Field>,
    pub keys: Keys,
}

/// One of the variants of an enum, which scale-info calls variants too.
#[derive(Clone, Debug, PartialEq, Eq, Hash)]
pub struct Variant {
    pub(crate) name: String,
    pub(crate) index: u8,
    pub(crate) list: FieldList,
}

impl Variant {
    /// Returns its name.
    pub fn name(&self) -> &str {
        &self.name
    }

    /// Returns its index, which is the first byte of its values. It need not be its position.
    pub fn index(&self) -> u8 {
        self.index
    }

    /// Returns its fields.
    pub fn fields(&self) -> &[Field] {
        &self.list.fields
    }
}

/// A type of a registry.
///
/// # Examples
///
/// ```
/// # use scaleview::{Class, Error, Registry, TypeKind};
/// # fn main() -> Result<(), Error> {
/// # let bytes = b"\x08\x00\x00\x00\x05\x03\x00\x04\x04\x14Count\x00\x01\x08\
/// #     \x0cOne\x04\x01\x04x\x00\x00\x00\x07\x00\x0cTwo\x00\x09\x00\x00";
/// let registry = Registry::open(bytes)?;
/// // enum Count { One { x: u8 } = 7, Two = 9 }
/// let count = registry.get(1).unwrap();
/// assert_eq!((count.path()?, count.class()), ("Count", Class::Sized));
/// assert_eq!(count.kind(), TypeKind::Variant);
/// let variants = count.variants()?;
/// assert_eq!((variants[1].name(), variants[1].index()), ("Two", 9));
/// let x = &variants[0].fields()[0];
/// assert_eq!((x.name(), u32::from(x.type_id())), (Some("x"), 0));
/// # Ok(())
/// # }
/// ```
#[derive(Clone, Copy)]
pub struct Type<'r> {
    pub(crate) registry: &'r Registry,
    pub(crate) id: TypeId,
    pub(crate) shape: Shape,
}

impl<'r> Type<'r> {
    /// Returns its position.
    pub fn id(self) -> TypeId {
        self.id
    }

    /// Returns what it is.
    pub fn kind(self) -> TypeKind {
        match self.shape.kind {
            sys::SCALEVIEW_COMPOSITE => TypeKind::Composite,
            sys::SCALEVIEW_VARIANT => TypeKind::Variant,
            sys::SCALEVIEW_SEQUENCE => TypeKind::Sequence,
            sys::SCALEVIEW_ARRAY => TypeKind::Array,
            sys::SCALEVIEW_TUPLE => TypeKind::Tuple,
            sys::SCALEVIEW_PRIMITIVE => TypeKind::Primitive,
            sys::SCALEVIEW_COMPACT => TypeKind::Compact,
            _ => TypeKind::BitSequence,
        }
    }

    /// Returns how many bytes its values take.
    pub fn class(self) -> Class {
        match self.shape.value_class {
            sys::SCALEVIEW_NO_VALUE => Class::NoValue,
            sys::SCALEVIEW_EMPTY => Class::Empty,
            _ => Class::Sized,
        }
    }

    /// Returns which primitive it is.
    pub fn primitive(self) -> Option<Primitive> {
        if self.kind() == TypeKind::Primitive {
            Primitive::of(self.shape.primitive)
        } else {
            None
        }
    }

    /// Returns the type of the elements of a sequence or an array, the target of a compact, or the
    /// store of a bit sequence. The store of a bit sequence need not exist.
    pub fn element(self) -> Option<TypeId> {
        use TypeKind::{Array, BitSequence, Compact, Sequence};
        matches!(self.kind(), Sequence | Array | Compact | BitSequence)
            .then_some(TypeId::new(self.shape.element))
    }

    /// Returns the type whose path names the order of a bit sequence. It need not exist.
    pub fn order(self) -> Option<TypeId> {
        (self.kind() == TypeKind::BitSequence).then_some(TypeId::new(self.shape.order))
    }

    /// Returns the number of elements of an array.
    pub fn array_len(self) -> Option<u32> {
        (self.kind() == TypeKind::Array).then_some(self.shape.length)
    }

    /// Returns the path, its segments joined by `::`. A type without a path has an empty one.
    ///
    /// # Errors
    /// `Memory`, unless the type's names were read before.
    pub fn path(self) -> Result<&'r str, Error> {
        self.registry
            .details(self.id)
            .map(|details| details.path.as_str())
    }

    /// Returns the fields of a composite or the members of a tuple; other types have none.
    ///
    /// # Errors
    /// As [`path`](Type::path).
    pub fn fields(self) -> Result<&'r [Field], Error> {
        self.registry
            .details(self.id)
            .map(|details| details.list.fields.as_slice())
    }

    /// Returns the variants of an enum; other types have none.
    ///
    /// # Errors
    /// As [`path`](Type::path).
    pub fn variants(self) -> Result<&'r [Variant], Error> {
        self.registry
            .details(self.id)
            .map(|details| details.variants.as_slice())
    }
}

impl From<Type<'_>> for TypeId {
    fn from(one: Type<'_>) -> TypeId {
        one.id
    }
}

impl fmt::Debug for Type<'_> {
    fn fmt(&self, f: &mut fmt::Formatter<'_>) -> fmt::Result {
        f.debug_struct("Type")
            .field("id", &self.id)
            .field("kind", &self.kind())
            .finish_non_exhaustive()
    }
}

/// The types of a registry, in the order of their positions.
#[derive(Clone, Debug)]
pub struct Types<'r> {
    pub(crate) registry: &'r Registry,
    pub(crate) rest: Range<u32>,
}

impl<'r> Iterator for Types<'r> {
    type Item = Type<'r>;

    fn next(&mut self) -> Option<Type<'r>> {
        self.rest.next().and_then(|id| self.registry.get(id))
    }

    fn size_hint(&self) -> (usize, Option<usize>) {
        (self.rest.len(), Some(self.rest.len()))
    }
}

impl DoubleEndedIterator for Types<'_> {
    fn next_back(&mut self) -> Option<Self::Item> {
        self.rest.next_back().and_then(|id| self.registry.get(id))
    }
}

impl ExactSizeIterator for Types<'_> {}

impl FusedIterator for Types<'_> {}

impl<'r> IntoIterator for &'r Registry {
    type Item = Type<'r>;
    type IntoIter = Types<'r>;

    fn into_iter(self) -> Types<'r> {
        self.types()
    }
}
