//! Views of values and of their parts.

use crate::bits::Bits;
use crate::describe::Details;
use crate::parts::{Children, Fields};
use crate::registry::Registry;
use crate::type_id::TypeId;
use crate::types::{FieldList, Primitive, Type, Variant};
use scaleview_sys::{self as sys, scaleview_node as Node};
use std::{fmt, str};

/// What a part of a value is.
#[derive(Clone, Copy, Debug, PartialEq, Eq, Hash)]
#[non_exhaustive]
pub enum Kind<'a> {
    /// The one value of a type that takes no bytes.
    Unit,
    /// A boolean.
    Bool(bool),
    /// A character.
    Char(char),
    /// A text.
    Text(&'a str),
    /// A sequence or an array of u8.
    Bytes(&'a [u8]),
    /// An unsigned integer of at most 128 bits.
    Unsigned(u128),
    /// A signed integer of at most 128 bits.
    Signed(i128),
    /// A 256-bit integer, the lowest byte first.
    Wide([u8; 32]),
    /// A compact integer.
    Compact(u128),
    /// A composite or a tuple: [`ValueRef::fields`], [`ValueRef::get`].
    Fields,
    /// A variant: [`ValueRef::variant`].
    Variant,
    /// An array or a sequence of another type than u8: [`ValueRef::children`].
    List,
    /// A sequence of so many elements that take no bytes.
    Empties(u32),
    /// A bit sequence.
    Bits(Bits<'a>),
}

/// A view of a value or of a part of it. It displays as JSON, and in the alternate form, `{:#}`,
/// with a line for each part.
#[derive(Clone, Copy)]
pub struct ValueRef<'a> {
    pub(crate) registry: &'a Registry,
    /// The nodes of its subtree, itself first.
    pub(crate) nodes: &'a [Node],
    pub(crate) pool: &'a [u8],
}

impl<'a> ValueRef<'a> {
    pub(crate) fn node(self) -> Node {
        self.nodes.first().copied().unwrap_or_default()
    }

    /// Returns the position of its type.
    pub fn type_id(self) -> TypeId {
        TypeId::new(self.node().r#type)
    }

    /// Returns its type.
    pub fn ty(self) -> Option<Type<'a>> {
        self.registry.get(self.type_id())
    }

    fn bytes(self, node: Node) -> &'a [u8] {
        let at = usize::try_from(node.low).unwrap_or(usize::MAX);
        let length = usize::try_from(node.high).unwrap_or(usize::MAX);
        self.pool
            .get(at..)
            .and_then(|rest| rest.get(..length))
            .unwrap_or_default()
    }

    fn bits(self, node: Node) -> Bits<'a> {
        let at = usize::try_from(node.low).unwrap_or(usize::MAX);
        let words = self.pool.get(at..).unwrap_or_default();
        let details = self.registry.details(TypeId::new(node.r#type)).ok();
        details
            .and_then(|details| details.form)
            .map(|form| Bits::of_words(form, words, node.high as usize))
            .unwrap_or_default()
    }

    /// Writes the JSON and the type, with the name of what shows them.
    pub(crate) fn write_debug(self, f: &mut fmt::Formatter<'_>, name: &str) -> fmt::Result {
        let id = self.type_id();
        if f.alternate() {
            write!(f, "{name}({self:#} of type {id})")
        } else {
            write!(f, "{name}({self} of type {id})")
        }
    }

    /// Returns what it is.
    ///
    /// # Examples
    ///
    /// ```
    /// # use scaleview::{Error, Kind, Registry};
    /// # fn main() -> Result<(), Error> {
    /// let registry = Registry::open(b"\x04\x00\x00\x00\x05\x05\x00")?;
    /// let value = registry.decode(0, b"\x2a\x00\x00\x00")?;
    /// assert_eq!(value.root().kind(), Kind::Unsigned(42));
    /// # Ok(())
    /// # }
    /// ```
    pub fn kind(self) -> Kind<'a> {
        let node = self.node();
        let number = u128::from(node.high) << 64 | u128::from(node.low);
        // The library promises that characters are scalar values, texts UTF-8, and wide integers 32
        // bytes.
        match node.kind {
            sys::SCALEVIEW_NODE_BOOL => Kind::Bool(node.low != 0),
            sys::SCALEVIEW_NODE_CHAR => {
                Kind::Char(char::from_u32(node.low as u32).unwrap_or(char::REPLACEMENT_CHARACTER))
            }
            sys::SCALEVIEW_NODE_UNSIGNED => Kind::Unsigned(number),
            sys::SCALEVIEW_NODE_SIGNED => Kind::Signed(number as i128),
            sys::SCALEVIEW_NODE_COMPACT => Kind::Compact(number),
            sys::SCALEVIEW_NODE_COUNT => Kind::Empties(node.low as u32),
            sys::SCALEVIEW_NODE_TEXT => {
                Kind::Text(str::from_utf8(self.bytes(node)).unwrap_or_default())
            }
            sys::SCALEVIEW_NODE_BYTES => Kind::Bytes(self.bytes(node)),
            sys::SCALEVIEW_NODE_WIDE => Kind::Wide(self.bytes(node).try_into().unwrap_or_default()),
            sys::SCALEVIEW_NODE_FIELDS => Kind::Fields,
            sys::SCALEVIEW_NODE_ARM => Kind::Variant,
            sys::SCALEVIEW_NODE_LIST => Kind::List,
            sys::SCALEVIEW_NODE_BITS => Kind::Bits(self.bits(node)),
            _ => Kind::Unit,
        }
    }

    /// Returns its parts: the fields of a composite, a tuple or a variant, or the elements of a
    /// list. Others have none.
    ///
    /// # Examples
    ///
    /// ```
    /// # use scaleview::{Error, Registry};
    /// # fn main() -> Result<(), Error> {
    /// // A u16, and a sequence of it.
    /// let registry = Registry::open(b"\x08\x00\x00\x00\x05\x04\x00\x04\x00\x00\x02\x00\x00")?;
    /// let value = registry.decode(1, b"\x08\x01\x00\x02\x00")?;
    /// let numbers = value.root().children().filter_map(|child| child.as_u128());
    /// assert_eq!(numbers.collect::<Vec<_>>(), [1, 2]);
    /// # Ok(())
    /// # }
    /// ```
    pub fn children(self) -> Children<'a> {
        let rest = ValueRef {
            nodes: self.nodes.get(1..).unwrap_or_default(),
            ..self
        };
        Children {
            rest,
            left: self.node().children,
        }
    }

    /// Returns the part at this position. It passes all parts before it.
    ///
    /// # Examples
    ///
    /// ```
    /// # use scaleview::{Error, Registry};
    /// # fn main() -> Result<(), Error> {
    /// // A u16, and a sequence of it.
    /// let registry = Registry::open(b"\x08\x00\x00\x00\x05\x04\x00\x04\x00\x00\x02\x00\x00")?;
    /// let value = registry.decode(1, b"\x08\x01\x00\x02\x00")?;
    /// assert_eq!(value.root().child(1).and_then(|child| child.as_u128()), Some(2));
    /// assert!(value.root().child(2).is_none());
    /// # Ok(())
    /// # }
    /// ```
    pub fn child(self, position: usize) -> Option<ValueRef<'a>> {
        self.children().nth(position)
    }

    pub(crate) fn details(self) -> Option<&'a Details> {
        self.registry.details(self.type_id()).ok()
    }

    /// Returns the fields of its composite, its tuple, or its variant.
    pub(crate) fn list(self) -> Option<&'a FieldList> {
        let node = self.node();
        match node.kind {
            sys::SCALEVIEW_NODE_FIELDS => Some(&self.details()?.list),
            sys::SCALEVIEW_NODE_ARM => self.variants()?.last().map(|variant| &variant.list),
            _ => None,
        }
    }

    /// Returns the fields of a composite, a tuple or a variant with their names. Others have none.
    ///
    /// # Examples
    ///
    /// ```
    /// # use scaleview::{Error, Registry};
    /// # fn main() -> Result<(), Error> {
    /// # let bytes = b"\x08\x00\x00\x00\x05\x05\x00\x04\x04\x10Pair\x00\x00\x08\
    /// #     \x01\x04a\x00\x00\x00\x01\x04b\x00\x00\x00\x00";
    /// // struct Pair { a: u32, b: u32 }
    /// let registry = Registry::open(bytes)?;
    /// let value = registry.decode(1, b"\x07\0\0\0\x09\0\0\0")?;
    /// let names = value.root().fields().map(|(name, _)| name);
    /// assert_eq!(names.collect::<Vec<_>>(), [Some("a"), Some("b")]);
    /// # Ok(())
    /// # }
    /// ```
    pub fn fields(self) -> Fields<'a> {
        let list = self.list();
        let children = if list.is_some() {
            self.children()
        } else {
            Children {
                rest: self,
                left: 0,
            }
        };
        Fields {
            names: list
                .map_or([].as_slice(), |list| list.fields.as_slice())
                .iter(),
            children,
        }
    }

    /// Returns the field of this name, of a composite or of a variant.
    ///
    /// # Examples
    ///
    /// ```
    /// # use scaleview::{Error, Registry};
    /// # fn main() -> Result<(), Error> {
    /// # let bytes = b"\x08\x00\x00\x00\x05\x05\x00\x04\x04\x10Pair\x00\x00\x08\
    /// #     \x01\x04a\x00\x00\x00\x01\x04b\x00\x00\x00\x00";
    /// // struct Pair { a: u32, b: u32 }
    /// let registry = Registry::open(bytes)?;
    /// let value = registry.decode(1, b"\x07\0\0\0\x09\0\0\0")?;
    /// assert_eq!(value.root().get("b").and_then(|b| b.as_u128()), Some(9));
    /// assert!(value.root().get("c").is_none());
    /// # Ok(())
    /// # }
    /// ```
    pub fn get(self, name: &str) -> Option<ValueRef<'a>> {
        let position = self
            .list()?
            .fields
            .iter()
            .position(|field| field.name() == Some(name))?;
        self.child(position)
    }

    /// Returns the variants of its type up to its own, if it is a variant.
    pub(crate) fn variants(self) -> Option<&'a [Variant]> {
        let node = self.node();
        if node.kind != sys::SCALEVIEW_NODE_ARM {
            return None;
        }
        self.details()?.variants.get(..=node.arm as usize)
    }

    /// Returns the variant's name.
    pub fn variant_name(self) -> Option<&'a str> {
        self.variants()?.last().map(Variant::name)
    }

    /// Returns the variant's index, which is the first byte of its values.
    pub fn variant_index(self) -> Option<u8> {
        self.variants()?.last().map(Variant::index)
    }

    /// Returns the variant's name and its fields.
    ///
    /// # Examples
    ///
    /// ```
    /// # use scaleview::{Error, Registry};
    /// # fn main() -> Result<(), Error> {
    /// # let bytes = b"\x08\x00\x00\x00\x05\x05\x00\x04\x04\x18Option\x00\x01\x08\
    /// #     \x10None\x00\x00\x00\x10Some\x04\x00\x00\x00\x00\x01\x00\x00";
    /// // enum Option { None, Some(u32) }
    /// let registry = Registry::open(bytes)?;
    /// let value = registry.decode(1, b"\x01\x2a\0\0\0")?;
    /// let (name, mut fields) = value.root().variant().unwrap();
    /// assert_eq!(name, "Some");
    /// assert_eq!(fields.next().and_then(|field| field.as_u128()), Some(42));
    /// # Ok(())
    /// # }
    /// ```
    pub fn variant(self) -> Option<(&'a str, Children<'a>)> {
        self.variant_name().map(|name| (name, self.children()))
    }

    /// Returns a boolean.
    pub fn as_bool(self) -> Option<bool> {
        if let Kind::Bool(is) = self.kind() {
            Some(is)
        } else {
            None
        }
    }

    /// Returns a character.
    pub fn as_char(self) -> Option<char> {
        if let Kind::Char(c) = self.kind() {
            Some(c)
        } else {
            None
        }
    }

    /// Returns an integer of any width, if it isn't negative and has at most 128 bits.
    pub fn as_u128(self) -> Option<u128> {
        match self.kind() {
            Kind::Unsigned(number) | Kind::Compact(number) => Some(number),
            Kind::Signed(number) => u128::try_from(number).ok(),
            Kind::Wide(bytes) => {
                let (low, high) = bytes.split_first_chunk::<16>()?;
                high.iter()
                    .all(|byte| *byte == 0)
                    .then_some(u128::from_le_bytes(*low))
            }
            _ => None,
        }
    }

    /// Returns an integer of any width, if it is in the range of an `i128`.
    pub fn as_i128(self) -> Option<i128> {
        match self.kind() {
            Kind::Unsigned(number) | Kind::Compact(number) => i128::try_from(number).ok(),
            Kind::Signed(number) => Some(number),
            Kind::Wide(bytes) => {
                let (low, high) = bytes.split_first_chunk::<16>()?;
                let number = i128::from_le_bytes(*low);
                let sign = if number < 0 { 0xff } else { 0 };
                let may_be = number >= 0 || self.ty()?.primitive() == Some(Primitive::I256);
                (may_be && high.iter().all(|byte| *byte == sign)).then_some(number)
            }
            _ => None,
        }
    }

    /// Returns a text.
    pub fn as_str(self) -> Option<&'a str> {
        if let Kind::Text(text) = self.kind() {
            Some(text)
        } else {
            None
        }
    }

    /// Returns a sequence or an array of u8.
    pub fn as_bytes(self) -> Option<&'a [u8]> {
        if let Kind::Bytes(bytes) = self.kind() {
            Some(bytes)
        } else {
            None
        }
    }

    /// Returns a bit sequence.
    ///
    /// # Examples
    ///
    /// ```
    /// # use scaleview::{Error, OpenOptions};
    /// # fn main() -> Result<(), Error> {
    /// // A u8, the order Lsb0, and a bit sequence of both.
    /// let types = b"\x0c\x00\0\0\x05\x03\0\x04\x04\x10Lsb0\0\0\0\0\x08\0\0\x07\x00\x04\0";
    /// let registry = OpenOptions::new().bits(true).open(types)?;
    /// let value = registry.decode(2, b"\x0c\x05")?;
    /// assert_eq!(value.as_bits().unwrap(), [true, false, true]);
    /// # Ok(())
    /// # }
    /// ```
    pub fn as_bits(self) -> Option<Bits<'a>> {
        let node = self.node();
        (node.kind == sys::SCALEVIEW_NODE_BITS).then(|| self.bits(node))
    }
}

/// Two views are equal if their types and what they hold are; the registries aren't compared.
impl PartialEq for ValueRef<'_> {
    fn eq(&self, other: &ValueRef<'_>) -> bool {
        let is_same = |(one, its): (&Node, &Node)| match one.kind {
            // Equal bytes may lie at different places of the pools.
            sys::SCALEVIEW_NODE_TEXT | sys::SCALEVIEW_NODE_BYTES | sys::SCALEVIEW_NODE_WIDE => {
                (one.kind, one.r#type) == (its.kind, its.r#type)
                    && self.bytes(*one) == other.bytes(*its)
            }
            sys::SCALEVIEW_NODE_BITS => {
                (one.kind, one.r#type) == (its.kind, its.r#type)
                    && self.bits(*one) == other.bits(*its)
            }
            _ => one == its,
        };
        self.nodes.len() == other.nodes.len() && self.nodes.iter().zip(other.nodes).all(is_same)
    }
}

impl Eq for ValueRef<'_> {}

impl fmt::Debug for ValueRef<'_> {
    fn fmt(&self, f: &mut fmt::Formatter<'_>) -> fmt::Result {
        self.write_debug(f, "ValueRef")
    }
}
