//! Values as types of Rust.

use crate::ser::has_names;
use crate::{Error, Serde};
use scaleview::{Kind, Registry, TypeId, ValueRef};
use serde::de::value::{
    BorrowedStrDeserializer, MapDeserializer, SeqDeserializer, StrDeserializer,
};
use serde::de::{
    Deserialize, DeserializeOwned, DeserializeSeed, Deserializer, EnumAccess, Error as _,
    IntoDeserializer, MapAccess, SeqAccess, Unexpected, VariantAccess, Visitor,
};
use serde::forward_to_deserialize_any;
use std::iter::{Enumerate, once, repeat_n};

/// Makes a type of Rust of a value or of a part of one. It may borrow texts and bytes.
///
/// # Errors
/// `Mismatch` with the path of the first part that doesn't fit.
///
/// # Examples
///
/// ```
/// # fn main() -> Result<(), Box<dyn std::error::Error>> {
/// # use scaleview::Registry;
/// // A text.
/// let registry = Registry::open(b"\x04\x00\x00\x00\x05\x02\x00")?;
/// let value = registry.decode(0, b"\x0cyes")?;
/// let text: &str = scaleview_serde::from_value(value.root())?;
/// assert_eq!(text, "yes");
/// # Ok(())
/// # }
/// ```
pub fn from_value<'a, T: Deserialize<'a>>(value: ValueRef<'a>) -> Result<T, Error> {
    T::deserialize(Serde(value))
}

/// Decoding into types of Rust.
pub trait DecodeAs {
    /// Decodes a value of the type at this position into a type of Rust.
    ///
    /// # Errors
    /// `Decode` as [`Registry::decode`], and `Mismatch` as [`from_value`].
    fn decode_as<T: DeserializeOwned>(
        &self,
        id: impl Into<TypeId>,
        bytes: &[u8],
    ) -> Result<T, Error>;
}

impl DecodeAs for Registry {
    fn decode_as<T: DeserializeOwned>(
        &self,
        id: impl Into<TypeId>,
        bytes: &[u8],
    ) -> Result<T, Error> {
        from_value(self.decode(id, bytes)?.root())
    }
}

impl<'de> IntoDeserializer<'de, Error> for Serde<'de> {
    type Deserializer = Serde<'de>;

    fn into_deserializer(self) -> Serde<'de> {
        self
    }
}

/// Gives an integer to a visitor.
fn visit_integer<'de, V: Visitor<'de>>(
    value: ValueRef<'de>,
    visitor: V,
) -> Result<V::Value, Error> {
    match (value.kind(), value.as_u128(), value.as_i128()) {
        (_, Some(number), _) => match u64::try_from(number) {
            Ok(number) => visitor.visit_u64(number),
            Err(_) => visitor.visit_u128(number),
        },
        (_, None, Some(number)) => match i64::try_from(number) {
            Ok(number) => visitor.visit_i64(number),
            Err(_) => visitor.visit_i128(number),
        },
        (Kind::Wide(bytes), ..) => visitor.visit_bytes(&bytes),
        _ => visitor.visit_unit(),
    }
}

/// Gives elements to a visitor, which has to take all.
fn visit_elements<'de, V, T>(
    elements: impl Iterator<Item = T>,
    visitor: V,
) -> Result<V::Value, Error>
where
    V: Visitor<'de>,
    T: IntoDeserializer<'de, Error>,
{
    let mut elements = SeqDeserializer::new(elements);
    let found = visitor.visit_seq(&mut elements)?;
    elements.end()?;
    Ok(found)
}

impl<'de> Deserializer<'de> for Serde<'de> {
    type Error = Error;

    fn deserialize_any<V: Visitor<'de>>(self, visitor: V) -> Result<V::Value, Error> {
        let value = self.0.inner();
        match value.kind() {
            Kind::Bool(is) => visitor.visit_bool(is),
            Kind::Char(c) => visitor.visit_char(c),
            Kind::Text(text) => visitor.visit_borrowed_str(text),
            Kind::Bytes(bytes) => visitor.visit_borrowed_bytes(bytes),
            Kind::Unsigned(_) | Kind::Compact(_) | Kind::Signed(_) | Kind::Wide(_) => {
                visit_integer(value, visitor)
            }
            Kind::Fields | Kind::List => Contents(value).deserialize_any(visitor),
            Kind::Variant => visitor.visit_map(Tagged(Some(value))),
            // A few bytes may stand for billions of elements.
            Kind::Empties(count) => visitor.visit_map(MapDeserializer::new(once(("count", count)))),
            Kind::Bits(bits) => visit_elements(bits.iter(), visitor),
            _ => visitor.visit_unit(),
        }
    }

    fn deserialize_option<V: Visitor<'de>>(self, visitor: V) -> Result<V::Value, Error> {
        match self.0.variant() {
            Some(("None", fields)) if fields.len() == 0 => visitor.visit_none(),
            Some(("Some", mut fields)) if fields.len() == 1 => match fields.next() {
                Some(field) => visitor.visit_some(Serde(field)),
                None => visitor.visit_none(),
            },
            _ => visitor.visit_some(self),
        }
    }

    fn deserialize_newtype_struct<V: Visitor<'de>>(
        self,
        _: &'static str,
        visitor: V,
    ) -> Result<V::Value, Error> {
        visitor.visit_newtype_struct(self)
    }

    fn deserialize_seq<V: Visitor<'de>>(self, visitor: V) -> Result<V::Value, Error> {
        match self.0.inner().kind() {
            Kind::Bytes(bytes) => visit_elements(bytes.iter().copied(), visitor),
            Kind::Wide(bytes) => visit_elements(bytes.into_iter(), visitor),
            Kind::Empties(count) => visit_elements(repeat_n((), count as usize), visitor),
            _ => self.deserialize_any(visitor),
        }
    }

    fn deserialize_tuple<V: Visitor<'de>>(self, _: usize, visitor: V) -> Result<V::Value, Error> {
        self.deserialize_seq(visitor)
    }

    fn deserialize_tuple_struct<V: Visitor<'de>>(
        self,
        _: &'static str,
        _: usize,
        visitor: V,
    ) -> Result<V::Value, Error> {
        self.deserialize_seq(visitor)
    }

    fn deserialize_enum<V: Visitor<'de>>(
        self,
        _: &'static str,
        _: &'static [&'static str],
        visitor: V,
    ) -> Result<V::Value, Error> {
        let value = self.0.inner();
        match value.kind() {
            Kind::Variant => visitor.visit_enum(Arm(value)),
            _ => Err(Error::invalid_type(
                Unexpected::Other("no variant"),
                &visitor,
            )),
        }
    }

    fn deserialize_ignored_any<V: Visitor<'de>>(self, visitor: V) -> Result<V::Value, Error> {
        visitor.visit_unit()
    }

    forward_to_deserialize_any! {
        bool i8 i16 i32 i64 i128 u8 u16 u32 u64 u128 f32 f64 char str string bytes byte_buf unit
        unit_struct map struct identifier
    }
}

/// The parts of a list, or the fields of a composite, a tuple or a variant.
struct Contents<'a>(ValueRef<'a>);

impl<'de> Deserializer<'de> for Contents<'de> {
    type Error = Error;

    fn deserialize_any<V: Visitor<'de>>(self, visitor: V) -> Result<V::Value, Error> {
        if has_names(self.0) {
            visitor.visit_map(Fields {
                fields: self.0.fields(),
                field: None,
            })
        } else {
            Parts(self.0.children().enumerate()).visit(visitor)
        }
    }

    forward_to_deserialize_any! {
        bool i8 i16 i32 i64 i128 u8 u16 u32 u64 u128 f32 f64 char str string bytes byte_buf option
        unit unit_struct newtype_struct seq tuple tuple_struct map struct enum identifier
        ignored_any
    }
}

/// Parts in their order.
struct Parts<'a>(Enumerate<scaleview::Children<'a>>);

impl<'de> Parts<'de> {
    /// Gives the parts to a visitor, which has to take all.
    fn visit<V: Visitor<'de>>(mut self, visitor: V) -> Result<V::Value, Error> {
        let count = self.0.len();
        let found = visitor.visit_seq(&mut self)?;
        match self.0.len() {
            0 => Ok(found),
            left => Err(Error::invalid_length(count, &TakenParts(count - left))),
        }
    }
}

/// Says how many parts a type has.
struct TakenParts(usize);

impl serde::de::Expected for TakenParts {
    fn fmt(&self, f: &mut std::fmt::Formatter<'_>) -> std::fmt::Result {
        write!(f, "{} parts", self.0)
    }
}

impl<'de> SeqAccess<'de> for Parts<'de> {
    type Error = Error;

    fn next_element_seed<T: DeserializeSeed<'de>>(
        &mut self,
        seed: T,
    ) -> Result<Option<T::Value>, Error> {
        let Some((position, part)) = self.0.next() else {
            return Ok(None);
        };
        let found = seed.deserialize(Serde(part));
        found.map(Some).map_err(|error| error.within(&position))
    }

    fn size_hint(&self) -> Option<usize> {
        Some(self.0.len())
    }
}

/// Fields by their names.
struct Fields<'a> {
    fields: scaleview::Fields<'a>,
    /// The field whose name was read last.
    field: Option<(&'a str, ValueRef<'a>)>,
}

impl<'de> MapAccess<'de> for Fields<'de> {
    type Error = Error;

    fn next_key_seed<K: DeserializeSeed<'de>>(
        &mut self,
        seed: K,
    ) -> Result<Option<K::Value>, Error> {
        let Some((name, field)) = self.fields.next() else {
            return Ok(None);
        };
        let name = name.unwrap_or_default();
        self.field = Some((name, field));
        seed.deserialize(BorrowedStrDeserializer::new(name))
            .map(Some)
    }

    fn next_value_seed<V: DeserializeSeed<'de>>(&mut self, seed: V) -> Result<V::Value, Error> {
        let read_name = || Error::custom("a value is read before its name");
        let (name, field) = self.field.take().ok_or_else(read_name)?;
        let found = seed.deserialize(Serde(field));
        found.map_err(|error| error.within(&name))
    }
}

/// A variant as a map of its name to its fields.
struct Tagged<'a>(Option<ValueRef<'a>>);

impl<'de> MapAccess<'de> for Tagged<'de> {
    type Error = Error;

    fn next_key_seed<K: DeserializeSeed<'de>>(
        &mut self,
        seed: K,
    ) -> Result<Option<K::Value>, Error> {
        let Some(name) = self.0.and_then(|value| value.variant_name()) else {
            return Ok(None);
        };
        let name = BorrowedStrDeserializer::new(name);
        seed.deserialize(name).map(Some)
    }

    fn next_value_seed<V: DeserializeSeed<'de>>(&mut self, seed: V) -> Result<V::Value, Error> {
        let read_twice = || Error::custom("a value is read twice");
        Arm(self.0.take().ok_or_else(read_twice)?).newtype_variant_seed(seed)
    }
}

/// A variant.
struct Arm<'a>(ValueRef<'a>);

impl<'de> Arm<'de> {
    /// Puts the variant's name in front of the path of an error.
    fn within<T>(&self, found: Result<T, Error>) -> Result<T, Error> {
        let name = self.0.variant_name().unwrap_or_default();
        found.map_err(|error| error.within(&name))
    }
}

impl<'de> EnumAccess<'de> for Arm<'de> {
    type Error = Error;
    type Variant = Arm<'de>;

    fn variant_seed<V: DeserializeSeed<'de>>(self, seed: V) -> Result<(V::Value, Self), Error> {
        let name = self.0.variant_name().unwrap_or_default();
        let name: StrDeserializer<'_, Error> = name.into_deserializer();
        Ok((seed.deserialize(name)?, self))
    }
}

impl<'de> VariantAccess<'de> for Arm<'de> {
    type Error = Error;

    fn unit_variant(self) -> Result<(), Error> {
        match self.0.children().len() {
            0 => Ok(()),
            count => self.within(Err(Error::invalid_length(count, &TakenParts(0)))),
        }
    }

    fn newtype_variant_seed<T: DeserializeSeed<'de>>(self, seed: T) -> Result<T::Value, Error> {
        let mut fields = self.0.fields();
        match (fields.next(), fields.len()) {
            (Some((None, field)), 0) => self.within(seed.deserialize(Serde(field))),
            _ => self.within(seed.deserialize(Contents(self.0))),
        }
    }

    fn tuple_variant<V: Visitor<'de>>(self, _: usize, visitor: V) -> Result<V::Value, Error> {
        self.within(Parts(self.0.children().enumerate()).visit(visitor))
    }

    fn struct_variant<V: Visitor<'de>>(
        self,
        _: &'static [&'static str],
        visitor: V,
    ) -> Result<V::Value, Error> {
        self.within(Contents(self.0).deserialize_any(visitor))
    }
}
