//! Values as serde's formats write them.

use crate::Serde;
use scaleview::{Kind, ValueRef};
use serde::ser::{Error, Serialize, SerializeMap, Serializer};

/// The greatest integer up to which a double holds all.
const MAX_SAFE: u128 = (1 << 53) - 1;

impl Serialize for Serde<'_> {
    fn serialize<S: Serializer>(&self, serializer: S) -> Result<S::Ok, S::Error> {
        let value = self.0.inner();
        match value.kind() {
            Kind::Bool(is) => serializer.serialize_bool(is),
            Kind::Char(c) => serializer.serialize_char(c),
            Kind::Text(text) => serializer.serialize_str(text),
            Kind::Bytes(bytes) if !serializer.is_human_readable() => {
                serializer.serialize_bytes(bytes)
            }
            Kind::Bytes(_) => serialize_text(value, serializer),
            Kind::Unsigned(_) | Kind::Compact(_) | Kind::Signed(_) | Kind::Wide(_) => {
                serialize_integer(value, serializer)
            }
            Kind::Fields => Contents(value).serialize(serializer),
            Kind::Variant => {
                let mut map = serializer.serialize_map(Some(1))?;
                let name = value.variant_name().unwrap_or_default();
                map.serialize_entry(name, &Contents(value))?;
                map.end()
            }
            Kind::List => serializer.collect_seq(value.children().map(Serde)),
            Kind::Empties(count) => {
                let mut map = serializer.serialize_map(Some(1))?;
                map.serialize_entry("count", &count)?;
                map.end()
            }
            Kind::Bits(bits) if serializer.is_human_readable() => serializer.collect_str(&bits),
            Kind::Bits(bits) => serializer.collect_seq(bits),
            _ => serializer.serialize_unit(),
        }
    }
}

/// The fields of a composite, a tuple or a variant.
struct Contents<'a>(ValueRef<'a>);

impl Serialize for Contents<'_> {
    fn serialize<S: Serializer>(&self, serializer: S) -> Result<S::Ok, S::Error> {
        let fields = self.0.fields();
        if !has_names(self.0) {
            return serializer.collect_seq(fields.map(|(_, field)| Serde(field)));
        }
        let mut map = serializer.serialize_map(Some(fields.len()))?;
        for (name, field) in fields {
            map.serialize_entry(name.unwrap_or_default(), &Serde(field))?;
        }
        map.end()
    }
}

/// Returns whether there are fields, and all have names.
pub(crate) fn has_names(value: ValueRef<'_>) -> bool {
    let mut fields = value.fields();
    fields.len() > 0 && fields.all(|(name, _)| name.is_some())
}

/// Writes the text that the value is in JSON for the web.
fn serialize_text<S: Serializer>(value: ValueRef<'_>, serializer: S) -> Result<S::Ok, S::Error> {
    let json = value.to_web_json().map_err(S::Error::custom)?;
    serializer.serialize_str(json.trim_matches('"'))
}

fn serialize_integer<S: Serializer>(value: ValueRef<'_>, serializer: S) -> Result<S::Ok, S::Error> {
    let (unsigned, signed) = (value.as_u128(), value.as_i128());
    let magnitude = unsigned.or(signed.map(i128::unsigned_abs));
    if serializer.is_human_readable() && magnitude.is_none_or(|number| number > MAX_SAFE) {
        return serialize_text(value, serializer);
    }
    match (value.kind(), unsigned, signed) {
        (_, Some(number), _) => match u64::try_from(number) {
            Ok(number) => serializer.serialize_u64(number),
            Err(_) => serializer.serialize_u128(number),
        },
        (_, None, Some(number)) => match i64::try_from(number) {
            Ok(number) => serializer.serialize_i64(number),
            Err(_) => serializer.serialize_i128(number),
        },
        (Kind::Wide(bytes), ..) => serializer.serialize_bytes(&bytes),
        _ => serializer.serialize_unit(),
    }
}
