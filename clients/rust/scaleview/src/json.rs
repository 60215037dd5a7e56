//! Writes a value as JSON: as the library does, and in a form for the web.

use crate::buffer;
use crate::error::Error;
use crate::parts::Children;
use crate::types::{Field, Keys, Primitive};
use crate::view::{Kind, ValueRef};
use crate::wide::Wide;
use std::fmt::{self, Write};
use std::{slice, str};

/// Which JSON is written.
#[derive(Clone, Copy, Debug, PartialEq, Eq)]
enum Form {
    /// The library's.
    Library,
    /// The one of [`ValueRef::to_web_json`].
    Web,
}

/// Where the parts of arrays and objects stand.
#[derive(Clone, Copy, Debug, PartialEq, Eq)]
enum Layout {
    OneLine,
    /// Each part has a line, with two spaces for each level.
    Lines,
}

/// The parts of an array or an object that are not written yet.
enum Rest<'a> {
    Array(Children<'a>),
    /// The names are in order.
    Object(slice::Iter<'a, Field>, Children<'a>),
    /// The order of the names, the fields, and the parts.
    Sorted(slice::Iter<'a, u32>, &'a [Field], Vec<ValueRef<'a>>),
}

impl<'a> Rest<'a> {
    /// Returns the parts of a list, or the fields of a composite, a tuple or a variant.
    fn of(value: ValueRef<'a>) -> Result<Rest<'a>, fmt::Error> {
        let children = value.children();
        let Some(list) = value.list() else {
            return Ok(Rest::Array(children));
        };
        Ok(match &list.keys {
            Keys::Array => Rest::Array(children),
            Keys::InOrder => Rest::Object(list.fields.iter(), children),
            Keys::Sorted(order) => {
                let mut parts = buffer::reserved(children.len()).map_err(|_| fmt::Error)?;
                parts.extend(children);
                Rest::Sorted(order.iter(), &list.fields, parts)
            }
        })
    }

    /// Returns the next part, and its name in an object.
    fn next(&mut self) -> Option<(Option<&'a str>, ValueRef<'a>)> {
        match self {
            Rest::Array(children) => children.next().map(|child| (None, child)),
            Rest::Object(names, children) => Some((names.next()?.name(), children.next()?)),
            Rest::Sorted(order, fields, parts) => {
                let position = *order.next()? as usize;
                Some((fields.get(position)?.name(), *parts.get(position)?))
            }
        }
    }

    fn brackets(&self) -> (&'static str, &'static str) {
        if let Rest::Array(_) = self {
            ("[", "]")
        } else {
            ("{", "}")
        }
    }
}

/// An array or an object that is not closed yet.
struct Open<'a> {
    rest: Rest<'a>,
    is_first: bool,
    /// The object of a variant is closed after it.
    is_variant: bool,
    /// How many arrays and objects are open in it, this one included.
    level: usize,
}

impl fmt::Display for ValueRef<'_> {
    fn fmt(&self, f: &mut fmt::Formatter<'_>) -> fmt::Result {
        let layout = if f.alternate() {
            Layout::Lines
        } else {
            Layout::OneLine
        };
        let json = Json {
            value: *self,
            form: Form::Library,
            layout,
        };
        buffer::pad(f, format_args!("{json}"))
    }
}

impl ValueRef<'_> {
    /// Returns the value as JSON for JavaScript, and for other readers whose numbers are doubles.
    ///
    /// It differs from the JSON of [`Registry::decode_json`](crate::Registry::decode_json) in this:
    ///
    /// - An integer of any width is a number from -(2^53 - 1) to 2^53 - 1, and otherwise a text of
    ///   its decimal digits, with a minus sign in front if it is negative. In `decode_json` the
    ///   type decides: integers of 128 bits are texts of decimal digits, those of 256 bits are
    ///   texts of hexadecimal digits, and all others are numbers.
    /// - A newtype, which is a composite of one field without a name, is what it holds. In
    ///   `decode_json` it is an array of that. A tuple of one member and the fields of a variant
    ///   are arrays in both.
    ///
    /// In both, bytes are a text of `0x` and two digits for each, and bits one of `0b` and a digit
    /// for each. This form isn't proved, and doesn't tell a newtype from what it holds.
    ///
    /// # Errors
    /// `Memory`.
    ///
    /// # Examples
    ///
    /// ```
    /// # use std::{error::Error, fs};
    /// # use scaleview::Metadata;
    /// # fn main() -> Result<(), Box<dyn Error>> {
    /// # std::env::set_current_dir(concat!(env!("CARGO_MANIFEST_DIR"), "/../../.."))?;
    /// # let metadata = Metadata::open(&fs::read("examples/chain/chain.metadata")?)?;
    /// let deposit = metadata.constant("Balances.ExistentialDeposit")?.value()?;
    /// assert_eq!(deposit.to_string(), "\"10000000000\"");
    /// assert_eq!(deposit.to_web_json()?, "10000000000");
    /// # Ok(())
    /// # }
    /// ```
    pub fn to_web_json(self) -> Result<String, Error> {
        let json = Json {
            value: self,
            form: Form::Web,
            layout: Layout::OneLine,
        };
        let mut text = buffer::Text::default();
        // Only an allocation fails here.
        write!(text, "{json}").map_err(|_| Error::Memory)?;
        text.into_string()
    }
}

/// Displays a value in a form and a layout.
struct Json<'a> {
    value: ValueRef<'a>,
    form: Form,
    layout: Layout,
}

impl fmt::Display for Json<'_> {
    // The open arrays and objects are on the heap, so that the stack doesn't bound the depth.
    fn fmt(&self, f: &mut fmt::Formatter<'_>) -> fmt::Result {
        let mut open = Vec::new();
        self.begin(f, &mut open, 0, self.value)?;
        while let Some(last) = open.last_mut() {
            let Some((name, child)) = last.rest.next() else {
                self.end(f, last)?;
                open.pop();
                continue;
            };
            if !last.is_first {
                f.write_str(",")?;
            }
            last.is_first = false;
            let level = last.level;
            self.write_line(f, level)?;
            if let Some(name) = name {
                self.write_name(f, name)?;
            }
            self.begin(f, &mut open, level, child)?;
        }
        Ok(())
    }
}

impl<'a> Json<'a> {
    /// Begins a line of its own, if parts have one.
    fn write_line(&self, f: &mut fmt::Formatter<'_>, level: usize) -> fmt::Result {
        if self.layout == Layout::OneLine {
            return Ok(());
        }
        f.write_str("\n")?;
        (0..level).try_for_each(|_| f.write_str("  "))
    }

    fn write_name(&self, f: &mut fmt::Formatter<'_>, name: &str) -> fmt::Result {
        write_text(f, name)?;
        f.write_str(match self.layout {
            Layout::OneLine => ":",
            Layout::Lines => ": ",
        })
    }

    /// Writes a value that has no parts, or the start of one that has, in so many open arrays and
    /// objects.
    fn begin(
        &self,
        f: &mut fmt::Formatter<'_>,
        open: &mut Vec<Open<'a>>,
        outside: usize,
        value: ValueRef<'a>,
    ) -> fmt::Result {
        let value = match self.form {
            Form::Library => value,
            Form::Web => value.inner(),
        };
        let kind = value.kind();
        if !matches!(kind, Kind::Fields | Kind::Variant | Kind::List) {
            return self.write_leaf(f, value, kind);
        }
        let mut level = outside + 1;
        let variant = value.variant_name();
        if let Some(name) = variant {
            f.write_str("{")?;
            self.write_line(f, level)?;
            self.write_name(f, name)?;
            level += 1;
        }
        let rest = Rest::of(value)?;
        f.write_str(rest.brackets().0)?;
        let part = Open {
            rest,
            is_first: true,
            is_variant: variant.is_some(),
            level,
        };
        buffer::push(open, part).map_err(|_| fmt::Error)
    }

    /// Closes an array or an object.
    fn end(&self, f: &mut fmt::Formatter<'_>, last: &Open<'a>) -> fmt::Result {
        if !last.is_first {
            self.write_line(f, last.level - 1)?;
        }
        f.write_str(last.rest.brackets().1)?;
        if last.is_variant {
            self.write_line(f, last.level - 2)?;
            f.write_str("}")?;
        }
        Ok(())
    }

    fn write_leaf(
        &self,
        f: &mut fmt::Formatter<'_>,
        value: ValueRef<'a>,
        leaf: Kind<'a>,
    ) -> fmt::Result {
        match leaf {
            Kind::Bool(is) => f.write_str(if is { "true" } else { "false" }),
            Kind::Char(c) => write_text(f, c.encode_utf8(&mut [0; 4])),
            Kind::Text(text) => write_text(f, text),
            Kind::Bytes(bytes) => write_hex(f, bytes),
            Kind::Bits(bits) => write!(f, "\"{bits}\""),
            Kind::Empties(count) => write!(f, "{{\"count\":{count}}}"),
            Kind::Wide(bytes) => match self.form {
                Form::Library => {
                    let mut digits = bytes;
                    digits.reverse();
                    write_hex(f, &digits)
                }
                Form::Web => write_web_wide(f, value, bytes),
            },
            Kind::Unsigned(number) | Kind::Compact(number) => {
                self.write_number(f, value, number, number)
            }
            Kind::Signed(number) => self.write_number(f, value, number, number.unsigned_abs()),
            // The others have parts.
            Kind::Unit | Kind::Fields | Kind::Variant | Kind::List => f.write_str("null"),
        }
    }

    /// Writes an integer: as a text if its type has more than eight bytes, or in the form for the
    /// web if a double doesn't hold it.
    fn write_number(
        &self,
        f: &mut fmt::Formatter<'_>,
        value: ValueRef<'_>,
        number: impl fmt::Display,
        magnitude: u128,
    ) -> fmt::Result {
        let is_text = match self.form {
            Form::Library => {
                let target = value.registry.target(value.type_id());
                matches!(target, Some(Primitive::U128 | Primitive::I128))
            }
            Form::Web => magnitude > MAX_SAFE,
        };
        if is_text {
            write!(f, "\"{number}\"")
        } else {
            write!(f, "{number}")
        }
    }
}

/// The greatest integer up to which a double holds all: JavaScript's `Number.MAX_SAFE_INTEGER`.
const MAX_SAFE: u128 = (1 << 53) - 1;

/// Writes a 256-bit integer in the form for the web.
fn write_web_wide(f: &mut fmt::Formatter<'_>, value: ValueRef<'_>, bytes: [u8; 32]) -> fmt::Result {
    let wide = match value.ty().and_then(|ty| ty.primitive()) {
        Some(Primitive::I256) => Wide::signed(bytes),
        _ => Wide::unsigned(bytes),
    };
    match value.as_i128() {
        Some(number) if number.unsigned_abs() <= MAX_SAFE => write!(f, "{number}"),
        _ => write!(f, "\"{wide}\""),
    }
}

/// Displays a text as JSON.
pub(crate) struct Quoted<'t>(pub &'t str);

impl fmt::Display for Quoted<'_> {
    fn fmt(&self, f: &mut fmt::Formatter<'_>) -> fmt::Result {
        write_text(f, self.0)
    }
}

/// Writes a text with the escapes of `serde_json`.
fn write_text(f: &mut fmt::Formatter<'_>, text: &str) -> fmt::Result {
    f.write_str("\"")?;
    let mut rest = text;
    while let Some(at) = rest.find(|c: char| c < ' ' || c == '"' || c == '\\') {
        let (plain, escaped) = rest.split_at_checked(at).ok_or(fmt::Error)?;
        f.write_str(plain)?;
        let mut chars = escaped.chars();
        match chars.next() {
            Some('\u{8}') => f.write_str("\\b")?,
            Some('\u{c}') => f.write_str("\\f")?,
            Some('\n') => f.write_str("\\n")?,
            Some('\r') => f.write_str("\\r")?,
            Some('\t') => f.write_str("\\t")?,
            Some(c @ ('"' | '\\')) => write!(f, "\\{c}")?,
            Some(c) => write!(f, "\\u{:04x}", c as u32)?,
            None => {}
        }
        rest = chars.as_str();
    }
    f.write_str(rest)?;
    f.write_str("\"")
}

/// Writes a text of hexadecimal digits.
fn write_hex(f: &mut fmt::Formatter<'_>, bytes: &[u8]) -> fmt::Result {
    const DIGITS: &[u8; 16] = b"0123456789abcdef";
    let digit = |half: u8| DIGITS.get(half as usize & 15).copied().unwrap_or_default();
    f.write_str("\"0x")?;
    let mut room = [0; 128];
    for some in bytes.chunks(room.len() / 2) {
        for (pair, byte) in room.chunks_exact_mut(2).zip(some) {
            pair.copy_from_slice(&[digit(byte >> 4), digit(*byte)]);
        }
        let digits = room.get(..2 * some.len()).unwrap_or_default();
        f.write_str(str::from_utf8(digits).map_err(|_| fmt::Error)?)?;
    }
    f.write_str("\"")
}
