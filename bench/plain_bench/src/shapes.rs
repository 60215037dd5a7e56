//! Values of one shape each, and the registry of their types.

use crate::values::{Random, Sample, Types, compact, list_of};
use std::rc::Rc;

const STR: u8 = 2;
const U8: u8 = 3;
const U16: u8 = 4;
const U32: u8 = 5;
const U128: u8 = 7;

/// A name where it has one, and its type.
type Field<'a> = (Option<&'a str>, u32);

fn put_text(out: &mut Vec<u8>, text: &str) {
    out.extend(compact(text.len() as u128));
    out.extend(text.as_bytes());
}

/// Fields without names of their types, and without documentation.
fn put_fields(out: &mut Vec<u8>, fields: &[Field]) {
    out.extend(compact(fields.len() as u128));
    for (name, ty) in fields {
        out.push(u8::from(name.is_some()));
        if let Some(name) = name {
            put_text(out, name);
        }
        out.extend(compact(u128::from(*ty)));
        out.extend([0, 0]);
    }
}

fn primitive(code: u8) -> Vec<u8> {
    vec![5, code]
}

fn sequence(element: u32) -> Vec<u8> {
    [vec![2], compact(u128::from(element))].concat()
}

fn compact_of(wrapped: u32) -> Vec<u8> {
    [vec![6], compact(u128::from(wrapped))].concat()
}

fn composite(fields: &[Field]) -> Vec<u8> {
    let mut out = vec![0];
    put_fields(&mut out, fields);
    out
}

/// Arms by their indices.
fn variant(arms: &[(&str, &[Field])]) -> Vec<u8> {
    let mut out = vec![1];
    out.extend(compact(arms.len() as u128));
    for (index, (name, fields)) in arms.iter().enumerate() {
        put_text(&mut out, name);
        put_fields(&mut out, fields);
        out.extend([index as u8, 0]);
    }
    out
}

/// Types of these definitions by their positions, without paths, parameters and documentation.
fn registry(definitions: &[Vec<u8>]) -> Vec<u8> {
    let mut out = compact(definitions.len() as u128);
    for (at, definition) in definitions.iter().enumerate() {
        out.extend(compact(at as u128));
        out.extend([0, 0]);
        out.extend(definition);
        out.push(0);
    }
    out
}

fn types() -> Rc<Types> {
    Types::new(registry(&[
        primitive(U8),
        primitive(U16),
        primitive(U32),
        primitive(U128),
        primitive(STR),
        compact_of(2),
        composite(&[(Some("first"), 0), (Some("second"), 1), (Some("third"), 2)]),
        variant(&[("None", &[]), ("Some", &[(None, 2)])]),
        sequence(2),
        sequence(6),
        sequence(7),
        sequence(5),
        sequence(4),
        sequence(3),
        sequence(0),
    ]))
}

fn put_option(out: &mut Vec<u8>, random: &mut Random) {
    let is_some = random.below(2) == 1;
    out.push(u8::from(is_some));
    if is_some {
        out.extend(random.bytes::<4>());
    }
}

fn put_letters(out: &mut Vec<u8>, random: &mut Random, len: usize) {
    out.extend(compact(len as u128));
    out.extend((0..len).map(|_| random.letter()));
}

/// What the shapes are called here.
pub const SHAPES: [&str; 8] = [
    "a sequence of u32",
    "composites of a u8, a u16 and a u32",
    "options of a u32",
    "compacts of a u32",
    "texts of 15 bytes",
    "a sequence of u128",
    "one text",
    "one run of bytes",
];

/// A value of the shape that is called this, of about so many bytes.
pub fn shape(name: &str, bytes: usize) -> Sample {
    let mut random = Random::new(11);
    let (ty, value) = match name {
        "a sequence of u32" => (8, list_of(bytes, |out| out.extend(random.bytes::<4>()))),
        "composites of a u8, a u16 and a u32" => {
            (9, list_of(bytes, |out| out.extend(random.bytes::<7>())))
        }
        "options of a u32" => (10, list_of(bytes, |out| put_option(out, &mut random))),
        "compacts of a u32" => (
            11,
            list_of(bytes, |out| out.extend(compact(random.number(32)))),
        ),
        "texts of 15 bytes" => (12, list_of(bytes, |out| put_letters(out, &mut random, 15))),
        "a sequence of u128" => (13, list_of(bytes, |out| out.extend(random.bytes::<16>()))),
        "one text" => {
            let mut text = Vec::new();
            put_letters(&mut text, &mut random, bytes);
            (4, text)
        }
        "one run of bytes" => {
            let run: Vec<u8> = (0..bytes).map(|_| random.letter()).collect();
            (14, [compact(bytes as u128), run].concat())
        }
        other => panic!("no shape is called {other}"),
    };
    Sample {
        name: name.into(),
        types: types(),
        ty,
        value,
    }
}
