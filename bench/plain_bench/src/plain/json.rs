//! A tree's JSON.

use super::plan::Parts;
use super::tree::Value;

/// The two digits of each number below 100.
const PAIRS: [[u8; 2]; 100] = {
    let mut pairs = [[0; 2]; 100];
    let mut number = 0;
    while number < 100 {
        pairs[number] = [b'0' + (number / 10) as u8, b'0' + (number % 10) as u8];
        number += 1;
    }
    pairs
};

const HEX: &[u8; 16] = b"0123456789abcdef";

fn put_u64(out: &mut Vec<u8>, mut number: u64) {
    let mut digits = [0; 20];
    let mut from = digits.len();
    while number >= 100 {
        from -= 2;
        digits[from..from + 2].copy_from_slice(&PAIRS[(number % 100) as usize]);
        number /= 100;
    }
    if number >= 10 {
        from -= 2;
        digits[from..from + 2].copy_from_slice(&PAIRS[number as usize]);
    } else {
        from -= 1;
        digits[from] = b'0' + number as u8;
    }
    out.extend_from_slice(&digits[from..]);
}

fn put_u128(out: &mut Vec<u8>, number: u128) {
    /// The most that a part of nineteen digits counts to, and one.
    const PART: u128 = 10_000_000_000_000_000_000;
    if number < PART {
        return put_u64(out, number as u64);
    }
    put_u128(out, number / PART);
    let from = out.len();
    put_u64(out, (number % PART) as u64);
    let missing = 19 - (out.len() - from);
    out.splice(from..from, std::iter::repeat_n(b'0', missing));
}

fn put_hex<'x>(out: &mut Vec<u8>, bytes: impl ExactSizeIterator<Item = &'x u8>) {
    let digits = 2 * bytes.len();
    out.reserve(digits + 4);
    out.extend_from_slice(b"\"0x");
    let from = out.len();
    out.resize(from + digits, b'"');
    for (pair, byte) in out[from..].chunks_exact_mut(2).zip(bytes) {
        pair[0] = HEX[usize::from(byte >> 4)];
        pair[1] = HEX[usize::from(byte & 15)];
    }
    out.push(b'"');
}

/// The text in quotes, with escapes where JSON wants them.
pub fn put_text(out: &mut Vec<u8>, text: &str) {
    out.push(b'"');
    let bytes = text.as_bytes();
    let mut from = 0;
    for (at, byte) in bytes.iter().enumerate() {
        if *byte >= 0x20 && *byte != b'"' && *byte != b'\\' {
            continue;
        }
        out.extend_from_slice(&bytes[from..at]);
        from = at + 1;
        put_escape(out, *byte);
    }
    out.extend_from_slice(&bytes[from..]);
    out.push(b'"');
}

fn put_escape(out: &mut Vec<u8>, byte: u8) {
    match byte {
        b'"' => out.extend_from_slice(b"\\\""),
        b'\\' => out.extend_from_slice(b"\\\\"),
        8 => out.extend_from_slice(b"\\b"),
        9 => out.extend_from_slice(b"\\t"),
        10 => out.extend_from_slice(b"\\n"),
        12 => out.extend_from_slice(b"\\f"),
        13 => out.extend_from_slice(b"\\r"),
        other => {
            out.extend_from_slice(b"\\u00");
            out.extend_from_slice(&[HEX[usize::from(other >> 4)], HEX[usize::from(other & 15)]]);
        }
    }
}

/// Integers of 128 bits are texts, since few readers of JSON keep all their digits.
fn put_quoted(out: &mut Vec<u8>, is_negative: bool, number: u128) {
    out.push(b'"');
    if is_negative {
        out.push(b'-');
    }
    put_u128(out, number);
    out.push(b'"');
}

/// Writes the JSON of a tree behind what is there.
pub fn print(value: &Value, out: &mut Vec<u8>) {
    match value {
        Value::Empty => out.extend_from_slice(b"null"),
        Value::Bool(true) => out.extend_from_slice(b"true"),
        Value::Bool(false) => out.extend_from_slice(b"false"),
        Value::Char(character) => put_text(out, character.encode_utf8(&mut [0; 4])),
        Value::Text(text) => put_text(out, text),
        Value::Unsigned(number) => put_u64(out, *number),
        Value::Unsigned128(number) => put_quoted(out, false, *number),
        Value::Signed(number) => {
            if *number < 0 {
                out.push(b'-');
            }
            put_u64(out, number.unsigned_abs());
        }
        Value::Signed128(number) => put_quoted(out, *number < 0, number.unsigned_abs()),
        Value::Wide(bytes) => put_hex(out, bytes.iter().rev()),
        Value::Bytes(bytes) => put_hex(out, bytes.iter()),
        Value::Count(count) => {
            out.extend_from_slice(b"{\"count\":");
            put_u64(out, u64::from(*count));
            out.push(b'}');
        }
        Value::Parts(parts, values) => put_parts(parts, values, out),
        Value::Arm(arm, values) => {
            out.extend_from_slice(arm.head.as_bytes());
            put_parts(&arm.parts, values, out);
            out.push(b'}');
        }
        Value::List(values) => put_list(values, out),
    }
}

fn put_list(values: &[Value], out: &mut Vec<u8>) {
    out.push(b'[');
    for (at, value) in values.iter().enumerate() {
        if at > 0 {
            out.push(b',');
        }
        print(value, out);
    }
    out.push(b']');
}

fn put_parts(parts: &Parts, values: &[Value], out: &mut Vec<u8>) {
    let Some(keys) = &parts.keys else {
        return put_list(values, out);
    };
    let mut before = b'{';
    for (at, key) in keys {
        out.push(before);
        before = b',';
        out.extend_from_slice(key.as_bytes());
        print(&values[*at as usize], out);
    }
    out.push(b'}');
}
