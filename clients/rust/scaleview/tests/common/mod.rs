//! Registries that several tests use, in scale-info's portable form, and the tables of vectors.
#![allow(dead_code, reason = "not every test uses all of them")]

use std::path::PathBuf;

/// Returns the text of a table of vectors.
pub fn table(name: &str) -> String {
    let path = PathBuf::from(env!("CARGO_MANIFEST_DIR"))
        .join("../../../crates/vectors/data")
        .join(name);
    std::fs::read_to_string(path).expect("a table of vectors")
}

/// Returns the columns of each row of a table.
pub fn rows(table: &str) -> impl Iterator<Item = Vec<&str>> {
    let lines = table
        .split('\n')
        .filter(|line| !line.is_empty() && !line.starts_with('#'));
    lines.map(|line| line.split('\t').collect())
}

/// Returns the bytes of a column.
pub fn bytes_of(column: &str) -> Vec<u8> {
    let digits = if column == "-" { "" } else { column };
    (0..digits.len())
        .step_by(2)
        .map(|at| u8::from_str_radix(&digits[at..at + 2], 16).expect("two digits"))
        .collect()
}

/// Returns metadata of the tables by its name.
pub fn metadata(name: &str) -> Vec<u8> {
    let table = table("metadata.tsv");
    let row = rows(&table).find(|row| row[0] == name);
    bytes_of(row.expect("a row of this name")[1])
}

/// A u16.
pub const U16: &[u8] = b"\x04\x00\x00\x00\x05\x04\x00";

/// A u32.
pub const U32: &[u8] = b"\x04\x00\x00\x00\x05\x05\x00";

/// A u8, and a sequence of it, whose text has two digits for each byte.
pub const BYTES: &[u8] = b"\x08\x00\x00\x00\x05\x03\x00\x04\x00\x00\x02\x00\x00";

/// A variant with an arm End, and an arm Next whose one field is the variant itself.
pub const CHAIN: &[u8] =
    b"\x04\x00\x00\x00\x01\x08\x0cEnd\x00\x00\x00\x10Next\x04\x00\x00\x00\x00\x01\x00\x00";

/// A variant with an arm End, and an arm Next { b: itself, a: u8 }, whose names are out of order;
/// and a u8.
pub const NAMED: &[u8] = b"\x08\x00\x00\x00\x01\x08\x0cEnd\x00\x00\x00\
    \x10Next\x08\x01\x04b\x00\x00\x00\x01\x04a\x04\x00\x00\x01\x00\x00\
    \x04\x00\x00\x05\x03\x00";

/// Types around a bit sequence, whose store is the primitive of this number, and whose order has
/// this name of four letters.
///
/// | type | |
/// |---|---|
/// | 0 | the store |
/// | 1 | the order |
/// | 2 | the bit sequence |
/// | 3 | a composite `{ a: 2, b: 0 }` |
/// | 4 | a sequence of 2 |
pub fn bits(store: u8, order: &str) -> Vec<u8> {
    [
        b"\x14\x00\0\0\x05".as_slice(),
        &[store, 0],
        b"\x04\x08\x18bitvec\x10",
        order.as_bytes(),
        b"\0\0\0\0\
        \x08\0\0\x07\x00\x04\0\
        \x0c\0\0\0\x08\x01\x04a\x08\0\0\x01\x04b\x00\0\0\0\
        \x10\0\0\x02\x08\0",
    ]
    .concat()
}

/// The bytes of a value of `CHAIN` of this depth.
pub fn chain(depth: usize) -> Vec<u8> {
    [vec![1; depth], vec![0]].concat()
}

/// The bytes of a value of `NAMED` of this depth.
pub fn named_chain(depth: usize) -> Vec<u8> {
    [vec![1; depth], vec![0], vec![7; depth]].concat()
}

/// Returns a number as a compact integer of two or four bytes.
pub fn compact(number: u32) -> Vec<u8> {
    if number < 1 << 14 {
        (number as u16 * 4 + 1).to_le_bytes().to_vec()
    } else {
        (number * 4 + 2).to_le_bytes().to_vec()
    }
}

/// Returns a registry of types without paths, by their definitions.
pub fn types(definitions: &[Vec<u8>]) -> Vec<u8> {
    let mut bytes = vec![definitions.len() as u8 * 4];
    for (id, definition) in (0u8..).zip(definitions) {
        bytes.extend([&[id * 4, 0, 0], definition.as_slice(), &[0]].concat());
    }
    bytes
}

/// Fields by their names, of which the empty one stands for none, and the positions of their types.
pub fn fields(fields: &[(&str, u8)]) -> Vec<u8> {
    let mut bytes = vec![fields.len() as u8 * 4];
    for (name, id) in fields {
        if name.is_empty() {
            bytes.push(0);
        } else {
            bytes.extend([1, name.len() as u8 * 4]);
            bytes.extend(name.as_bytes());
        }
        bytes.extend([id * 4, 0, 0]);
    }
    bytes
}

/// The definition of a composite.
pub fn composite(list: &[(&str, u8)]) -> Vec<u8> {
    [vec![0], fields(list)].concat()
}

/// The definition of a variant, whose arms have their positions as indexes.
pub fn variant(arms: &[(&str, &[(&str, u8)])]) -> Vec<u8> {
    let mut bytes = vec![1, arms.len() as u8 * 4];
    for (index, (name, list)) in (0u8..).zip(arms) {
        bytes.push(name.len() as u8 * 4);
        bytes.extend([name.as_bytes(), &fields(list), &[index, 0]].concat());
    }
    bytes
}

/// A registry of a composite with what paths lead through: type 9.
///
/// | type | |
/// |---|---|
/// | 0 | `u32` |
/// | 1 | `u128` |
/// | 2 | `u8` |
/// | 3 | `[u8; 2]` |
/// | 4 | `struct Id([u8; 2])` |
/// | 5 | `struct Deep(Id)` |
/// | 6 | `enum Call { remark { remark: Vec<u8>, value: u128 } }` |
/// | 7 | `Vec<u8>` |
/// | 8 | `Vec<Id>` |
/// | 9 | `struct Top { id: Deep, calls: Outer, list: Vec<Id>, tuple: (u32,), 1: u32 }` |
/// | 10 | `(u32,)` |
/// | 11 | `enum Outer { System(Call), Idle, Pair(u32, Id) }` |
pub fn paths() -> Vec<u8> {
    types(&[
        vec![5, 5],
        vec![5, 7],
        vec![5, 3],
        vec![3, 2, 0, 0, 0, 8],
        composite(&[("", 3)]),
        composite(&[("", 4)]),
        variant(&[("remark", &[("remark", 7), ("value", 1)])]),
        vec![2, 8],
        vec![2, 16],
        composite(&[
            ("id", 5),
            ("calls", 11),
            ("list", 8),
            ("tuple", 10),
            ("1", 0),
        ]),
        vec![4, 4, 0],
        variant(&[
            ("System", &[("", 6)]),
            ("Idle", &[]),
            ("Pair", &[("", 0), ("", 4)]),
        ]),
    ])
}

/// The bytes of a Top of [`paths`].
pub fn top() -> Vec<u8> {
    [
        b"\xaa\xbb\x00\x00\x04x".as_slice(),
        &7u128.to_le_bytes(),
        b"\x08\x01\x02\x03\x04\x05\0\0\0\x09\0\0\0",
    ]
    .concat()
}
