//! Where in a value its bytes are rejected. The paths are worked out by hand.

use scaleview::{Error, Limits, Registry, ValueReason};

const REGISTRY: &[u8] = b"\x3c\
    \x00\0\0\x05\x00\0\
    \x04\0\0\x05\x02\0\
    \x08\0\0\x06\x0c\0\
    \x0c\0\0\x05\x05\0\
    \x10\0\0\x05\x03\0\
    \x14\0\0\x03\x04\0\0\0\x10\0\
    \x18\0\0\x00\x04\0\x14\0\0\0\
    \x1c\0\0\x04\x08\x00\x00\0\
    \x20\0\0\x01\x08\x10Stop\0\x00\0\
    \x20Transfer\x08\x01\x10dest\x18\0\0\x01\x14value\x08\0\0\x05\0\0\
    \x24\0\0\x01\x04\x20Balances\x04\0\x20\0\0\x03\0\0\
    \x28\0\0\x00\x14\x01\x14calls\x2c\0\0\x01\x08ok\x00\0\0\x01\x10pair\x1c\0\0\x01\x10memo\x04\0\0\
    \x01\x10tail\x30\0\0\0\
    \x2c\0\0\x02\x24\0\
    \x30\0\0\x07\x10\x34\0\
    \x34\0\0\x00\x00\0\
    \x38\0\0\x01\x08\x0cEnd\0\x00\0\x10Next\x04\0\x38\0\0\x01\0\0";

const BOOL: u32 = 0;
/// `struct Tx { calls: Vec<Outer>, ok: bool, pair: (bool, bool), memo: str, tail: BitVec }`, with
/// `enum Outer { Balances(Call) = 3 }`, `struct Id([u8; 4])`
/// and `enum Call { Stop = 0, Transfer { dest: Id, value: Compact<u32> } = 5 }`.
const TX: u32 = 10;
/// `enum Chain { End = 0, Next(Chain) = 1 }`
const CHAIN: u32 = 14;

/// Two calls, of which the second is a transfer; true; false and true; "hi". The bit sequence that
/// follows isn't read.
const BYTES: &[u8] = b"\x08\x03\x00\x03\x05\x01\x02\x03\x04\x04\x01\x00\x01\x08hi";

/// The error of these bytes, and its path.
fn error_of(id: u32, bytes: &[u8], limits: Limits) -> (String, Option<String>) {
    let registry = Registry::open(REGISTRY).unwrap();
    let error = registry.decode_within(id, bytes, limits).unwrap_err();
    let path = error.path(&registry, id, bytes, limits);
    (error.to_string(), path)
}

fn check(id: u32, bytes: &[u8], limits: Limits, line: &str, path: &str) {
    let wanted = (line.to_string(), Some(path.to_string()));
    assert_eq!(error_of(id, bytes, limits), wanted);
}

/// The same for a transaction of which one byte is another.
fn check_byte(at: usize, byte: u8, line: &str, path: &str) {
    let mut bytes = BYTES.to_vec();
    bytes[at] = byte;
    check(TX, &bytes, Limits::new(), line, path);
}

#[test]
fn a_path_has_names_and_positions() {
    check_byte(1, 4, "value: NoSuchVariant at 1", "calls[0]");
    check_byte(4, 1, "value: NoSuchVariant at 4", "calls[1].Balances[0]");
    let amount = "calls[1].Balances[0].Transfer.value";
    check_byte(9, 0x13, "value: CompactTooLarge at 9", amount);
    check_byte(10, 2, "value: BadBool at 10", "ok");
    check_byte(12, 2, "value: BadBool at 12", "pair[1]");
    check_byte(15, 0xff, "value: BadUtf8 at 15", "memo");
}

#[test]
fn a_path_leads_to_where_bytes_end() {
    let limits = Limits::new();
    check(TX, b"", limits, "value: Truncated at 0", "calls");
    let dest = "calls[1].Balances[0].Transfer.dest[0]";
    check(TX, &BYTES[..7], limits, "value: Truncated at 7", dest);
    check(TX, BYTES, limits, "value: BitSequence at 16", "tail");
    check(TX, BYTES, limits.bytes(10), "value: TooLong at 10", "ok");
    let deep = "Next[0].Next[0].Next[0]";
    check(
        CHAIN,
        b"\x01\x01\x01\0",
        limits.depth(2),
        "value: TooDeep at 3",
        deep,
    );
    check(BOOL, b"\x02", limits, "value: BadBool at 0", "");
}

#[test]
fn a_large_value_has_the_same_path() {
    let mut bytes = (100_001u32 << 2 | 2).to_le_bytes().to_vec();
    bytes.extend(std::iter::repeat_n([3, 5, 1, 2, 3, 4, 4], 100_000).flatten());
    bytes.push(4);
    let path = "calls[100000]";
    check(
        TX,
        &bytes,
        Limits::new(),
        "value: NoSuchVariant at 700004",
        path,
    );
}

#[test]
fn other_errors_have_none() {
    let trailing = error_of(BOOL, b"\x01\0", Limits::new());
    assert_eq!(trailing, ("value: TrailingBytes at 1".to_string(), None));
    let registry = Registry::open(REGISTRY).unwrap();
    let reason = ValueReason::Truncated;
    let error = Error::Value { reason, place: 0 };
    let path = |id: u32, limits| error.path(&registry, id, b"", limits);
    assert_eq!(path(15, Limits::new()), None);
    assert_eq!(path(TX, Limits::new().depth(1025)), None);
    assert_eq!(path(TX, Limits::new().memory(1)), None);
    assert_eq!(Error::Memory.path(&registry, TX, b"", Limits::new()), None);
}
