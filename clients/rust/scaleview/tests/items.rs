//! Items of types that take no bytes, and the names of fields.

mod common;

use common::*;
use scaleview::{Error, Item, NodeReason, Registry};
use std::time::{Duration, Instant};

/// Types that take no bytes, and types around them.
///
/// | type | |
/// |---|---|
/// | 0 | `()` |
/// | 1 | `struct Inner {}` |
/// | 2 | `struct Outer { inner: Inner, pair: (Inner, ()) }` |
/// | 3 | `(Inner, ())` |
/// | 4 | `[Outer; 3]` |
/// | 5 | `u8` |
/// | 6 | `[u8; 0]` |
/// | 7 | `Vec<Outer>` |
/// | 8 | `struct Full { a: Outer, b: u8, c: [Outer; 3] }` |
/// | 9 | `Compact<()>` |
/// | 10 | `(Full, Full)` |
/// | 11 | `[u8; 2]` |
fn empties() -> Registry {
    let bytes = b"\x30\
        \x00\0\0\x04\0\0\
        \x04\0\0\0\0\0\
        \x08\0\0\0\x08\x01\x14inner\x04\0\0\x01\x10pair\x0c\0\0\0\
        \x0c\0\0\x04\x08\x04\0\0\
        \x10\0\0\x03\x03\0\0\0\x08\0\
        \x14\0\0\x05\x03\0\
        \x18\0\0\x03\0\0\0\0\x14\0\
        \x1c\0\0\x02\x08\0\
        \x20\0\0\0\x0c\x01\x04a\x08\0\0\x01\x04b\x14\0\0\x01\x04c\x10\0\0\0\
        \x24\0\0\x06\0\0\
        \x28\0\0\x04\x08\x20\x20\0\
        \x2c\0\0\x03\x02\0\0\0\x14\0";
    Registry::open(bytes).unwrap()
}

/// An Outer, written as its type reads.
fn outer() -> Item<'static> {
    let pair = Item::fields([Item::named::<&str>([]), Item::fields([])]);
    Item::named([("inner", Item::fields([])), ("pair", pair)])
}

/// A Full, written as its type reads. It has 15 items.
fn full(b: u8) -> Item<'static> {
    let c = Item::list([outer(), Item::Unit, Item::Unit]);
    Item::named([("a", outer()), ("b", b.into()), ("c", c)])
}

#[test]
fn items_without_bytes_may_be_written_as_their_type_reads() {
    let registry = empties();
    let reversed = Item::named([("pair", Item::Unit), ("inner", Item::named::<&str>([]))]);
    for (id, item, bytes) in [
        (0, Item::Unit, [].as_slice()),
        (0, Item::fields([]), &[]),
        (1, Item::fields([]), &[]),
        (1, Item::named::<&str>([]), &[]),
        (2, Item::Unit, &[]),
        (2, Item::fields([Item::Unit, Item::Unit]), &[]),
        (2, outer(), &[]),
        (2, reversed, &[]),
        (3, Item::fields([Item::named::<&str>([]), Item::Unit]), &[]),
        (4, Item::Unit, &[]),
        (4, Item::list([outer(), Item::Unit, outer()]), &[]),
        (6, Item::list([]), &[]),
        (6, Item::bytes(b""), &[]),
        (7, Item::list([]), &[0]),
        (7, Item::list([Item::Unit, Item::Unit]), &[8]),
        (7, Item::list([outer(), Item::Unit, outer()]), &[12]),
        (7, Item::Empties(3), &[12]),
        (8, full(7), &[7]),
        (9, Item::Unit, &[]),
        (10, Item::fields([full(7), full(9)]), &[7, 9]),
    ] {
        assert_eq!(registry.encode(id, &item).unwrap(), bytes, "{item:?}");
    }
}

#[test]
fn wrong_items_without_bytes_are_rejected() {
    use NodeReason::{OutOfRange, WrongKind};
    let registry = empties();
    let three = |second| Item::list([Item::Unit, second, Item::Unit]);
    for (id, item, reason) in [
        (0, Item::fields([Item::Unit]), OutOfRange),
        (1, Item::from(1), WrongKind),
        (2, Item::fields([Item::Unit]), OutOfRange),
        (2, Item::fields([Item::from(1), Item::Unit]), WrongKind),
        (2, Item::list([]), WrongKind),
        (2, Item::bytes(b""), WrongKind),
        (2, Item::variant("A", []), WrongKind),
        (3, Item::list([Item::Unit, Item::Unit]), WrongKind),
        (4, Item::list([]), OutOfRange),
        (4, Item::fields([]), WrongKind),
        (4, Item::Empties(3), WrongKind),
        (4, three(Item::fields([])), OutOfRange),
        (4, three(Item::from(false)), WrongKind),
        (6, Item::bytes(b"a"), OutOfRange),
        (7, Item::list([Item::from(1)]), WrongKind),
        (7, Item::list([Item::Unit, Item::list([])]), WrongKind),
        (9, Item::fields([]), WrongKind),
    ] {
        let error = Error::Node { reason, index: 0 };
        assert_eq!(registry.encode(id, &item), Err(error), "{item:?} of {id}");
    }
    // All of an Outer is one node, and the node of b comes after it.
    let wrong = Item::named([("a", outer()), ("b", true.into()), ("c", Item::Unit)]);
    let error = Error::Node {
        reason: WrongKind,
        index: 2,
    };
    assert_eq!(registry.encode(8, &wrong), Err(error));
}

#[test]
fn types_with_and_without_bytes_reject_alike() {
    let registry = empties();
    let alike = |empty, sized, item: Item, error: Error| {
        let error = Err(error);
        assert_eq!(registry.encode(empty, &item), error, "{item:?}");
        assert_eq!(registry.encode(sized, &item), error, "{item:?}");
    };
    let rejected = |reason| Error::Node { reason, index: 0 };
    let (kind, range) = (NodeReason::WrongKind, NodeReason::OutOfRange);
    alike(2, 8, Item::from(1), rejected(kind));
    alike(2, 8, Item::list([]), rejected(kind));
    alike(2, 8, Item::bytes(b""), rejected(kind));
    alike(2, 8, Item::variant("A", []), rejected(kind));
    alike(2, 8, Item::fields([Item::Unit]), rejected(range));
    alike(6, 11, Item::bytes(b"abc"), rejected(range));
    let unknown = Error::UnknownField { index: 0, field: 0 };
    alike(2, 8, Item::named([("x", Item::Unit)]), unknown);
    let missing = Error::MissingField { index: 0, field: 0 };
    alike(2, 8, Item::named::<&str>([]), missing);
}

fn unknown(index: u64, field: u32) -> Result<Vec<u8>, Error> {
    Err(Error::UnknownField { index, field })
}

fn missing(index: u64, field: u32) -> Result<Vec<u8>, Error> {
    Err(Error::MissingField { index, field })
}

#[test]
fn an_unknown_name_is_reported_before_a_missing_one() {
    let registry = empties();
    let encode = |names: &[&'static str]| {
        let fields = names.iter().map(|name| (*name, Item::Unit));
        registry.encode(8, &Item::named(fields))
    };
    assert_eq!(encode(&["a", "bb", "c"]), unknown(0, 1));
    assert_eq!(encode(&["a", "c", "bb"]), unknown(0, 2));
    assert_eq!(encode(&["y", "a", "x"]), unknown(0, 0));
    assert_eq!(encode(&["c", "a", "c"]), unknown(0, 2));
    assert_eq!(encode(&["a", "a", "x"]), unknown(0, 1));
    assert_eq!(encode(&["a", "b", "c", "d"]), unknown(0, 3));
    assert_eq!(encode(&[]), missing(0, 0));
    assert_eq!(encode(&["a"]), missing(0, 1));
    assert_eq!(encode(&["c"]), missing(0, 0));
    assert_eq!(encode(&["c", "a"]), missing(0, 1));
}

#[test]
fn the_index_of_a_field_counts_all_items() {
    let registry = empties();
    // The pair has 0, the first Full 1 to 15, and the second 16.
    let second = |item| registry.encode(10, &Item::fields([full(7), item]));
    assert_eq!(second(Item::named([("a", Item::Unit)])), missing(16, 1));
    assert_eq!(second(Item::named([("d", Item::Unit)])), unknown(16, 0));
    // As it is written, c has 17, and its elements 18, 19 and 24.
    let inner = || Item::named([("inner", Item::Unit)]);
    let c = Item::list([Item::Unit, outer(), inner()]);
    let fields = [("c", c), ("a", Item::Unit), ("b", 7.into())];
    assert_eq!(second(Item::named(fields)), missing(24, 1));
    // The elements of a sequence count too, although they are one node.
    let list = Item::list([outer(), Item::Unit, inner()]);
    assert_eq!(registry.encode(7, &list), missing(7, 1));
}

#[test]
fn fields_of_one_name_or_none_are_found_in_order() {
    // struct { a: u8, a: u8 }, and one with a field a: u8 and a u8 without a name.
    let registry = Registry::open(
        b"\x0c\x00\0\0\x05\x03\0\
        \x04\0\0\0\x08\x01\x04a\0\0\0\x01\x04a\0\0\0\0\
        \x08\0\0\0\x08\x01\x04a\0\0\0\0\0\0\0\0",
    )
    .unwrap();
    let encode = |id, names: &[&'static str]| {
        let fields = names.iter().zip(1u8..).map(|(name, x)| (*name, x.into()));
        registry.encode(id, &Item::named(fields))
    };
    assert_eq!(encode(1, &["a", "a"]), Ok(vec![1, 2]));
    assert_eq!(encode(1, &["a"]), missing(0, 1));
    assert_eq!(encode(1, &["a", "a", "a"]), unknown(0, 2));
    assert_eq!(encode(2, &["a"]), missing(0, 1));
    assert_eq!(encode(2, &["a", "b"]), unknown(0, 1));
}

#[test]
fn names_in_reverse_order_are_found_soon() {
    const FIELDS: u32 = 100_000;
    let names: Vec<_> = (0..FIELDS).map(|field| format!("{field:06}")).collect();
    let fields = names
        .iter()
        .flat_map(|name| [b"\x01\x18", name.as_bytes(), b"\0\0\0"].concat());
    let bytes = [
        b"\x08\x00\0\0\x05\x03\0\x04\0\0\0".as_slice(),
        &compact(FIELDS),
        &fields.collect::<Vec<_>>(),
        b"\0",
    ];
    let registry = Registry::open(&bytes.concat()).unwrap();
    let begun = Instant::now();
    let number = |field: u32| field as u8;
    let items = || (0..FIELDS).zip(&names).rev();
    let item = Item::named(items().map(|(field, name)| (name.as_str(), number(field).into())));
    let encoded = registry.encode(1, &item).unwrap();
    assert_eq!(encoded, (0..FIELDS).map(number).collect::<Vec<_>>());
    let odd = Item::named(items().map(|(_, name)| (name.trim_end_matches('0'), Item::Unit)));
    // The tenth name is 09999, which has lost its last digit.
    assert_eq!(registry.encode(1, &odd), unknown(0, 9));
    assert!(begun.elapsed() < Duration::from_secs(20));
}

#[test]
fn a_variant_may_be_given_by_its_index() {
    // enum { A, A(u8) }, and a u8.
    let arms = variant(&[("A", &[]), ("A", &[("", 1)])]);
    let registry = Registry::open(&types(&[arms, vec![5, 3]])).unwrap();
    let encode = |id: u32, item: Item| registry.encode(id, &item);
    let rejected = |reason| Err(Error::Node { reason, index: 0 });
    let indexed = |index| Item::indexed_variant(index, [7.into()]);
    assert_eq!(encode(0, indexed(1)), Ok(vec![1, 7]));
    assert_eq!(encode(0, Item::indexed_variant(0, [])), Ok(vec![0]));
    assert_eq!(encode(0, indexed(0)), rejected(NodeReason::OutOfRange));
    assert_eq!(encode(0, indexed(2)), rejected(NodeReason::NoSuchVariant));
    assert_eq!(encode(1, indexed(1)), rejected(NodeReason::WrongKind));
    let value = registry.decode(0, b"\x01\x07").unwrap();
    assert_eq!(
        (value.variant_name(), value.variant_index()),
        (Some("A"), Some(1))
    );
    assert_eq!(Item::from(&value), Item::indexed_variant(1, [7u8.into()]));
    let first = registry.decode(0, b"\0").unwrap();
    assert_eq!(Item::from(&first), Item::variant("A", []));
    assert_eq!(registry.decode(1, b"\0").unwrap().variant_index(), None);
}
