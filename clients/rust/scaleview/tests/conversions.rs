//! Conversions of leaves, and what std's collections have.

mod common;

use common::*;
use scaleview::{Item, Limits, Registry, TryFromValueError, TypeId, Value};
use std::collections::HashSet;
use std::fmt::Debug;

/// All primitives, at the positions of scale-info's numbers, a compact u32, a sequence of u8, and
/// one of char.
fn leaves() -> Registry {
    let primitives = (0..15).flat_map(|number| [number * 4, 0, 0, 5, number, 0]);
    let others = b"\x3c\0\0\x06\x14\0\x40\0\0\x02\x0c\0\x44\0\0\x02\x04\0";
    let bytes = [72].into_iter().chain(primitives).chain(*others);
    Registry::open(&bytes.collect::<Vec<u8>>()).unwrap()
}

/// Returns what a value is as a type of Rust, and checks that an error is displayed.
fn leaf<'v, T>(value: &'v Value<'_>) -> Option<T>
where
    T: TryFrom<scaleview::ValueRef<'v>, Error = TryFromValueError> + Debug,
{
    T::try_from(value.root()).ok()
}

#[test]
fn integers_are_converted_if_they_fit() {
    let registry = leaves();
    let decode = |id, bytes: &'static [u8]| registry.decode(id, bytes).unwrap();
    let small = decode(5, b"\xff\0\0\0");
    assert_eq!(
        (leaf::<u8>(&small), leaf::<i16>(&small)),
        (Some(255), Some(255))
    );
    assert_eq!(leaf::<i8>(&small), None);
    let large = decode(5, b"\0\0\0\x80");
    assert_eq!(leaf::<u32>(&large), Some(1 << 31));
    assert_eq!((leaf::<u16>(&large), leaf::<i32>(&large)), (None, None));
    assert_eq!(
        (leaf(&large), leaf(&large)),
        (Some(1u64 << 31), Some(1i64 << 31))
    );
    let negative = decode(9, b"\x80");
    assert_eq!(
        (leaf(&negative), leaf::<u128>(&negative)),
        (Some(-128i8), None)
    );
    assert_eq!(leaf(&negative), Some(-128i128));
    // A compact u32, and an I256.
    assert_eq!(leaf(&decode(15, b"\x02\x00\x01\x00")), Some(0x4000u16));
    assert_eq!(leaf(&decode(14, &[0xff; 32])), Some(-1i32));
    assert_eq!(leaf::<u128>(&decode(8, &[1; 32])), None);
}

#[test]
fn other_leaves_are_converted() {
    let registry = leaves();
    let decode = |id, bytes: &'static [u8]| registry.decode(id, bytes).unwrap();
    let (yes, letter) = (decode(0, b"\x01"), decode(1, b"a\0\0\0"));
    let (text, bytes) = (decode(2, b"\x08ab"), decode(16, b"\x08\x01\xff"));
    assert_eq!((leaf(&yes), leaf(&letter)), (Some(true), Some('a')));
    assert_eq!(leaf(&text), Some("ab"));
    assert_eq!(leaf(&bytes), Some(b"\x01\xff".as_slice()));
    // None is taken for another.
    assert_eq!((leaf::<u8>(&yes), leaf::<u32>(&letter)), (None, None));
    assert_eq!((leaf::<&[u8]>(&text), leaf::<&str>(&bytes)), (None, None));
    assert_eq!((leaf::<bool>(&letter), leaf::<char>(&yes)), (None, None));
    let letters = decode(17, b"\x08a\0\0\0b\0\0\0");
    let letters: Result<String, _> = letters.children().map(char::try_from).collect();
    assert_eq!(letters, Ok("ab".to_string()));
    let error = char::try_from(yes.root()).unwrap_err();
    let shown = format!(
        "{error:.9}|{:.9}",
        Box::<dyn std::error::Error>::from(error)
    );
    assert_eq!(shown, "the value|the value");
}

#[test]
fn a_registry_is_iterated() {
    let registry = leaves();
    let mut ids = Vec::new();
    for one in &registry {
        ids.push(one.id());
    }
    assert_eq!(ids, (0..18).map(TypeId::new).collect::<Vec<_>>());
    assert_eq!((&registry).into_iter().len(), 18);
}

#[test]
fn a_value_is_iterated() {
    let registry = leaves();
    let letters = registry.decode(17, b"\x08a\0\0\0b\0\0\0").unwrap();
    let mut found = String::new();
    for letter in &letters {
        found.extend(letter.as_char());
    }
    for letter in letters.root() {
        found.extend(letter.as_char());
    }
    assert_eq!(found, "abab");
}

#[test]
fn what_is_equal_is_one_entry_of_a_set() {
    let registry = Registry::open(NAMED).unwrap();
    let chain = registry.get(0).unwrap();
    let variants = || chain.variants().unwrap().iter();
    let set: HashSet<_> = variants().chain(variants()).collect();
    assert_eq!(set.len(), 2);
    let fields: HashSet<_> = variants().flat_map(|one| one.fields()).collect();
    assert_eq!(fields.len(), 2);
    let items = [Item::from(1), Item::from(1u8), Item::from(2), Item::Unit];
    // 1 is signed, and 1u8 is not.
    assert_eq!(items.iter().chain(&items).collect::<HashSet<_>>().len(), 4);
}

/// Builds an item of texts and names that are made where it is built.
fn built(number: u32) -> Item<'static> {
    let text = |word| Item::from(format!("{word} {number}"));
    let fields = [("b".to_string(), text("b")), ("a".to_string(), text("a"))];
    Item::list([Item::named(fields), Item::fields([text("c"), text("d")])])
}

#[test]
fn an_item_owns_texts_names_and_bytes() {
    // A str, struct { a: str, b: str }, a sequence of it, a u8, and a sequence of that.
    let registry = Registry::open(&types(&[
        vec![5, 2],
        composite(&[("a", 0), ("b", 0)]),
        vec![2, 4],
        vec![5, 3],
        vec![2, 12],
    ]))
    .unwrap();
    let item = std::thread::spawn(|| built(7)).join().unwrap();
    let bytes = registry.encode(2, &item).unwrap();
    assert_eq!(bytes, b"\x08\x0ca 7\x0cb 7\x0cc 7\x0cd 7");
    let text = String::from("é");
    let texts = [Item::from(&text), text.as_str().into(), text.clone().into()];
    assert!(texts.iter().all(|item| *item == texts[0]));
    let bytes = vec![1, 2];
    let [one, other, owned] = [
        Item::from(&bytes),
        Item::bytes(&bytes),
        bytes.clone().into(),
    ];
    assert_eq!((&one, &other), (&owned, &owned));
    assert_eq!(registry.encode(4, &owned), Ok(vec![8, 1, 2]));
}

#[test]
fn a_view_becomes_an_item() {
    let registry = Registry::open(&paths()).unwrap();
    let value = registry.decode(9, &top()).unwrap();
    let newtype = |inner| Item::fields([inner]);
    let id = |bytes| newtype(Item::bytes(bytes));
    let fields = [("remark", Item::bytes(b"x")), ("value", 7u128.into())];
    let wanted = Item::named([
        ("id", newtype(id(b"\xaa\xbb".as_slice()))),
        (
            "calls",
            Item::variant("System", [Item::named_variant("remark", fields)]),
        ),
        ("list", Item::list([id(b"\x01\x02"), id(b"\x03\x04")])),
        ("tuple", Item::fields([5u32.into()])),
        ("1", 9u32.into()),
    ]);
    assert_eq!(Item::from(&value), wanted);
    let part = value.get("list").unwrap();
    assert_eq!(
        Item::from(part),
        Item::list([id(b"\x01\x02"), id(b"\x03\x04")])
    );
    let Item::Named(mut fields) = Item::from(&value) else {
        panic!("a composite")
    };
    fields[4].1 = 8.into();
    let mut changed = top();
    let last = changed.len() - 4;
    changed[last] = 8;
    assert_eq!(registry.encode(9, &Item::Named(fields)), Ok(changed));
}

#[test]
fn a_deep_view_becomes_an_item() {
    let registry = Registry::open(NAMED).unwrap();
    let limits = Limits::new().depth(1024);
    let bytes = named_chain(1024);
    let value = registry.decode_within(0, &bytes, limits).unwrap();
    let item = Item::from(&value);
    assert_eq!(registry.encode_within(0, &item, limits), Ok(bytes));
}
