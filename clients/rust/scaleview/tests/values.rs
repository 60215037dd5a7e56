//! Values to walk through, types to look up, and items to encode.

mod common;

use common::*;
use scaleview::{
    Class, Error, Item, Kind, Limits, Memory, NodeReason, Primitive, Registry, TypeId, TypeKind,
    ValueReason,
};
use std::fs;
use std::iter::FusedIterator;
use std::path::Path;
use std::time::{Duration, Instant};

fn runtime() -> Registry {
    let path =
        Path::new(env!("CARGO_MANIFEST_DIR")).join("../../../examples/runtime/metadata.scale");
    Registry::open(&fs::read(path).unwrap()).unwrap()
}

fn runtime_value(name: &str) -> Vec<u8> {
    fs::read(
        Path::new(env!("CARGO_MANIFEST_DIR"))
            .join("../../../examples/runtime")
            .join(name),
    )
    .unwrap()
}

#[test]
fn fields_are_found_by_name() {
    let registry = runtime();
    let id = registry.find("frame_system::AccountInfo").unwrap();
    let value = registry
        .decode(id, &runtime_value("account_info.scale"))
        .unwrap();
    assert_eq!(
        (value.type_id(), value.kind(), value.children().len()),
        (id, Kind::Fields, 5)
    );
    assert_eq!(value.get("nonce").unwrap().as_u128(), Some(712_822));
    let data = value.get("data").unwrap();
    assert_eq!(
        data.get("free").unwrap().as_u128(),
        Some(8_574_363_989_262_094_294_975)
    );
    let names: Vec<_> = data.fields().map(|(name, _)| name.unwrap_or("-")).collect();
    assert_eq!(names, ["free", "reserved", "frozen", "flags"]);
    assert_eq!(data.get("flags").unwrap().fields().next().unwrap().0, None);
    assert!(value.get("free").is_none() && value.get("nonce").unwrap().get("nonce").is_none());
    assert_eq!(value.child(4).unwrap().to_string(), data.to_string());
    assert_eq!(
        data.ty().unwrap().path(),
        Ok("pallet_balances::types::AccountData")
    );
}

#[test]
fn variants_and_texts_are_found() {
    let registry = runtime();
    let block = registry
        .decode(10, &runtime_value("events_block.scale"))
        .unwrap();
    assert_eq!(
        (block.kind(), block.children().len(), block.fields().len()),
        (Kind::List, 32, 0)
    );
    let record = block.child(4).unwrap();
    let (pallet, mut inside) = record.get("event").unwrap().variant().unwrap();
    let event = inside.next().unwrap();
    assert_eq!(
        (pallet, event.variant_name(), inside.len()),
        ("Preimage", Some("MetadataClaim"), 0)
    );
    assert_eq!(event.get("note").unwrap().as_str(), Some("count"));
    assert_eq!(
        record.get("phase").unwrap().to_string(),
        r#"{"ApplyExtrinsic":[4097]}"#
    );
    // A part is encoded by itself.
    let phase = record.get("phase").unwrap();
    let bytes = registry.encode(phase.type_id(), phase).unwrap();
    assert_eq!(
        registry
            .decode(phase.type_id(), &bytes)
            .unwrap()
            .to_string(),
        phase.to_string()
    );
}

#[test]
fn types_are_described() {
    let registry = runtime();
    assert_eq!((registry.types().len(), registry.len()), (851, 851));
    let account = registry
        .get(registry.find("sp_core::crypto::AccountId32").unwrap())
        .unwrap();
    assert_eq!(
        (account.id(), account.kind(), account.class()),
        (TypeId::new(7), TypeKind::Composite, Class::Sized)
    );
    let array = registry
        .get(account.fields().unwrap()[0].type_id())
        .unwrap();
    assert_eq!(
        (array.kind(), array.array_len(), array.element()),
        (TypeKind::Array, Some(32), Some(TypeId::new(9)))
    );
    assert_eq!(registry.get(9).unwrap().primitive(), Some(Primitive::U8));
    let event = registry
        .get(registry.find("pallet_balances::pallet::Event").unwrap())
        .unwrap();
    let transfer = &event.variants().unwrap()[1];
    assert_eq!(
        (transfer.name(), transfer.index(), transfer.fields().len()),
        ("Transfer", 1, 3)
    );
    assert_eq!(transfer.fields()[2].name(), Some("amount"));
    assert_eq!(
        (
            event.fields().unwrap().len(),
            event.primitive(),
            event.element()
        ),
        (0, None, None)
    );
    assert_eq!(registry.find("no::such"), None);
    // Names are read once: later calls give the same memory.
    assert!(std::ptr::eq(
        event.path().unwrap(),
        registry.get(event.id()).unwrap().path().unwrap()
    ));
}

/// All primitives, a compact of u128 behind two wrappers, and sequences of the unit and of u16.
fn numbers() -> Registry {
    let mut types: Vec<Vec<u8>> = (0..15)
        .map(|primitive| vec![0, 0, 5, primitive, 0])
        .collect();
    types.push(b"\x00\x00\x00\x04\x00\x1c\x00\x00\x00".to_vec()); // 15: a composite of 7, u128
    types.push(b"\x00\x00\x04\x04\x3c\x00".to_vec()); // 16: a tuple of 15
    types.push(b"\x00\x00\x06\x40\x00".to_vec()); // 17: a compact of 16
    types.push(b"\x00\x00\x04\x00\x00".to_vec()); // 18: the unit
    types.push(b"\x00\x00\x02\x48\x00".to_vec()); // 19: a sequence of units
    types.push(b"\x00\x00\x02\x10\x00".to_vec()); // 20: a sequence of u16
    types.push(b"\x00\x00\x06\x14\x00".to_vec()); // 21: a compact of u32
    types.push(b"\x00\x00\x02\x0c\x00".to_vec()); // 22: a sequence of u8
    let count = types.len() as u8 * 4;
    let ids = (0..).map(|id: u8| id * 4);
    let bytes = ids
        .zip(types)
        .flat_map(|(id, one)| [vec![id], one].concat());
    Registry::open(&std::iter::once(count).chain(bytes).collect::<Vec<u8>>()).unwrap()
}

/// An item is encoded and decoded again, and shown as this text.
#[track_caller]
fn check(registry: &Registry, id: u32, item: Item, json: &str) {
    let bytes = registry.encode(id, &item).unwrap();
    let value = registry.decode(id, &bytes).unwrap();
    assert_eq!(value.to_string(), json);
    assert_eq!(registry.decode_json(id, &bytes).unwrap(), json);
}

#[test]
fn items_of_all_kinds_are_encoded() {
    let registry = numbers();
    check(&registry, 0, true.into(), "true");
    check(&registry, 1, 'é'.into(), "\"é\"");
    check(
        &registry,
        2,
        "a\n\u{1}\"\\\u{7f}\u{8}\u{c}\r\t/".into(),
        "\"a\\n\\u0001\\\"\\\\\u{7f}\\b\\f\\r\\t/\"",
    );
    check(&registry, 3, 255.into(), "255");
    check(&registry, 6, u64::MAX.into(), "18446744073709551615");
    check(
        &registry,
        7,
        u128::MAX.into(),
        &format!("\"{}\"", u128::MAX),
    );
    check(&registry, 8, 0x1ff.into(), &format!("\"0x{:064x}\"", 0x1ff));
    let wide = registry.encode(14, &Item::from(u128::MAX)).unwrap();
    assert_eq!(
        registry.decode(14, &wide).unwrap().as_u128(),
        Some(u128::MAX)
    );
    assert_eq!(registry.decode(14, &[0xff; 32]).unwrap().as_u128(), None);
    check(&registry, 9, (-128).into(), "-128");
    check(&registry, 9, 127u8.into(), "127");
    check(
        &registry,
        13,
        i128::MIN.into(),
        &format!("\"{}\"", i128::MIN),
    );
    check(
        &registry,
        14,
        (-1).into(),
        &format!("\"0x{}\"", "ff".repeat(32)),
    );
    check(
        &registry,
        14,
        Item::Wide([1; 32]),
        &format!("\"0x{}\"", "01".repeat(32)),
    );
    check(
        &registry,
        16,
        Item::fields([Item::fields([7.into()])]),
        "[[\"7\"]]",
    );
    check(
        &registry,
        17,
        u128::MAX.into(),
        &format!("\"{}\"", u128::MAX),
    );
    check(&registry, 21, 70_000.into(), "70000");
    check(&registry, 18, Item::Unit, "null");
    check(&registry, 18, Item::fields([]), "null");
    check(&registry, 19, Item::Empties(1 << 20), "{\"count\":1048576}");
    check(
        &registry,
        19,
        Item::list([Item::Unit, Item::Unit]),
        "{\"count\":2}",
    );
    check(&registry, 20, Item::list([1.into(), 2.into()]), "[1,2]");
    check(&registry, 20, Item::list([]), "[]");
    check(&registry, 22, Item::bytes(b"\x01\xff"), "\"0x01ff\"");
}

#[test]
fn wide_integers_are_read_as_narrow_ones() {
    let registry = numbers();
    let (max, min) = (i128::MAX, i128::MIN);
    for (item, unsigned, signed) in [
        (Item::from(5), Some(5), Some(5)),
        (Item::from(-5), None, Some(-5)),
        (max.into(), Some(max as u128), Some(max)),
        (min.into(), None, Some(min)),
        (u128::MAX.into(), Some(u128::MAX), None),
        (Item::Wide([7; 32]), None, None),
    ] {
        let bytes = registry.encode(14, &item).unwrap();
        let value = registry.decode(14, &bytes).unwrap();
        assert_eq!((value.as_u128(), value.as_i128()), (unsigned, signed));
        let is_positive = bytes[31] == 0;
        let value = registry.decode(8, &bytes).unwrap();
        let positive = (unsigned, signed.filter(|_| is_positive));
        assert_eq!((value.as_u128(), value.as_i128()), positive, "{item:?}");
    }
}

#[test]
fn a_value_offers_what_its_view_does() {
    let registry = numbers();
    let decode = |id, bytes: &'static [u8]| registry.decode(id, bytes).unwrap();
    let (yes, letter) = (decode(0, b"\x01"), decode(1, b"a\0\0\0"));
    assert_eq!((yes.as_bool(), yes.as_char()), (Some(true), None));
    assert_eq!((letter.as_bool(), letter.as_char()), (None, Some('a')));
    assert_eq!(decode(9, b"\xff").as_i128(), Some(-1));
    assert_eq!(yes.ty().map(|ty| ty.id()), Some(TypeId::new(0)));
    assert_eq!(yes.variant_name(), None);
    let chain = Registry::open(CHAIN).unwrap();
    let value = chain.decode(0, &common::chain(1)).unwrap();
    assert_eq!(value.variant_name(), Some("Next"));
}

#[test]
fn debug_names_what_is_shown() {
    let registry = numbers();
    let value = registry.decode(20, b"\x08\x01\0\x02\0").unwrap();
    assert_eq!(format!("{value:?}"), "Value([1,2] of type 20)");
    assert_eq!(format!("{:?}", value.root()), "ValueRef([1,2] of type 20)");
    let mut children = value.children();
    assert_eq!(children.next().unwrap().as_u128(), Some(1));
    assert_eq!(format!("{children:?}"), "[ValueRef(2 of type 4)]");
    children.next();
    assert_eq!(format!("{children:?} {:?}", value.fields()), "[] []");
    let wrapped = registry.decode(16, &[1; 16]).unwrap();
    let one = u128::from_le_bytes([1; 16]);
    assert_eq!(
        format!("{:?}", wrapped.fields()),
        format!("[(None, ValueRef([\"{one}\"] of type 15))]")
    );
    let shown = format!("{registry:?}");
    assert!(shown.contains("version: None"), "{shown}");
}

#[test]
fn types_are_walked_from_both_ends() {
    let registry = numbers();
    let mut types = registry.types();
    assert_eq!(types.next_back().map(|one| one.id()), Some(TypeId::new(22)));
    assert_eq!(types.len(), 22);
    let ids: Vec<_> = types.by_ref().rev().map(|one| one.id()).collect();
    assert_eq!(ids, (0..22).rev().map(TypeId::new).collect::<Vec<_>>());
    assert!(types.next().is_none() && types.next_back().is_none());
}

#[test]
fn iterators_that_ended_stay_ended() {
    fn ends(mut parts: impl FusedIterator + ExactSizeIterator) {
        for _ in 0..parts.len() {
            assert!(parts.next().is_some());
        }
        assert!((0..3).all(|_| parts.next().is_none()));
    }
    let registry = numbers();
    ends(registry.types());
    let value = registry.decode(20, b"\x08\x01\0\x02\0").unwrap();
    ends(value.children());
    ends(registry.decode(15, &[1; 16]).unwrap().fields());
}

#[test]
fn texts_are_padded() {
    let registry = numbers();
    let types = [0, 18].map(|id| registry.get(id).unwrap());
    let shown = types.map(|one| format!("{:>10}{:>6}", one.kind(), one.class()));
    assert_eq!(shown, [" primitive Sized", "     tuple Empty"]);
    assert_eq!(format!("{:<5}|", Primitive::I8), "i8   |");
    let value = registry.decode(20, b"\x08\x01\0\x02\0").unwrap();
    assert_eq!(
        format!("{value:>7}|{:<6}|", value.root()),
        "  [1,2]|[1,2] |"
    );
    assert_eq!(format!("{value:.2}"), "[1");
    let truncated = registry.decode(20, b"\x04").unwrap_err();
    assert_eq!(format!("{truncated:.^24}"), ".value: Truncated at 1..");
    assert_eq!(format!("{:>8}", Error::Memory), "  memory");
    let reason = NodeReason::TooDeep;
    assert_eq!(format!("{reason:8}|"), "TooDeep |");
}

#[test]
fn views_are_compared_by_what_they_hold() {
    let registry = numbers();
    let texts = Registry::open(b"\x0c\0\0\0\x05\x02\0\x04\0\0\x02\0\0\x08\0\0\x05\x02\0").unwrap();
    let list = texts.decode(1, b"\x10\x04a\x04b\x04a\x08aa").unwrap();
    let part = |position| list.child(position).unwrap();
    assert_eq!(part(0), part(2));
    assert_ne!(part(0), part(1));
    assert_ne!(part(0), part(3));
    assert_eq!(part(0), texts.decode(0, b"\x04a").unwrap().root());
    assert_ne!(part(0), texts.decode(2, b"\x04a").unwrap().root());
    let number = |bytes: &'static [u8]| registry.decode(20, bytes).unwrap();
    assert_eq!(number(b"\x04\x01\0"), number(b"\x04\x01\0"));
    assert_ne!(number(b"\x04\x01\0"), number(b"\x04\x02\0"));
    assert_ne!(number(b"\x04\x01\0"), number(b"\x08\x01\0\x01\0"));
    assert_ne!(number(b"\0"), number(b"\x04\x01\0"));
}

#[test]
fn wrong_items_are_rejected() {
    use NodeReason::{NoSuchVariant, OutOfRange, WrongKind};
    let rejected = |reason, index| Err(Error::Node { reason, index });
    let registry = numbers();
    for (id, item, reason) in [
        (0, Item::from(1), WrongKind),
        (3, Item::from(256), OutOfRange),
        (3, Item::from(-1), OutOfRange),
        (8, Item::from(-1), OutOfRange),
        (9, Item::from(128), OutOfRange),
        (13, Item::from(u128::MAX), OutOfRange),
        (21, Item::from(1u64 << 32), OutOfRange),
        (21, Item::from(-1), OutOfRange),
        (3, Item::fields([]), WrongKind),
        (3, Item::list([]), WrongKind),
        (3, Item::variant("A", []), WrongKind),
        (3, Item::Unit, WrongKind),
        (15, Item::fields([]), OutOfRange),
        (22, Item::list([1.into()]), WrongKind),
    ] {
        assert_eq!(
            registry.encode(id, &item),
            rejected(reason, 0),
            "{item:?} of {id}"
        );
    }
    assert_eq!(
        registry.encode(20, &Item::list([1.into(), 65_536.into()])),
        rejected(OutOfRange, 2)
    );
    let named = Registry::open(NAMED).unwrap();
    let end = || Item::variant("End", []);
    assert_eq!(
        named.encode(0, &Item::variant("Last", [])),
        rejected(NoSuchVariant, 0)
    );
    assert_eq!(
        named.encode(0, &Item::variant("Next", [end()])),
        rejected(OutOfRange, 0)
    );
    let next = |fields: Vec<(&'static str, Item<'static>)>| Item::named_variant("Next", fields);
    let deep = |inner| Item::variant("Next", [inner, 1.into()]);
    let missing = deep(next(vec![("b", end())]));
    assert_eq!(
        named.encode(0, &missing),
        Err(Error::MissingField { index: 1, field: 1 })
    );
    let unknown = next(vec![("a", 1.into()), ("c", 1.into()), ("b", end())]);
    assert_eq!(
        named.encode(0, &unknown),
        Err(Error::UnknownField { index: 0, field: 1 })
    );
    let twice = next(vec![("a", 1.into()), ("b", end()), ("a", 2.into())]);
    assert_eq!(
        named.encode(0, &twice),
        Err(Error::UnknownField { index: 0, field: 2 })
    );
    assert_eq!(
        named
            .encode(0, &deep(next(vec![("a", 9.into()), ("b", end())])))
            .unwrap(),
        [1, 1, 0, 9, 1]
    );
}

#[test]
fn items_may_be_as_deep_as_values() {
    let registry = Registry::open(CHAIN).unwrap();
    let item = |depth| {
        (0..depth).fold(Item::variant("End", []), |inner, _| {
            Item::variant("Next", [inner])
        })
    };
    let limits = Limits::new().depth(1024);
    assert_eq!(
        registry.encode_within(0, &item(1024), limits),
        Ok(chain(1024))
    );
    let too_deep = Error::Node {
        reason: NodeReason::TooDeep,
        index: 1025,
    };
    assert_eq!(
        registry.encode_within(0, &item(1025), limits),
        Err(too_deep)
    );
}

const FIELDS: u32 = 99_999;

/// A composite with so many fields, of which the last is a u8 and the others are empty: type 2.
/// Type 3 is a sequence of it.
fn many_fields(count: u32) -> Registry {
    let unit = b"\x00\x00\x00\x04\x00\x00";
    let field = |type_id: u8| [0, type_id * 4, 0, 0];
    let fields = [field(0).repeat(count as usize - 1), field(1).to_vec()].concat();
    let composite = [
        b"\x08\x00\x00\x00".as_slice(),
        &compact(count),
        &fields,
        b"\x00",
    ]
    .concat();
    let registry = [
        b"\x10".as_slice(),
        unit,
        b"\x04\x00\x00\x05\x03\x00",
        &composite,
        b"\x0c\x00\x00\x02\x08\x00",
    ]
    .concat();
    Registry::open(&registry).unwrap()
}

#[test]
fn a_composite_of_many_fields_is_walked_soon() {
    let registry = many_fields(FIELDS);
    let begun = Instant::now();
    let value = registry.decode(2, b"\x2a").unwrap();
    assert_eq!(value.children().last().unwrap().as_u128(), Some(42));
    assert_eq!(
        value.child(FIELDS as usize - 1).unwrap().as_u128(),
        Some(42)
    );
    assert_eq!(value.to_string().len(), 5 * (FIELDS as usize - 1) + 4);
    assert_eq!(registry.encode(2, &value), Ok(vec![42]));
    // A thousand of them have a hundred million nodes, which a budget of memory stops early.
    let many = [compact(1000), vec![7; 1000]].concat();
    let limits = Limits::new().memory(1 << 24);
    assert_eq!(registry.decode_within(3, &many, limits), Err(Error::Memory));
    assert_eq!(
        registry.decode_json_within(3, &many, limits),
        Err(Error::Memory)
    );
    assert!(begun.elapsed() < Duration::from_secs(20));
}

#[test]
fn memory_is_bounded_where_no_budget_is_given() {
    let registry = many_fields(FIELDS);
    // Six million nodes.
    let many = [vec![60 * 4], vec![7; 60]].concat();
    assert_eq!(registry.decode(3, &many).err(), Some(Error::Memory));
    let limits = Limits::default().bytes(many.len() as u64);
    let mut session = registry.start(3, limits).unwrap();
    assert_eq!(session.feed(&many), Err(Error::Memory));
    let unbounded = limits.unbounded_memory();
    let value = registry.decode_within(3, &many, unbounded).unwrap();
    assert_eq!(registry.encode(3, &value), Ok(many));
    assert_eq!(limits.memory(0), unbounded);
    let mut none = limits;
    none.memory = Memory::AtMost(0);
    assert_eq!(registry.decode_within(2, b"\x2a", none), Err(Error::Memory));
}

#[test]
fn the_default_budget_of_a_large_value_is_by_its_length() {
    // 300,000 bytes of twenty million nodes, which may take 64 MiB and 64 times 300,000 bytes.
    let registry = many_fields(64);
    let many = [compact(300_000), vec![7; 300_000]].concat();
    assert_eq!(registry.decode(3, &many).err(), Some(Error::Memory));
    let few = [compact(1000), vec![7; 300_000]].concat();
    let trailing = Error::Value {
        reason: ValueReason::TrailingBytes,
        place: 1002,
    };
    assert_eq!(registry.decode(3, &few).err(), Some(trailing));
}

/// Compacts of wrappers of wrappers: each compact's target is far away, and is found once.
#[test]
fn far_targets_of_compacts_are_found_soon() {
    const WRAPPERS: u32 = 20_000;
    let id = |number: u32| {
        if number < 64 {
            vec![number as u8 * 4]
        } else {
            compact(number)
        }
    };
    let mut types = b"\x00\x00\x00\x05\x07\x00".to_vec();
    for wrapper in 1..=WRAPPERS {
        types.extend(
            [
                id(wrapper),
                b"\x00\x00\x04\x04".to_vec(),
                id(wrapper - 1),
                vec![0],
            ]
            .concat(),
        );
    }
    for wrapper in 1..=WRAPPERS {
        types.extend(
            [
                id(WRAPPERS + wrapper),
                b"\x00\x00\x06".to_vec(),
                id(wrapper),
                vec![0],
            ]
            .concat(),
        );
    }
    let members = (1..=WRAPPERS).flat_map(|wrapper| id(WRAPPERS + wrapper));
    types.extend(
        [
            id(2 * WRAPPERS + 1),
            b"\x00\x00\x04".to_vec(),
            compact(WRAPPERS),
        ]
        .concat(),
    );
    types.extend(members.chain([0]));
    let registry = Registry::open(&[compact(2 * WRAPPERS + 2), types].concat()).unwrap();
    let begun = Instant::now();
    let bytes = vec![4; WRAPPERS as usize];
    let text = registry
        .decode(2 * WRAPPERS + 1, &bytes)
        .unwrap()
        .to_string();
    assert_eq!(Ok(text), registry.decode_json(2 * WRAPPERS + 1, &bytes));
    assert!(begun.elapsed() < Duration::from_secs(20));
}
