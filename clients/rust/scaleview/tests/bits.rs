//! Bit sequences: decoded, encoded, compared and displayed.

mod common;

use common::*;
use scaleview::{
    Bits, Error, Item, Kind, Limits, NodeReason, OpenOptions, Progress, Registry,
    TryFromValueError, TypeId, TypeKind, ValueReason,
};
use std::collections::HashSet;

/// The numbers of the primitives u8, u16, u32 and u64, and their numbers of bits.
const STORES: [(u8, usize); 4] = [(3, 8), (4, 16), (5, 32), (6, 64)];
const ORDERS: [&str; 2] = ["Lsb0", "Msb0"];
const LENGTHS: [usize; 17] = [
    0, 1, 7, 8, 9, 15, 16, 17, 31, 32, 33, 63, 64, 65, 129, 5_000, 20_000,
];

fn open(store: u8, order: &str) -> Registry {
    let registry = OpenOptions::new().bits(true).open(&bits(store, order));
    registry.unwrap()
}

/// So many bits without a period that is a power of two.
fn some_bits(count: usize) -> Vec<bool> {
    (0..count).map(|bit| bit * bit % 7 < 3).collect()
}

/// The words of bits as the format defines them, after the number of bits.
fn spelled(bools: &[bool], width: usize, order: &str) -> Vec<u8> {
    let count = bools.len() as u32;
    let words = bools.chunks(width).map(|word| {
        let places = word.iter().enumerate().filter(|(_, is)| **is);
        places.fold(0u64, |word, (bit, _)| match order {
            "Lsb0" => word | 1 << bit,
            _ => word | 1 << (width - 1 - bit),
        })
    });
    let words = words.flat_map(|word| word.to_le_bytes().into_iter().take(width / 8));
    let prefix = if count < 64 {
        vec![count as u8 * 4]
    } else {
        compact(count)
    };
    prefix.into_iter().chain(words).collect()
}

fn shown(bools: &[bool]) -> String {
    let digits = bools.iter().map(|is| if *is { '1' } else { '0' });
    format!("0b{}", digits.collect::<String>())
}

/// Bits are encoded as these bytes, and decoded from them.
fn check(registry: &Registry, bools: &[bool], bytes: &[u8]) {
    assert_eq!(
        registry.encode(2, &Item::bits(bools)).as_deref(),
        Ok(bytes),
        "{bools:?}"
    );
    let value = registry.decode(2, bytes).unwrap();
    let bits = value.as_bits().unwrap();
    assert_eq!(value.kind(), Kind::Bits(bits));
    assert_eq!((bits, bits.len()), (Bits::from(bools), bools.len()));
    assert_eq!(bits.to_string(), shown(bools));
    let json = format!("\"{}\"", shown(bools));
    assert_eq!(registry.decode_json(2, bytes).as_ref(), Ok(&json));
    assert_eq!(value.to_string(), json);
    assert_eq!(registry.encode(2, &value).as_deref(), Ok(bytes));
    assert_eq!(registry.encode(2, &Item::from(bits)).as_deref(), Ok(bytes));
    let mut session = registry.start(2, Limits::new()).unwrap();
    for byte in bytes {
        assert!(session.feed(&[*byte]).is_ok());
    }
    assert_eq!(session.feed(b"\xff"), Ok(Progress::Done { used: 0 }));
    assert_eq!(session.finish().as_ref(), Ok(&value));
}

#[test]
fn bits_of_all_forms_are_decoded_and_encoded() {
    for (store, width) in STORES {
        for order in ORDERS {
            let registry = open(store, order);
            for count in LENGTHS {
                let bools = some_bits(count);
                check(&registry, &bools, &spelled(&bools, width, order));
                check(&registry, &vec![true; count], &{
                    spelled(&vec![true; count], width, order)
                });
            }
        }
    }
}

#[test]
fn a_long_bit_sequence_is_decoded() {
    let (registry, bools) = (open(4, "Msb0"), some_bits(3_000_000));
    let bytes = spelled(&bools, 16, "Msb0");
    let value = registry.decode(2, &bytes).unwrap();
    assert_eq!(value.as_bits().unwrap(), bools);
    assert_eq!(registry.encode(2, &value), Ok(bytes));
}

#[test]
fn the_bits_of_one_form_are_encoded_in_another() {
    let bools = some_bits(77);
    for (store, width) in STORES {
        for order in ORDERS {
            let registry = open(store, order);
            let value = registry.decode(2, &spelled(&bools, width, order)).unwrap();
            let item = Item::bits(value.as_bits().unwrap());
            for (other, its_width) in STORES {
                for its_order in ORDERS {
                    let wanted = Ok(spelled(&bools, its_width, its_order));
                    let other = open(other, its_order);
                    assert_eq!(other.encode(2, &item), wanted);
                    assert_eq!(other.encode(2, &value), wanted);
                }
            }
        }
    }
}

#[test]
fn an_unused_bit_is_rejected_at_its_byte() {
    for (store, width) in STORES {
        for order in ORDERS {
            let registry = open(store, order);
            for count in [1, 5, 9, 33, width + 1, 2 * width - 1] {
                let bools = vec![true; count];
                let good = spelled(&bools, width, order);
                let prefix = good.len() - count.div_ceil(width) * (width / 8);
                let used = spelled(&vec![true; count.div_ceil(width) * width], width, order);
                let used = &used[used.len() - (good.len() - prefix)..];
                for (at, byte) in used.iter().enumerate() {
                    for bit in (0..8).filter(|bit| byte >> bit & !good[prefix + at] >> bit & 1 == 1)
                    {
                        let mut wrong = good.clone();
                        wrong[prefix + at] |= 1 << bit;
                        let error = Error::Value {
                            reason: ValueReason::UnusedBits,
                            place: (prefix + at) as u64,
                        };
                        assert_eq!(registry.decode(2, &wrong), Err(error.clone()));
                        assert_eq!(registry.decode_json(2, &wrong), Err(error));
                    }
                }
            }
        }
    }
    let (reason, place) = (ValueReason::UnusedBits, 1);
    let error = Error::Value { reason, place };
    assert_eq!(reason.code(), 314);
    assert_eq!(error.to_string(), "value: UnusedBits at 1");
    assert_eq!(open(3, "Lsb0").decode(2, b"\x04\x03"), Err(error));
}

/// No value of the type is decoded or encoded.
fn check_rejected(registry: &Registry) {
    let (reason, place) = (ValueReason::BitSequence, 0);
    let error = Error::Value { reason, place };
    assert_eq!(registry.decode(2, b"\x04\x01"), Err(error.clone()));
    assert_eq!(registry.decode_json(2, b"\x04\x01"), Err(error));
    let (reason, index) = (NodeReason::BitSequence, 0);
    let error = Error::Node { reason, index };
    for item in [Item::bits(&[true]), Item::bits(&[]), Item::Unit] {
        assert_eq!(registry.encode(2, &item), Err(error.clone()), "{item:?}");
    }
    let item = Item::fields([Item::bits(&[true]), 1.into()]);
    let (reason, index) = (NodeReason::BitSequence, 1);
    assert_eq!(
        registry.encode(3, &item),
        Err(Error::Node { reason, index })
    );
}

#[test]
fn without_the_option_bits_are_rejected() {
    for order in ORDERS {
        let bytes = bits(3, order);
        let metadata = [b"meta\x0e".as_slice(), &bytes].concat();
        check_rejected(&Registry::open(&bytes).unwrap());
        check_rejected(&Registry::open_raw(&bytes).unwrap());
        check_rejected(&Registry::open_metadata(&metadata).unwrap());
        check_rejected(&OpenOptions::new().open(&metadata).unwrap());
        check_rejected(&OpenOptions::new().bits(false).open(&bytes).unwrap());
        for options in [OpenOptions::new(), OpenOptions::default()] {
            let options = options.bits(true);
            let opened = [
                options.open(&bytes),
                options.open_raw(&bytes),
                options.open(&metadata),
                options.open_metadata(&metadata),
            ];
            for registry in opened {
                assert!(registry.unwrap().decode(2, b"\x00").is_ok());
            }
            assert!(options.open_metadata(&bytes).is_err());
        }
    }
}

#[test]
fn other_stores_and_orders_are_rejected() {
    for store in [0, 1, 2, 7, 8, 9, 10, 14] {
        check_rejected(&open(store, "Lsb0"));
    }
    for order in ["lsb0", "Lsb1", "sb0 ", "Lsb\0"] {
        check_rejected(&open(3, order));
    }
    // A store and an order that don't exist.
    for target in [b"\x08\0", b"\0\x08", b"\x08\x08"] {
        let types = [
            b"\x08\0\0\0\x05\x03\0\x04\0\0\x07".as_slice(),
            target,
            b"\0",
        ]
        .concat();
        let registry = OpenOptions::new().bits(true).open(&types).unwrap();
        let (reason, index) = (NodeReason::BitSequence, 0);
        let error = Error::Node { reason, index };
        assert_eq!(registry.encode(1, &Item::bits(&[true])), Err(error));
    }
}

#[test]
fn items_of_another_kind_are_rejected() {
    let registry = open(3, "Lsb0");
    let (reason, index) = (NodeReason::WrongKind, 0);
    let error = Error::Node { reason, index };
    let bits = Item::bits(&[true]);
    for (id, item) in [
        (0, bits.clone()),
        (3, bits.clone()),
        (4, bits.clone()),
        (1, bits),
        (2, Item::list([true.into()])),
        (2, Item::bytes(b"\x01")),
        (2, Item::from("0b1")),
        (2, true.into()),
        (2, 1.into()),
        (2, Item::Unit),
        (2, Item::Empties(1)),
    ] {
        assert_eq!(
            registry.encode(id, &item),
            Err(error.clone()),
            "{item:?} of {id}"
        );
    }
}

#[test]
fn parts_are_bits_too() {
    for (store, width) in STORES {
        let registry = open(store, "Msb0");
        let (one, other) = (some_bits(5), some_bits(70));
        let item = Item::list([Item::bits(&one), Item::bits(&[]), Item::bits(&other)]);
        let bytes = registry.encode(4, &item).unwrap();
        let spelled = |bools: &[bool]| spelled(bools, width, "Msb0");
        let wanted = [vec![12], spelled(&one), vec![0], spelled(&other)];
        assert_eq!(bytes, wanted.concat());
        let value = registry.decode(4, &bytes).unwrap();
        let parts: Vec<Bits> = value.children().filter_map(|one| one.as_bits()).collect();
        assert_eq!(
            parts,
            [Bits::from(&one), Bits::default(), Bits::from(&other)]
        );
        assert_eq!(value.child(2), value.child(2));
        assert_ne!(value.child(0), value.child(2));
        assert_eq!(registry.encode(4, &value), Ok(bytes));
    }
    let registry = open(3, "Lsb0");
    let item = Item::named([("b", 7.into()), ("a", Item::from(&[true, false]))]);
    let bytes = registry.encode(3, &item).unwrap();
    assert_eq!(bytes, b"\x08\x01\x07");
    let value = registry.decode(3, &bytes).unwrap();
    assert_eq!(value.to_string(), r#"{"a":"0b10","b":7}"#);
    assert_eq!(
        Bits::try_from(value.get("a").unwrap()).unwrap(),
        [true, false]
    );
    let error: TryFromValueError = Bits::try_from(value.get("b").unwrap()).unwrap_err();
    assert_eq!(error, bool::try_from(value.get("a").unwrap()).unwrap_err());
    assert!(value.as_bits().is_none());
    let (kind, order) = (registry.get(2).unwrap(), registry.get(1).unwrap());
    assert_eq!(
        (kind.kind(), kind.element(), kind.order()),
        (
            TypeKind::BitSequence,
            Some(TypeId::new(0)),
            Some(TypeId::new(1))
        )
    );
    assert_eq!((order.order(), order.path()), (None, Ok("bitvec::Lsb0")));
    // Equal words of two orders are not the same bits.
    let reversed = open(3, "Msb0");
    assert_ne!(
        registry.decode(2, b"\x20\x01").unwrap(),
        reversed.decode(2, b"\x20\x01").unwrap()
    );
    assert_eq!(
        registry.decode(2, b"\x20\x81").unwrap(),
        reversed.decode(2, b"\x20\x81").unwrap()
    );
}

#[test]
fn bits_have_what_a_collection_has() {
    let registry = open(6, "Msb0");
    let bools = some_bits(100);
    let value = registry.decode(2, &spelled(&bools, 64, "Msb0")).unwrap();
    for bits in [value.as_bits().unwrap(), Bits::from(&bools)] {
        assert_eq!((bits.len(), bits.is_empty()), (100, false));
        assert!((0..100).all(|at| bits.get(at) == Some(bools[at])));
        assert_eq!(
            (bits.get(100), bits.get(127), bits.get(usize::MAX)),
            (None, None, None)
        );
        assert_eq!(bits.into_iter().collect::<Vec<_>>(), bools);
        assert!(bits.iter().rev().eq(bools.iter().rev().copied()));
        assert!(
            bits.iter()
                .skip(3)
                .step_by(9)
                .eq(bools.iter().skip(3).step_by(9).copied())
        );
        let mut rest = bits.iter();
        assert_eq!((rest.nth(98), rest.len()), (Some(bools[98]), 1));
        assert_eq!(
            (rest.nth(1), rest.next(), rest.next_back()),
            (None, None, None)
        );
        assert_eq!(bits, *bools.as_slice());
        assert_eq!(bits, bools);
        assert_ne!(bits, [true]);
        assert_ne!(bits, Bits::from(&vec![true; 100]));
    }
    let set = HashSet::from([
        value.as_bits().unwrap(),
        Bits::from(&bools),
        Bits::default(),
    ]);
    assert_eq!(set.len(), 2);
    let few = Bits::from(&[true, false, true]);
    assert_eq!(
        format!("{few:?} {few} {few:>7} {few:.3}"),
        "0b101 0b101   0b101 0b1"
    );
    assert_eq!(format!("{:?}", few.iter()), "[true, false, true]");
    assert_eq!(Bits::default().to_string(), "0b");
    assert!(Bits::default().is_empty());
    assert_eq!(format!("{:?}", Item::from(few)), "Bits(0b101)");
}
