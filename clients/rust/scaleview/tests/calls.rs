//! What the wrapper adds to the calls: owners, reasons, numbers of codes, limits.

mod common;

use common::*;
use scaleview::{
    Error, Kind, Limits, NodeReason, Progress, Registry, RegistryReason, Session, TypeId,
    ValueReason,
};

fn value_error(reason: ValueReason, place: u64) -> Error {
    Error::Value { reason, place }
}

#[test]
fn sessions_of_one_registry_do_not_meet() {
    let registry = Registry::open(U16).unwrap();
    let mut first = registry.start(0, Limits::new()).unwrap();
    let mut second = registry.start(0, Limits::new()).unwrap();
    assert_eq!(first.feed(b"\x01"), Ok(Progress::More));
    assert_eq!(second.feed(b"\x02\x00"), Ok(Progress::Done { used: 2 }));
    assert_eq!((first.taken(), second.taken(), second.nodes()), (1, 2, 1));
    drop(first);
    assert_eq!(second.finish_json(), Ok("2".to_string()));
    assert_eq!(registry.decode_json(0, b"\x03\x00"), Ok("3".to_string()));
}

#[test]
fn errors_have_reason_and_place() {
    let truncated = || value_error(ValueReason::Truncated, 1);
    let registry = Registry::open(U16).unwrap();
    assert_eq!(registry.decode_json(0, b"\x01"), Err(truncated()));
    assert_eq!(registry.decode(0, b"\x01"), Err(truncated()));
    let mut session = registry.start(0, Limits::new()).unwrap();
    assert_eq!(session.feed(b"\x01"), Ok(Progress::More));
    assert_eq!(session.finish(), Err(truncated()));
    assert_eq!(session.finish_json(), Err(truncated()));
    assert_eq!(session.feed(b"\x00"), Err(truncated()));
    let deep = Limits::new().depth(1025);
    assert_eq!(registry.start(0, deep).err(), Some(Error::LimitOutOfRange));
    assert_eq!(
        registry.decode_within(0, b"\x01\x00", deep),
        Err(Error::LimitOutOfRange)
    );
    let reason = RegistryReason::IdOutOfPlace;
    assert_eq!(
        Registry::open(b"\x04\x04").err(),
        Some(Error::Registry { reason, place: 1 })
    );
    let dangling = Error::UnknownReference {
        from: TypeId::new(0),
        to: TypeId::new(1),
    };
    assert_eq!(
        Registry::open(b"\x04\x00\x00\x00\x02\x04\x00").err(),
        Some(dangling)
    );
}

#[test]
fn an_unknown_type_is_named() {
    let id = TypeId::new(13);
    let unknown = || Error::UnknownType { id };
    let registry = Registry::open(U16).unwrap();
    assert_eq!(registry.decode(13, b"\x01"), Err(unknown()));
    assert_eq!(registry.decode(13, &[0; 2000]), Err(unknown()));
    assert_eq!(registry.decode_json(13, b"\x01"), Err(unknown()));
    assert_eq!(registry.encode(13, &scaleview::Item::Unit), Err(unknown()));
    assert_eq!(
        registry.encode(13, &registry.decode(0, b"\x01\x00").unwrap()),
        Err(unknown())
    );
    assert_eq!(registry.type_line(13), Err(unknown()));
    assert_eq!(registry.start(13, Limits::new()).err(), Some(unknown()));
    assert!(registry.get(13).is_none());
}

#[test]
fn errors_are_told_as_the_command_does() {
    let [from, to, id] = [0, 1, 13].map(TypeId::new);
    let told = [
        (
            Error::Registry {
                reason: RegistryReason::BadOption,
                place: 9,
            },
            "registry: BadOption at 9",
        ),
        (
            Error::UnknownReference { from, to },
            "check: UnknownType 1 in type 0",
        ),
        (Error::UnknownType { id }, "type: UnknownType 13"),
        (
            value_error(ValueReason::Truncated, 1),
            "value: Truncated at 1",
        ),
        (Error::Memory, "memory"),
        (
            Error::Node {
                reason: NodeReason::WrongKind,
                index: 3,
            },
            "node: WrongKind at 3",
        ),
    ];
    for (error, line) in told {
        assert_eq!(error.to_string(), line);
    }
    let shared: Box<dyn std::error::Error + Send + Sync> = Box::new(Error::Memory);
    assert_eq!(shared.to_string(), "memory");
}

#[test]
fn the_numbers_stay() {
    assert_eq!(
        (
            RegistryReason::Truncated.code(),
            RegistryReason::TrailingBytes.code()
        ),
        (101, 111)
    );
    assert_eq!(
        (
            ValueReason::Truncated.code(),
            ValueReason::TrailingBytes.code()
        ),
        (301, 313)
    );
    assert_eq!(
        (NodeReason::TooDeep.code(), NodeReason::BadText.code()),
        (401, 409)
    );
}

#[test]
fn counts_are_read_of_a_shared_session() {
    fn counts(session: &Session) -> (u64, u64, u64) {
        (session.taken(), session.nodes(), session.text_bytes())
    }
    let registry = Registry::open(U16).unwrap();
    let mut session = registry.start(0, Limits::new()).unwrap();
    assert_eq!(counts(&session), (0, 0, 0));
    assert_eq!(session.feed(b"\x01\x00"), Ok(Progress::Done { used: 2 }));
    assert_eq!((counts(&session), counts(&session)), ((2, 1, 0), (2, 1, 0)));
    assert_eq!(session.finish_json(), Ok("1".to_string()));
}

#[test]
fn metadata_is_recognised() {
    for version in [14, 15] {
        let bytes = [b"meta".as_slice(), &[version], U16, b"\xff"].concat();
        let registry = Registry::open(&bytes).unwrap();
        assert_eq!(registry.type_line(0), Ok("0 Sized u16 \"\"\n".to_string()));
        assert_eq!(
            (registry.version(), registry.end()),
            (Some(u32::from(version)), 12)
        );
    }
    let alone = Registry::open(U16).unwrap();
    assert_eq!(
        (alone.version(), alone.end(), alone.len(), alone.is_empty()),
        (None, 7, 1, false)
    );
    let (wrong, raw) = (RegistryReason::WrongVersion, RegistryReason::IdOutOfPlace);
    assert_eq!(
        Registry::open(b"meta\x10").err(),
        Some(Error::Registry {
            reason: wrong,
            place: 4
        })
    );
    assert_eq!(
        Registry::open_raw(b"meta\x0e").err(),
        Some(Error::Registry {
            reason: raw,
            place: 2
        })
    );
    let none = Error::Registry {
        reason: RegistryReason::NotMetadata,
        place: 0,
    };
    assert_eq!(Registry::open_metadata(U16).err(), Some(none));
}

/// `serde_json::from_str` reads 127 levels, so the documents promise it for a depth of 62 and not
/// for the default of 64.
#[test]
fn a_text_nests_twice_as_deep_as_its_value() {
    let registry = Registry::open(CHAIN).unwrap();
    for depth in [0, 62, 64, 1024] {
        let text = registry
            .decode_json_within(0, &chain(depth), Limits::new().depth(depth as u16))
            .unwrap();
        let levels = text
            .bytes()
            .filter(|byte| matches!(byte, b'[' | b'{'))
            .count();
        assert_eq!(levels, 2 * (depth + 1));
    }
    let page =
        std::fs::read_to_string(concat!(env!("CARGO_MANIFEST_DIR"), "/src/registry.rs")).unwrap();
    assert!(page.contains("so it reads all values of a depth up to 62"));
}

#[test]
fn runs_of_bytes_are_shown_and_counted() {
    let registry = Registry::open(BYTES).unwrap();
    assert_eq!(
        registry.decode_json(1, b"\x0c\x01\x02\xff"),
        Ok("\"0x0102ff\"".to_string())
    );
    assert_eq!(
        registry.decode(1, b"\x0c\x01\x02\xff").unwrap().as_bytes(),
        Some(b"\x01\x02\xff".as_slice())
    );
    let mut session = registry.start(1, Limits::new()).unwrap();
    assert_eq!(session.feed(b"\x0c\x01\x02"), Ok(Progress::More));
    assert_eq!(
        (session.taken(), session.nodes(), session.text_bytes()),
        (3, 0, 2)
    );
    assert_eq!(session.feed(b"\xff"), Ok(Progress::Done { used: 1 }));
    assert_eq!(
        (session.taken(), session.nodes(), session.text_bytes()),
        (4, 1, 3)
    );
}

#[test]
fn a_limit_of_bytes_is_kept() {
    let registry = Registry::open(U32).unwrap();
    let limits = Limits::new().bytes(2);
    let mut cut = registry.start(0, limits).unwrap();
    assert_eq!(cut.feed(b"\x01\x02"), Ok(Progress::More));
    assert_eq!(
        cut.finish_json(),
        Err(value_error(ValueReason::Truncated, 2))
    );
    let too_long = || value_error(ValueReason::TooLong, 2);
    let mut session = registry.start(0, limits).unwrap();
    for _ in 0..2 {
        assert_eq!(session.feed(b"\x01\x02\x03"), Err(too_long()));
        assert_eq!(
            (session.taken(), session.nodes(), session.text_bytes()),
            (2, 0, 0)
        );
    }
    assert_eq!(session.finish(), Err(too_long()));
    assert_eq!(
        registry.decode_json_within(0, b"\x01\x02\x03\x04", limits),
        Err(too_long())
    );
    assert_eq!(
        registry.decode(0, b"\x01\x02\x00\x00").unwrap().kind(),
        Kind::Unsigned(513)
    );
}

#[test]
fn a_budget_of_memory_is_kept() {
    let registry = Registry::open(BYTES).unwrap();
    let value = [compact(10_000), vec![7; 10_000]].concat();
    let (little, enough) = (Limits::new().memory(5_000), Limits::new().memory(200_000));
    assert_eq!(
        registry.decode_within(1, &value, little),
        Err(Error::Memory)
    );
    assert_eq!(
        registry.decode_json_within(1, &value, little),
        Err(Error::Memory)
    );
    let decoded = registry.decode_within(1, &value, enough).unwrap();
    assert_eq!(
        registry.encode_within(1, &decoded, little),
        Err(Error::Memory)
    );
    assert_eq!(registry.encode_within(1, &decoded, enough), Ok(value));
}

#[test]
fn the_used_bytes_split_a_piece() {
    let registry = Registry::open(U16).unwrap();
    let mut session = registry.start(0, Limits::new()).unwrap();
    let piece = b"\x02\x00\xff".as_slice();
    let Progress::Done { used } = session.feed(piece).unwrap() else {
        panic!("the value is complete")
    };
    assert_eq!(piece.split_at(used), (&b"\x02\x00"[..], &b"\xff"[..]));
}

#[test]
fn an_answer_is_kept() {
    let registry = Registry::open(U16).unwrap();
    let mut whole = registry.start(0, Limits::new()).unwrap();
    assert_eq!(whole.feed(b"\x02\x00\xff"), Ok(Progress::Done { used: 2 }));
    assert_eq!(whole.feed(b"\xff"), Ok(Progress::Done { used: 0 }));
    assert_eq!(whole.taken(), 2);
    for _ in 0..2 {
        assert_eq!(whole.finish_json(), Ok("2".to_string()));
        assert_eq!(whole.finish().map(|value| value.as_u128()), Ok(Some(2)));
    }
    let value = whole.finish().unwrap();
    drop(whole);
    assert_eq!(value.to_string(), "2");
}

#[test]
fn long_values_are_answered_as_short_ones() {
    let registry = Registry::open(BYTES).unwrap();
    for count in [1000, 4000, 20_000, 300_000] {
        let mut value = [compact(count as u32), vec![7; count]].concat();
        let text = format!("\"0x{}\"", "07".repeat(count));
        assert_eq!(registry.decode_json(1, &value).as_ref(), Ok(&text));
        assert_eq!(
            registry
                .decode(1, &value)
                .map(|value| value.to_string())
                .as_ref(),
            Ok(&text)
        );
        let end = value.len() as u64;
        value.push(0);
        assert_eq!(
            registry.decode_json(1, &value),
            Err(value_error(ValueReason::TrailingBytes, end))
        );
        value.truncate(count);
        assert_eq!(
            registry.decode_json(1, &value),
            Err(value_error(ValueReason::Truncated, count as u64))
        );
    }
}

#[test]
fn large_values_are_rejected_as_small_ones() {
    let registry = Registry::open(BYTES).unwrap();
    for count in [4000, 400_000] {
        let value = [compact(count as u32), vec![7; count]].concat();
        let rejected = |id, limits| registry.decode_within(id, &value, limits).err();
        let (limits, id) = (Limits::new(), TypeId::new(2));
        assert_eq!(rejected(1, limits), None);
        assert_eq!(rejected(2, limits), Some(Error::UnknownType { id }));
        let too_deep = limits.depth(1025);
        assert_eq!(rejected(1, too_deep), Some(Error::LimitOutOfRange));
        let too_long = value_error(ValueReason::TooLong, 3000);
        assert_eq!(rejected(1, limits.bytes(3000)), Some(too_long));
        assert_eq!(rejected(1, limits.memory(3000)), Some(Error::Memory));
        let trailing = value_error(ValueReason::TrailingBytes, 1);
        assert_eq!(rejected(0, limits), Some(trailing));
    }
}

#[test]
fn a_forgotten_session_keeps_its_registry_open() {
    let registry = Registry::open(U16).unwrap();
    std::mem::forget(registry.start(0, Limits::new()).unwrap());
    assert_eq!(registry.decode_json(0, b"\x01\x00"), Ok("1".to_string()));
    drop(registry);
}
