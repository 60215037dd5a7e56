//! Registries, values and sessions on several threads, and on threads with little stack.

mod common;

use common::*;
use scaleview::{
    Error, Item, Limits, Metadata, Named, OwnedSession, OwnedValue, Progress, Registry, Session,
    Storage, Value,
};
use std::collections::HashSet;
use std::path::Path;
use std::sync::{Arc, Barrier, OnceLock};
use std::{fs, thread};

fn example(name: &str) -> Vec<u8> {
    fs::read(
        Path::new(env!("CARGO_MANIFEST_DIR"))
            .join("../../../examples")
            .join(name),
    )
    .unwrap()
}

#[test]
fn all_may_be_sent_and_shared() {
    fn may<T: Send + Sync>() {}
    may::<Registry>();
    may::<Metadata>();
    may::<Named>();
    may::<Storage>();
    may::<Session>();
    may::<OwnedSession>();
    may::<Value>();
    may::<OwnedValue>();
    may::<OwnedValue<Metadata>>();
    may::<Error>();
}

#[test]
fn a_registry_moves_to_another_thread() {
    let registry = Registry::open(U16).unwrap();
    let (text, registry) = thread::spawn(move || (registry.decode_json(0, b"\x03\x00"), registry))
        .join()
        .unwrap();
    assert_eq!(text, Ok("3".to_string()));
    assert_eq!(registry.decode_json(0, b"\x04\x00"), Ok("4".to_string()));
}

#[test]
fn a_registry_may_be_a_static() {
    static REGISTRY: OnceLock<Registry> = OnceLock::new();
    let text = |byte| {
        REGISTRY
            .get_or_init(|| Registry::open(U16).unwrap())
            .decode_json(0, &[byte, 0])
    };
    let threads: Vec<_> = (0..4)
        .map(|byte| thread::spawn(move || text(byte)))
        .collect();
    for (number, thread) in threads.into_iter().enumerate() {
        assert_eq!(thread.join().unwrap(), Ok(number.to_string()));
    }
}

/// A struct that owns a registry and a session of it.
struct Reader {
    session: OwnedSession,
    registry: Arc<Registry>,
}

#[test]
fn a_struct_owns_a_registry_and_its_session() {
    let registry = Arc::new(Registry::open(U16).unwrap());
    let mut reader = Reader {
        session: registry.start_owned(0, Limits::new()).unwrap(),
        registry,
    };
    assert_eq!(reader.session.feed(b"\x07"), Ok(Progress::More));
    let mut reader = thread::spawn(move || {
        assert_eq!(reader.session.feed(b"\x00"), Ok(Progress::Done { used: 1 }));
        reader
    })
    .join()
    .unwrap();
    assert_eq!(
        reader.session.finish().map(|value| value.to_string()),
        Ok("7".to_string())
    );
    // The session keeps the registry open.
    drop(reader.registry);
    assert_eq!(reader.session.registry().len(), 1);
    assert_eq!(reader.session.finish_json(), Ok("7".to_string()));
}

/// The value outlives all but its share of the registry.
fn read(types: &[u8], bytes: &[u8]) -> Result<OwnedValue, Error> {
    Arc::new(Registry::open(types)?).decode_owned(0, bytes)
}

#[test]
fn an_owned_value_is_returned_and_sent() {
    let value = read(U16, b"\x07\x00").unwrap();
    let value = thread::spawn(move || {
        assert_eq!(value.as_u128(), Some(7));
        value
    })
    .join()
    .unwrap();
    assert_eq!(Arc::strong_count(value.owner()), 1);
    assert_eq!(value.registry().encode(0, &value), Ok(vec![7, 0]));
    assert_eq!(value.clone(), value);
    assert_eq!(format!("{value} {value:?}"), "7 Value(7 of type 0)");
}

#[test]
fn a_value_takes_a_share_of_its_own_registry_alone() {
    let (registry, other) = (
        Arc::new(Registry::open(U16).unwrap()),
        Arc::new(Registry::open(U16).unwrap()),
    );
    let decode = || registry.decode(0, b"\x07\x00").unwrap();
    assert!(decode().into_owned(&other).is_none());
    let owned = decode().into_owned(&registry).unwrap();
    assert!(Arc::ptr_eq(owned.owner(), &registry));
    assert_eq!(owned, decode());
    let mut session = registry.start_owned(0, Limits::new()).unwrap();
    assert_eq!(session.feed(b"\x07\x00"), Ok(Progress::Done { used: 2 }));
    let finished = session.finish().unwrap();
    drop(session);
    assert_eq!(thread::spawn(move || finished).join().unwrap(), owned);
}

#[test]
fn an_owned_value_shares_metadata() {
    let chain = Arc::new(Metadata::open(&metadata("small chain 15")).unwrap());
    let run = chain.api("Core.run").unwrap().params;
    let bytes = b"\x04\xff\x07\0\0\0";
    let value = chain.decode_owned(run, bytes).unwrap();
    let again = run.decode(bytes).unwrap().into_owned(&chain).unwrap();
    let mut session = chain.start_owned(run, Limits::new()).unwrap();
    assert_eq!(session.feed(bytes), Ok(Progress::Done { used: 6 }));
    assert_eq!((&session.finish().unwrap(), &value), (&again, &again));
    let too_long = chain.decode_owned_within(run, bytes, Limits::new().bytes(1));
    assert!(too_long.is_err());
    drop((chain, session, again));
    let at = thread::spawn(move || value.at("at").and_then(|at| at.as_u128()));
    assert_eq!(at.join().unwrap(), Some(7));
}

/// What is made of a value: by a session in pieces, by one call, and back.
fn make(registry: &Registry, id: u32, bytes: &[u8], step: usize) -> [String; 3] {
    let mut session = registry.start(id, Limits::new()).unwrap();
    for piece in bytes.chunks(step) {
        let _ = session.feed(piece).unwrap();
    }
    assert_eq!(session.taken(), bytes.len() as u64);
    let value = registry.decode(id, bytes).unwrap();
    assert_eq!(registry.encode(id, &value).unwrap(), bytes);
    [
        session.finish().unwrap().to_string(),
        value.to_string(),
        registry.decode_json(id, bytes).unwrap(),
    ]
}

#[test]
fn four_threads_have_sessions_of_one_registry() {
    let (metadata, block) = (
        example("runtime/metadata.scale"),
        example("runtime/events_block.scale"),
    );
    let wanted = String::from_utf8(example("runtime/events_block.json")).unwrap();
    let registry = Registry::open(&metadata).unwrap();
    let begun = Barrier::new(4);
    thread::scope(|scope| {
        for step in [1, 7, 100, 4096] {
            let (registry, begun, block, wanted) = (&registry, &begun, &block, wanted.trim_end());
            scope.spawn(move || {
                begun.wait();
                for _ in 0..5 {
                    assert_eq!(make(registry, 10, block, step), [wanted; 3]);
                }
            });
        }
    });
}

#[test]
fn four_threads_ask_for_names() {
    let chain = Metadata::open(&metadata("small chain 15")).unwrap();
    let begun = Barrier::new(4);
    thread::scope(|scope| {
        for _ in 0..4 {
            scope.spawn(|| {
                begun.wait();
                for _ in 0..100 {
                    assert_eq!(chain.names().count(), 29);
                    let pair = chain.constant("Other.Pair").unwrap();
                    assert_eq!(pair.value().unwrap().to_string(), "[1,2]");
                }
            });
        }
    });
}

#[test]
fn a_session_is_shared_while_others_begin_and_end() {
    let registry = Registry::open(U16).unwrap();
    let mut shared = registry.start(0, Limits::new()).unwrap();
    let _ = shared.feed(b"\x07").unwrap();
    thread::scope(|scope| {
        for _ in 0..4 {
            scope.spawn(|| {
                for _ in 0..1000 {
                    let mut own = registry.start(0, Limits::new()).unwrap();
                    let _ = own.feed(b"\x01").unwrap();
                    assert_eq!((shared.taken(), own.taken(), registry.len()), (1, 1, 1));
                }
            });
        }
    });
}

/// The library takes a session out of its handle while it reports, so that two at a time would
/// miss it.
#[test]
fn a_session_is_asked_by_four_threads() {
    let registry = Registry::open(U16).unwrap();
    let mut shared = registry.start(0, Limits::new()).unwrap();
    let _ = shared.feed(b"\x07\x00").unwrap();
    let begun = Barrier::new(4);
    thread::scope(|scope| {
        for _ in 0..4 {
            scope.spawn(|| {
                begun.wait();
                for _ in 0..100_000 {
                    assert_eq!((shared.taken(), shared.nodes()), (2, 1));
                }
            });
        }
    });
}

fn with_stack<T: Send + 'static>(size: usize, call: impl FnOnce() -> T + Send + 'static) -> T {
    thread::Builder::new()
        .stack_size(size)
        .spawn(call)
        .unwrap()
        .join()
        .unwrap()
}

/// The default depth fits into the smallest of usual stacks, musl's 128 KiB.
#[test]
fn a_small_stack_is_enough_for_the_default_depth() {
    for (registry, value) in [(CHAIN, chain(64)), (NAMED, named_chain(64))] {
        let lengths = with_stack(128 << 10, move || {
            let registry = Registry::open(registry).unwrap();
            make(&registry, 0, &value, 3).map(|text| text.len())
        });
        assert!(
            lengths
                .iter()
                .all(|length| *length == lengths[0] && *length > 64 * 11)
        );
    }
}

/// The documents of `Item` promise these depths.
#[test]
fn a_stack_of_two_mebibytes_holds_deep_items() {
    let item = |depth| {
        (0..depth).fold(Item::Unit, |inner, _| {
            Item::named_variant("Next", [("a", inner)])
        })
    };
    with_stack(2 << 20, move || drop(item(8_000)));
    with_stack(2 << 20, move || {
        let item = item(1_200);
        assert!(item.clone() == item);
        assert_eq!(format!("{item:?}").matches("Next").count(), 1_200);
        assert!(HashSet::from([item.clone()]).contains(&item));
    });
    let page = include_str!("../src/item.rs");
    assert!(page.contains("holds 8,000 levels to drop and 1,200 to clone, compare, format or"));
}

/// What this crate does itself takes no stack for a level, nor do the calls for nodes.
#[test]
fn a_small_stack_is_enough_for_values_of_any_depth() {
    for (registry, value) in [(CHAIN, chain(1024)), (NAMED, named_chain(1024))] {
        let shown = with_stack(128 << 10, move || {
            let registry = Registry::open(registry).unwrap();
            let value = registry
                .decode_within(0, &value, Limits::new().depth(1024))
                .unwrap();
            registry
                .encode_within(0, &value, Limits::new().depth(1024))
                .unwrap();
            value.to_string()
        });
        let text = with_stack(2 << 20, move || {
            let (registry, value) = if shown.contains("\"a\"") {
                (NAMED, named_chain(1024))
            } else {
                (CHAIN, chain(1024))
            };
            let registry = Registry::open(registry).unwrap();
            (
                registry
                    .decode_json_within(0, &value, Limits::new().depth(1024))
                    .unwrap(),
                shown,
            )
        });
        assert_eq!(text.0, text.1);
    }
}
