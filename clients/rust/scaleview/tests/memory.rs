//! Allocations that fail are errors, and never abort.

mod common;

use common::*;
use scaleview::{Error, Item, Limits, Metadata, OpenOptions, Registry};
use std::alloc::{GlobalAlloc, Layout, System};
use std::cell::Cell;
use std::fmt::Write;
use std::ptr;
use std::sync::Arc;

thread_local! {
    /// How many allocations of this thread succeed.
    static LEFT: Cell<usize> = const { Cell::new(usize::MAX) };
    /// How many bytes this thread has allocated.
    static ALLOCATED: Cell<usize> = const { Cell::new(0) };
}

/// The system's allocator, which fails after so many allocations. The library has its own.
struct Limited;

#[global_allocator]
static LIMITED: Limited = Limited;

// SAFETY: null is a failed allocation, and all others are the system's.
unsafe impl GlobalAlloc for Limited {
    unsafe fn alloc(&self, layout: Layout) -> *mut u8 {
        let left = LEFT.get();
        if left == 0 {
            return ptr::null_mut();
        }
        LEFT.set(if left == usize::MAX { left } else { left - 1 });
        ALLOCATED.set(ALLOCATED.get() + layout.size());
        // SAFETY: the caller keeps to the same rules.
        unsafe { System.alloc(layout) }
    }

    unsafe fn dealloc(&self, at: *mut u8, layout: Layout) {
        // SAFETY: as above, and the system has allocated it.
        unsafe { System.dealloc(at, layout) }
    }
}

fn with_allocations<T>(count: usize, call: impl FnOnce() -> T) -> T {
    LEFT.set(count);
    let result = call();
    LEFT.set(usize::MAX);
    result
}

/// Makes each allocation of a call fail in turn: it returns `Memory`, or does without, and at last
/// succeeds.
fn check<T>(what: &str, mut call: impl FnMut() -> Result<T, Error>) {
    let mut failed = 0;
    for count in 0..1000 {
        match with_allocations(count, &mut call) {
            Ok(_) => {
                if with_allocations(count + 1, &mut call).is_ok() {
                    assert!(failed > 0, "{what} needs no memory");
                    return;
                }
            }
            Err(error) => {
                assert_eq!(error, Error::Memory, "{what} with {count} allocations");
                failed += 1;
            }
        }
    }
    panic!("{what} does not end");
}

#[test]
fn no_memory_for_a_text_is_an_error() {
    let (short, long) = (Registry::open(U16).unwrap(), Registry::open(CHAIN).unwrap());
    assert_eq!(
        with_allocations(0, || short.type_line(0)),
        Err(Error::Memory)
    );
    assert_eq!(
        with_allocations(0, || short.decode_json(0, b"\x01\x00")),
        Err(Error::Memory)
    );
    assert_eq!(
        with_allocations(0, || short.decode(0, b"\x01\x00")),
        Err(Error::Memory)
    );
    assert_eq!(short.decode_json(0, b"\x01\x00"), Ok("1".to_string()));
    // The text has no room at first.
    let limits = Limits::new().depth(1024);
    for depth in [1000, 1024] {
        let value = chain(depth);
        assert_eq!(
            with_allocations(0, || long.decode_json_within(0, &value, limits)),
            Err(Error::Memory)
        );
        assert_eq!(
            with_allocations(1, || long.decode_json_within(0, &value, limits)),
            Err(Error::Memory)
        );
        assert_eq!(
            long.decode_json_within(0, &value, limits)
                .map(|text| text.len()),
            Ok(11 * depth + 10)
        );
    }
}

#[test]
fn each_allocation_may_fail() {
    check("open", || Registry::open(NAMED));
    let value = named_chain(40);
    check("decode", || {
        Registry::open(NAMED).and_then(|registry| registry.decode(0, &value).map(|_| ()))
    });
    check("types", || {
        Registry::open(NAMED)?
            .get(0)
            .ok_or(Error::Memory)?
            .variants()
            .map(|variants| variants.len())
    });
    let registry = Registry::open(NAMED).unwrap();
    check("decode_json", || registry.decode_json(0, &value));
    check("type_line", || registry.type_line(0));
    let decoded = registry.decode(0, &value).unwrap();
    check("encode", || registry.encode(0, &decoded));
    let end = || Item::variant("End", []);
    let item = Item::named_variant(
        "Next",
        [
            ("a", 7.into()),
            ("b", Item::variant("Next", [end(), 8.into()])),
        ],
    );
    check("encode an item", || registry.encode(0, &item));
    let mut session = registry.start(0, Limits::new()).unwrap();
    let _ = session.feed(&value).unwrap();
    check("finish", || session.finish().map(|_| ()));
    check("finish_json", || session.finish_json());
    assert_eq!(session.finish_json(), Ok(decoded.to_string()));
}

#[test]
fn bit_sequences_may_lack_memory() {
    let (lsb0, msb0) = (bits(4, "Lsb0"), bits(4, "Msb0"));
    let open = |types: &[u8]| OpenOptions::new().bits(true).open(types);
    let item = Item::bits(&[true; 100]);
    check("encode bits", || open(&lsb0)?.encode(2, &item));
    let registry = open(&lsb0).unwrap();
    let bytes = registry.encode(2, &item).unwrap();
    check("decode bits", || {
        open(&lsb0).and_then(|registry| registry.decode(2, &bytes).map(|_| ()))
    });
    check("decode_json", || registry.decode_json(2, &bytes));
    let value = registry.decode(2, &bytes).unwrap();
    let item = Item::bits(value.as_bits().unwrap());
    check("encode a value's bits", || open(&lsb0)?.encode(2, &item));
    check("encode in another form", || open(&msb0)?.encode(2, &item));
    let shown = with_allocations(0, || write!(Fixed(0), "{value} {item:?}"));
    assert_eq!(shown, Ok(()));
}

#[test]
fn names_may_lack_memory() {
    let bytes = metadata("small chain 15");
    check("open metadata", || Metadata::open(&bytes));
    let chain = Metadata::open(&bytes).unwrap();
    let listed = with_allocations(0, || chain.names().count());
    assert_eq!(listed, 29);
    let pair = with_allocations(0, || chain.constant("Other.Pair").unwrap());
    let unknown = with_allocations(0, || chain.constant("Other.None").err());
    assert_eq!(unknown, Some(Error::Memory));
    let none = with_allocations(0, || chain.call().unwrap().bytes());
    assert_eq!(none, Err(Error::Memory));
    check("bytes of a name", || pair.bytes());
    check("the value of a name", || pair.value().map(|_| ()));
    let call = chain.extrinsic().unwrap();
    check("decode an opaque value", || {
        chain.decode_opaque_json(call, b"\x18\x04\x01\xd2\x04\0\0")
    });
}

/// An enum of one variant, and a sequence of it: each byte is a node.
const ONES: &[u8] = b"\x08\x00\0\0\x01\x04\x04A\0\0\0\0\x04\0\0\x02\0\0";

#[test]
fn a_large_value_is_allocated_once() {
    const COUNT: usize = 1 << 20;
    let registry = Registry::open(ONES).unwrap();
    let bytes = [compact(COUNT as u32), vec![0; COUNT]].concat();
    let before = ALLOCATED.get();
    let value = registry.decode(1, &bytes).unwrap();
    let allocated = ALLOCATED.get() - before;
    assert_eq!(value.children().len(), COUNT);
    // 32 bytes for each node, and the names of the types.
    let size = 32 * (COUNT + 1);
    assert!((size..size + 4096).contains(&allocated), "{allocated}");
}

#[test]
fn owned_values_may_lack_memory() {
    let registry = Arc::new(Registry::open(NAMED).unwrap());
    let value = named_chain(40);
    check("decode an owned value", || registry.decode_owned(0, &value));
    let mut session = registry.start_owned(0, Limits::new()).unwrap();
    let _ = session.feed(&value).unwrap();
    check("finish an owned value", || session.finish());
    let decoded = registry.decode(0, &value).unwrap();
    let owned = with_allocations(0, || decoded.into_owned(&registry));
    assert_eq!(owned, registry.decode_owned(0, &value).ok());
}

#[test]
fn json_for_the_web_may_lack_memory() {
    let registry = Registry::open(NAMED).unwrap();
    let value = registry.decode(0, &named_chain(40)).unwrap();
    check("to_web_json", || value.to_web_json());
}

#[test]
fn large_values_may_lack_memory() {
    let value = [compact(1 << 18), vec![0; 1 << 18]].concat();
    check("decode a large value", || {
        Registry::open(ONES).and_then(|registry| registry.decode(1, &value).map(|_| ()))
    });
}

/// A text on the stack, which takes no memory.
struct Fixed(usize);

impl Write for Fixed {
    fn write_str(&mut self, text: &str) -> std::fmt::Result {
        self.0 += text.len();
        Ok(())
    }
}

#[test]
fn a_value_that_is_shown_may_lack_memory() {
    let registry = Registry::open(NAMED).unwrap();
    let value = registry.decode(0, &named_chain(3)).unwrap();
    let mut failed = 0;
    while with_allocations(failed, || write!(Fixed(0), "{value}")).is_err() {
        failed += 1;
    }
    assert!(failed > 0 && failed < 20);
    let mut text = Fixed(0);
    write!(text, "{value}").unwrap();
    assert_eq!(text.0, value.to_string().len());
}
