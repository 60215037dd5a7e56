//! The proved decoder's calls. They mark where their work begins, where its answer is there, and where that was dropped.

use crate::heap::{self, Held};
use std::cell::RefCell;
use std::time::Instant;

mod calls {
    unsafe extern "C" {
        pub fn proved_read(registry: *const u8, registry_len: usize, times: u32) -> u64;
        pub fn proved_check(registry: *const u8, registry_len: usize, times: u32) -> u64;
        pub fn proved_decode(
            registry: *const u8,
            registry_len: usize,
            ty: u32,
            value: *const u8,
            value_len: usize,
            piece: usize,
            times: u32,
        ) -> u64;
        pub fn proved_print(
            registry: *const u8,
            registry_len: usize,
            ty: u32,
            value: *const u8,
            value_len: usize,
            is_decoded: u32,
            times: u32,
        ) -> u64;
    }
}

#[derive(Default)]
struct Marks {
    counts: bool,
    begun: Option<Instant>,
    /// The least that the work took, in nanoseconds, with the drop of its answer.
    least: Option<f64>,
    /// What was held while the last answer was there.
    held: Held,
}

thread_local! {
    static MARKS: RefCell<Marks> = RefCell::new(Marks::default());
}

impl Marks {
    fn pass(&mut self, mark: u32) {
        match (self.counts, mark) {
            (true, 0) => heap::begin_counting(),
            (true, 1) => self.held = heap::held(),
            (true, _) => heap::end_counting(),
            (false, 0) => self.begun = Some(Instant::now()),
            (false, 1) => {}
            (false, _) => self.end(),
        }
    }

    fn end(&mut self) {
        let took = self
            .begun
            .expect("mark 0 before mark 2")
            .elapsed()
            .as_nanos() as f64;
        self.least = Some(self.least.map_or(took, |least| least.min(took)));
    }
}

#[unsafe(no_mangle)]
extern "C" fn proved_mark(mark: u32) {
    MARKS.with_borrow_mut(|marks| marks.pass(mark));
}

/// The marks of a call, which answers 0 where the decoder refuses.
fn marked(counts: bool, call: impl FnOnce() -> u64) -> Marks {
    MARKS.set(Marks {
        counts,
        ..Marks::default()
    });
    let answer = call();
    assert_ne!(answer, 0, "the proved decoder refuses what is measured");
    MARKS.take()
}

/// The least time of the turns that a call makes, in nanoseconds.
pub fn time(call: impl FnOnce() -> u64) -> f64 {
    marked(false, call).least.expect("a turn that ended")
}

/// What the last turn held that a call makes, when its answer was there.
pub fn memory(call: impl FnOnce() -> u64) -> Held {
    marked(true, call).held
}

/// A value's bytes, its type, and the bytes of the registry that has the type.
#[derive(Clone, Copy)]
pub struct Job<'a> {
    pub registry: &'a [u8],
    pub ty: u32,
    pub value: &'a [u8],
}

/// Reads the registry: how many types it has.
pub fn read(registry: &[u8], times: u32) -> u64 {
    // SAFETY: it reads the registry's bytes, and keeps none of them.
    unsafe { calls::proved_read(registry.as_ptr(), registry.len(), times) }
}

/// Checks a registry that was read: how many bytes its widest type has, and one.
pub fn check(registry: &[u8], times: u32) -> u64 {
    // SAFETY: it reads the registry's bytes, and keeps none of them.
    unsafe { calls::proved_check(registry.as_ptr(), registry.len(), times) }
}

/// Decodes the value from pieces of this length: how many nodes it has.
pub fn decode(job: Job, piece: usize, times: u32) -> u64 {
    let Job {
        registry,
        ty,
        value,
    } = job;
    // SAFETY: it reads the bytes of the registry and of the value, and keeps none of them.
    unsafe {
        calls::proved_decode(
            registry.as_ptr(),
            registry.len(),
            ty,
            value.as_ptr(),
            value.len(),
            piece,
            times,
        )
    }
}

fn print_from(job: Job, is_decoded: u32, times: u32) -> u64 {
    let Job {
        registry,
        ty,
        value,
    } = job;
    // SAFETY: it reads the bytes of the registry and of the value, and keeps none of them.
    unsafe {
        calls::proved_print(
            registry.as_ptr(),
            registry.len(),
            ty,
            value.as_ptr(),
            value.len(),
            is_decoded,
            times,
        )
    }
}

/// Prints the value, which was decoded before: how long its JSON is.
pub fn print(job: Job, times: u32) -> u64 {
    print_from(job, 1, times)
}

/// Decodes the value and prints it: how long its JSON is.
pub fn decode_and_print(job: Job, times: u32) -> u64 {
    print_from(job, 0, times)
}
