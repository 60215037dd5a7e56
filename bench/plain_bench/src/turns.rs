//! Times of several pieces of work that take turns, so that what else the machine does counts for all of them.

use crate::plain;
use crate::product::{self, Job};
use crate::values::Sample;
use std::hint::black_box;
use std::time::Instant;

/// Work that is done so many times: the least that it took, in nanoseconds.
pub type Work<'a> = Box<dyn FnMut(u32) -> f64 + 'a>;

/// A call of the proved decoder, by its own marks.
pub fn proved<'a>(mut call: impl FnMut(u32) -> u64 + 'a) -> Work<'a> {
    Box::new(move |times| product::time(|| call(times)))
}

/// What the plain decoder does, with the drop of its answer.
pub fn plain<'a, T>(mut call: impl FnMut() -> T + 'a) -> Work<'a> {
    Box::new(move |times| {
        let mut least = f64::MAX;
        for _ in 0..times {
            let begun = Instant::now();
            drop(black_box(call()));
            least = least.min(begun.elapsed().as_nanos() as f64);
        }
        least
    })
}

/// How many turns each piece of work gets.
const TURNS: usize = 15;
/// How long a turn is to take.
const NANOSECONDS_A_TURN: f64 = 2e7;

/// The least time of each.
pub fn in_turns<const N: usize>(mut all: [Work; N]) -> [f64; N] {
    let times = all
        .each_mut()
        .map(|work| (NANOSECONDS_A_TURN / work(1)).clamp(1.0, 500.0) as u32);
    let mut least = [f64::MAX; N];
    for _ in 0..TURNS {
        for ((work, times), least) in all.iter_mut().zip(times).zip(&mut least) {
            *least = least.min(work(times));
        }
    }
    least
}

/// How deep the plain decoder goes, as the proved one does here.
const DEPTH: u16 = 64;

pub fn job(sample: &Sample) -> Job<'_> {
    Job {
        registry: &sample.types.bytes,
        ty: sample.ty,
        value: &sample.value,
    }
}

/// The plain decoder's tree.
pub fn tree(sample: &Sample) -> plain::Value<'_> {
    plain::decode(&sample.types.plan, sample.ty, &sample.value, DEPTH)
        .expect("a value")
        .0
}

/// The plain decoder's JSON.
pub fn json(tree: &plain::Value) -> Vec<u8> {
    let mut out = Vec::new();
    plain::print(tree, &mut out);
    out
}
