//! The tables of ratios. Each is what the plain decoder needs over what the proved one does.

use crate::heap::{self, Held};
use crate::plain;
use crate::product;
use crate::shapes::{SHAPES, shape};
use crate::turns::{in_turns, job, json, plain as by_plain, proved, tree};
use crate::values::{LENGTH, RUNTIME, Sample, Types, plan_of, sequence};
use std::fmt::Display;
use std::rc::Rc;

/// Rows of ratios, which end with their geometric means.
struct Ratios<const N: usize> {
    rows: Vec<[f64; N]>,
}

impl<const N: usize> Ratios<N> {
    fn begin(title: &str, columns: [&str; N]) -> Ratios<N> {
        println!(
            "\n{title}\n\n| value | {} |\n|{}",
            columns.join(" | "),
            "---|".repeat(N + 1)
        );
        Ratios { rows: Vec::new() }
    }

    fn add(&mut self, name: impl Display, row: [f64; N]) {
        println!(
            "| {name} | {} |",
            row.map(|ratio| format!("{ratio:.2}")).join(" | ")
        );
        self.rows.push(row);
    }

    fn end(self) {
        let mean = |column: usize| {
            let sum: f64 = self.rows.iter().map(|row| row[column].ln()).sum();
            (sum / self.rows.len() as f64).exp()
        };
        let means: Vec<String> = (0..N)
            .map(|column| format!("{:.2}", mean(column)))
            .collect();
        println!("| geometric mean | {} |", means.join(" | "));
    }
}

/// Both are to make the same nodes and the same JSON, or there is nothing to compare.
fn compare(sample: &Sample) {
    let tree = tree(sample);
    let nodes = product::decode(job(sample), sample.value.len(), 1);
    assert_eq!(nodes, tree.nodes(), "the nodes of {}", sample.name);
    let text = product::print(job(sample), 1);
    assert_eq!(
        text,
        json(&tree).len() as u64,
        "the JSON of {}",
        sample.name
    );
}

fn speed_of(sample: &Sample) -> [f64; 3] {
    let value = tree(sample);
    let [
        decoded,
        other_decoded,
        printed,
        other_printed,
        both,
        other_both,
    ] = in_turns([
        proved(|times| product::decode(job(sample), sample.value.len(), times)),
        by_plain(|| tree(sample)),
        proved(|times| product::print(job(sample), times)),
        by_plain(|| json(&value)),
        proved(|times| product::decode_and_print(job(sample), times)),
        by_plain(|| json(&tree(sample))),
    ]);
    [
        other_decoded / decoded,
        other_printed / printed,
        other_both / both,
    ]
}

/// What the plain decoder holds while its answer is there.
fn plain_memory<T>(make: impl FnOnce() -> T) -> Held {
    heap::begin_counting();
    let answer = make();
    let held = heap::held();
    heap::end_counting();
    drop(answer);
    held
}

fn memory_of(sample: &Sample) -> [f64; 2] {
    let held = product::memory(|| product::decode(job(sample), sample.value.len(), 1));
    let other = plain_memory(|| tree(sample));
    [
        other.now as f64 / held.now as f64,
        other.peak as f64 / held.peak as f64,
    ]
}

pub fn speed(title: &str, samples: &[Sample]) {
    let columns = [
        "decode",
        "print",
        "decode and print",
        "bytes held",
        "at the peak",
    ];
    let mut table = Ratios::begin(title, columns);
    for sample in samples {
        compare(sample);
        let ([decode, print, both], [now, peak]) = (speed_of(sample), memory_of(sample));
        table.add(&sample.name, [decode, print, both, now, peak]);
    }
    table.end();
}

pub fn small(samples: &[Sample]) {
    let mut table = Ratios::begin("Small values", ["decode", "print", "decode and print"]);
    for sample in samples {
        compare(sample);
        table.add(
            format!("{}, {} bytes", sample.name, sample.value.len()),
            speed_of(sample),
        );
    }
    table.end();
}

/// What pieces cost over the whole.
pub fn pieces(samples: &[Sample]) {
    let title = "Pieces: the proved decoder's time for them over its time for the whole";
    let mut table = Ratios::begin(title, ["of 4096 bytes", "of 64 bytes", "of a byte"]);
    for sample in samples {
        let decode = |piece| proved(move |times| product::decode(job(sample), piece, times));
        let whole = decode(sample.value.len());
        let [whole, long, short, single] = in_turns([whole, decode(4096), decode(64), decode(1)]);
        table.add(&sample.name, [long / whole, short / whole, single / whole]);
    }
    table.end();
}

/// What a byte costs in 16 MB over what it costs in 1 MB.
pub fn lengths(types: &Rc<Types>) {
    let title = "Long values: the time for a byte of 16 MB over that for one of 1 MB";
    let mut table = Ratios::begin(title, ["the proved decoder", "the plain one"]);
    for (name, ty) in RUNTIME {
        let [short, long] = [1 << 20, 1 << 24].map(|bytes| sequence(types, name, ty, bytes));
        let [ours, other, ours_long, other_long] = in_turns([
            proved(|times| product::decode(job(&short), short.value.len(), times)),
            by_plain(|| tree(&short)),
            proved(|times| product::decode(job(&long), long.value.len(), times)),
            by_plain(|| tree(&long)),
        ]);
        let bytes = long.value.len() as f64 / short.value.len() as f64;
        table.add(name, [ours_long / ours / bytes, other_long / other / bytes]);
    }
    table.end();
}

/// How quickly the registry is read and checked, and how much memory that holds.
pub fn registry(types: &Types) {
    let bytes = &types.bytes;
    let read_plain = || plain::read(bytes).expect("a registry");
    let check_plain = || plan_of(&types.registry);
    let mut table = Ratios::begin("The registry", ["time", "bytes held"]);
    let [read, other_read, check, other_check] = in_turns([
        proved(|times| product::read(bytes, times)),
        by_plain(read_plain),
        proved(|times| product::check(bytes, times)),
        by_plain(check_plain),
    ]);
    let held = product::memory(|| product::read(bytes, 1)).now as f64;
    let other_held = plain_memory(read_plain).now as f64;
    table.add("read", [other_read / read, other_held / held]);
    let held = product::memory(|| product::check(bytes, 1)).now as f64;
    let other_held = plain_memory(check_plain).now as f64;
    table.add("checked", [other_check / check, other_held / held]);
}

pub fn all(types: &Rc<Types>, little: &[Sample]) {
    let long = RUNTIME.map(|(name, ty)| sequence(types, name, ty, LENGTH));
    let shapes = SHAPES.map(|name| shape(name, LENGTH));
    println!(
        "A ratio is what the plain decoder needs over what the proved one does, but where it says otherwise."
    );
    speed("Values of a runtime", &long);
    speed("Values of one shape each", &shapes);
    small(little);
    pieces(&[&long[..], &shapes[..]].concat());
    lengths(types);
    registry(types);
}
