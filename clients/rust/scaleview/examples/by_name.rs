//! Compares decoding by a type's position, by an entry that was found once, and by its name each
//! time, in nanoseconds a value and the least of many turns, which take place in rotation.
//!
//!     cargo run --release --offline --example by_name -- METADATA ACCOUNT EVENTS

use scaleview::{Error, Metadata};
use std::hint::black_box;
use std::time::Instant;
use std::{env, fs};

const TURNS: u32 = 501;

/// Returns how many nanoseconds a run takes.
fn nanos(times: u32, run: &mut dyn FnMut()) -> f64 {
    let start = Instant::now();
    (0..times).for_each(|_| run());
    start.elapsed().as_secs_f64() * 1e9 / f64::from(times)
}

fn compare(metadata: &Metadata, name: &str, bytes: &[u8], times: u32) -> Result<(), Error> {
    let entry = metadata.storage(name)?;
    let id = entry.type_id();
    let mut by_position = || drop(black_box(metadata.decode(black_box(id), bytes)));
    let mut by_entry = || drop(black_box(black_box(entry).decode(bytes)));
    let mut by_name = || {
        let entry = metadata.storage(black_box(name));
        drop(black_box(entry.and_then(|entry| entry.decode(bytes))));
    };
    let mut least = [f64::INFINITY; 3];
    for _ in 0..TURNS {
        let runs: [&mut dyn FnMut(); 3] = [&mut by_position, &mut by_entry, &mut by_name];
        for (least, run) in least.iter_mut().zip(runs) {
            *least = least.min(nanos(times, run));
        }
    }
    let [position, entry, each] = least;
    let more = |time: f64| (time / position - 1.0) * 100.0;
    println!(
        "{name}: by position {position:.0}, by entry {entry:.0} ({:+.1} %), by name {each:.0} \
         ({:+.1} %)",
        more(entry),
        more(each)
    );
    Ok(())
}

fn main() -> Result<(), Box<dyn std::error::Error>> {
    let words: Vec<String> = env::args().collect();
    let [_, metadata, account, events] = &words[..] else {
        return Err("usage: by_name METADATA ACCOUNT EVENTS".into());
    };
    let metadata = Metadata::open(&fs::read(metadata)?)?;
    compare(&metadata, "System.Account", &fs::read(account)?, 1000)?;
    compare(&metadata, "System.Events", &fs::read(events)?, 20)?;
    Ok(())
}
