//! Measures the proved decoder beside a plain one: `tables` prints ratios of times and memory, and `one` is for a profiler.

mod heap;
mod plain;
mod product;
mod shapes;
mod tables;
mod turns;
mod values;

use std::hint::black_box;
use std::path::Path;
use std::process::ExitCode;
use std::rc::Rc;
use std::{fs, io};

use shapes::{SHAPES, shape};
use turns::{job, tree};
use values::{LENGTH, RUNTIME, Sample, Types, sequence};

#[global_allocator]
static HEAP: heap::Heap = heap::Heap;

const USAGE: &str = "usage: plain_bench tables EXAMPLES
       plain_bench list EXAMPLES
       plain_bench one EXAMPLES VALUE proved|plain TIMES
EXAMPLES is the folder of a runtime's metadata and its values, VALUE is a name that `list` prints, with its nodes.";

/// How many bytes of metadata stand before its registry: the four of its magic number, and its version.
const BEFORE_REGISTRY: usize = 5;

fn types_of(folder: &Path) -> io::Result<Rc<Types>> {
    let metadata = fs::read(folder.join("metadata.scale"))?;
    Ok(Types::new(metadata[BEFORE_REGISTRY..].to_vec()))
}

/// The values beside the metadata, whose lines name them and their types.
fn little_values(folder: &Path, types: &Rc<Types>) -> io::Result<Vec<Sample>> {
    let lines = fs::read_to_string(folder.join("values.txt"))?;
    let mut samples = Vec::new();
    for line in lines.lines() {
        let (name, ty) = line.split_once(' ').expect("a name and a type");
        samples.push(Sample {
            name: name.replace('_', " "),
            types: types.clone(),
            ty: ty.parse().expect("a type"),
            value: fs::read(folder.join(format!("{name}.scale")))?,
        });
    }
    Ok(samples)
}

/// The long value of this name.
fn long_value(types: &Rc<Types>, name: &str) -> Option<Sample> {
    if SHAPES.contains(&name) {
        return Some(shape(name, LENGTH));
    }
    let (_, ty) = RUNTIME.iter().find(|row| row.0 == name)?;
    Some(sequence(types, name, *ty, LENGTH))
}

/// The names of the long values, and how many nodes each has.
fn list(types: &Rc<Types>) {
    let runtime = RUNTIME.iter().map(|row| row.0);
    for sample in runtime
        .chain(SHAPES)
        .filter_map(|name| long_value(types, name))
    {
        println!("{}\t{}", sample.name, tree(&sample).nodes());
    }
}

/// Decodes a value so many times: is there one of this name?
fn one(types: &Rc<Types>, name: &str, who: &str, times: u32) -> bool {
    let Some(sample) = long_value(types, name) else {
        return false;
    };
    if who == "proved" {
        product::decode(job(&sample), sample.value.len(), times);
    } else {
        (0..times).for_each(|_| drop(black_box(tree(&sample))));
    }
    true
}

fn run(words: &[&str]) -> io::Result<bool> {
    match words {
        ["tables", folder] => {
            let folder = Path::new(folder);
            let types = types_of(folder)?;
            tables::all(&types, &little_values(folder, &types)?);
        }
        ["list", folder] => list(&types_of(Path::new(folder))?),
        ["one", folder, name, who @ ("proved" | "plain"), times] => match times.parse() {
            Ok(times) if times > 0 => {
                return Ok(one(&types_of(Path::new(folder))?, name, who, times));
            }
            _ => return Ok(false),
        },
        _ => return Ok(false),
    }
    Ok(true)
}

fn main() -> ExitCode {
    let words: Vec<String> = std::env::args().skip(1).collect();
    let words: Vec<&str> = words.iter().map(String::as_str).collect();
    match run(&words) {
        Ok(true) => ExitCode::SUCCESS,
        Ok(false) => {
            eprintln!("{USAGE}");
            ExitCode::from(2)
        }
        Err(fault) => {
            eprintln!("plain_bench: {fault}");
            ExitCode::FAILURE
        }
    }
}
