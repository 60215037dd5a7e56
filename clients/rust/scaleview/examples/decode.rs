//! Decodes a value as the command does, whole or in pieces, or lists the types of a registry.
//!
//!     decode types FILE [--metadata]
//!     decode decode FILE ID VALUEFILE [--metadata] [--bits] [--depth D] [--pieces N] [--display]
//!
//! With `--display` the text is made by this crate of a value's nodes, and otherwise by the
//! library.

use scaleview::{Error, Limits, OpenOptions, Progress, Registry, Session, ValueReason};
use std::io::{self, Write};
use std::num::NonZeroUsize;
use std::process::ExitCode;
use std::{env, fs};

const USAGE: &str = "scaleview: usage: decode types FILE [--metadata]
       or: decode decode FILE ID VALUEFILE [--metadata] [--bits] [--depth D]
           [--pieces N] [--display]";

#[derive(Default)]
struct Words {
    names: Vec<String>,
    metadata: bool,
    options: OpenOptions,
    displays: bool,
    limits: Limits,
    pieces: Option<NonZeroUsize>,
}

/// Reads a number of decimal digits alone, as the command does.
fn number<T: std::str::FromStr>(word: &str) -> Option<T> {
    word.bytes()
        .all(|byte| byte.is_ascii_digit())
        .then(|| word.parse().ok())?
}

fn words() -> Option<Words> {
    let mut words = Words::default();
    let mut rest = env::args().skip(1);
    while let Some(word) = rest.next() {
        match word.as_str() {
            "--metadata" => words.metadata = true,
            "--bits" => words.options = words.options.bits(true),
            "--display" => words.displays = true,
            "--depth" => {
                words.limits = words
                    .limits
                    .depth(number(&rest.next()?).filter(|depth| *depth <= 1024)?)
            }
            "--pieces" => words.pieces = Some(number(&rest.next()?)?),
            option if option.starts_with("--") => return None,
            _ => words.names.push(word),
        }
    }
    Some(words)
}

/// Feeds pieces, after which no byte may follow the value.
fn feed(session: &mut Session, value: &[u8], step: usize) -> Result<(), Error> {
    let mut place = 0;
    for piece in value.chunks(step) {
        if let Progress::Done { used } = session.feed(piece)? {
            place += used;
            let reason = ValueReason::TrailingBytes;
            return if place < value.len() {
                let place = place as u64;
                Err(Error::Value { reason, place })
            } else {
                Ok(())
            };
        }
        place += piece.len();
    }
    Ok(())
}

fn text(registry: &Registry, id: u32, value: &[u8], words: &Words) -> Result<String, Error> {
    let limits = words.limits;
    match words.pieces {
        Some(step) => {
            let mut session = registry.start(id, limits)?;
            feed(&mut session, value, step.get())?;
            if words.displays {
                session.finish().map(|value| value.to_string())
            } else {
                session.finish_json()
            }
        }
        None if words.displays => registry
            .decode_within(id, value, limits)
            .map(|value| value.to_string()),
        None => registry.decode_json_within(id, value, limits),
    }
}

/// Returns what is printed, or a line and a status.
fn answer(words: &Words) -> Result<String, (String, u8)> {
    let read = |path: &String| fs::read(path).map_err(|error| (format!("{path}: {error}"), 3));
    let told = |error: Error| {
        (
            format!("scaleview: {error}"),
            if matches!(error, Error::Memory | Error::TooLarge) { 4 } else { 1 },
        )
    };
    let open = |path| {
        let bytes = read(path)?;
        if words.metadata {
            words.options.open_metadata(&bytes)
        } else {
            words.options.open_raw(&bytes)
        }
        .map_err(told)
    };
    match &words.names[..] {
        [call, file] if call == "types" => {
            let registry = open(file)?;
            registry
                .types()
                .map(|one| registry.type_line(one.id()).map_err(told))
                .collect()
        }
        [call, file, id, value] if call == "decode" => {
            let id = number(id).ok_or_else(usage)?;
            let (registry, value) = (open(file)?, read(value)?);
            text(&registry, id, &value, words)
                .map(|text| text + "\n")
                .map_err(told)
        }
        _ => Err(usage()),
    }
}

fn usage() -> (String, u8) {
    (USAGE.to_string(), 2)
}

fn print(text: &str) -> Result<(), (String, u8)> {
    let mut out = io::stdout();
    out.write_all(text.as_bytes())
        .and_then(|()| out.flush())
        .map_err(|error| (format!("stdout: {error}"), 3))
}

fn main() -> ExitCode {
    let words = words().ok_or_else(usage);
    match words
        .and_then(|words| answer(&words))
        .and_then(|text| print(&text))
    {
        Ok(()) => ExitCode::SUCCESS,
        Err((line, status)) => {
            eprintln!("{line}");
            ExitCode::from(status)
        }
    }
}
