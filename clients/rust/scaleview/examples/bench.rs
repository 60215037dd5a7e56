//! Compares ways to a value's numbers, in microseconds a value and the best of several runs:
//! `decode` to a [`Value`], with its text as well, `decode_json` to the same text, and a parser that
//! makes a tree of that.
//!
//!     cargo run --release --offline --example bench -- METADATA ACCOUNT EVENTS

use scaleview::{Registry, TypeId};
use std::error::Error;
use std::hint::black_box;
use std::time::Instant;
use std::{env, fs};

/// JSON as a tree, as usual parsers make it.
#[allow(dead_code)]
enum Json {
    Null,
    Bool(bool),
    Number(f64),
    Text(String),
    List(Vec<Json>),
    Object(Vec<(String, Json)>),
}

/// Parses JSON without spaces, as the library writes it.
struct Parser<'t> {
    text: &'t [u8],
    at: usize,
}

impl Parser<'_> {
    fn peek(&self) -> u8 {
        self.text.get(self.at).copied().unwrap_or_default()
    }

    fn takes(&mut self, byte: u8) -> bool {
        let is_there = self.peek() == byte;
        self.at += usize::from(is_there);
        is_there
    }

    fn string(&mut self) -> String {
        let mut text = Vec::new();
        self.at += 1;
        while self.peek() != b'"' {
            if self.takes(b'\\') && self.peek() == b'u' {
                self.at += 4;
            }
            text.push(self.peek());
            self.at += 1;
        }
        self.at += 1;
        String::from_utf8_lossy(&text).into_owned()
    }

    fn word(&mut self) -> Json {
        let start = self.at;
        while !matches!(self.peek(), b',' | b']' | b'}' | 0) {
            self.at += 1;
        }
        match self.text.get(start..self.at).unwrap_or_default() {
            b"null" => Json::Null,
            b"true" => Json::Bool(true),
            b"false" => Json::Bool(false),
            digits => Json::Number(String::from_utf8_lossy(digits).parse().unwrap_or_default()),
        }
    }

    fn value(&mut self) -> Json {
        match self.peek() {
            b'"' => Json::Text(self.string()),
            b'[' => {
                let mut items = Vec::new();
                self.at += 1;
                while !self.takes(b']') {
                    items.push(self.value());
                    self.takes(b',');
                }
                Json::List(items)
            }
            b'{' => {
                let mut members = Vec::new();
                self.at += 1;
                while !self.takes(b'}') {
                    let name = self.string();
                    self.takes(b':');
                    members.push((name, self.value()));
                    self.takes(b',');
                }
                Json::Object(members)
            }
            _ => self.word(),
        }
    }
}

/// Returns how many microseconds a run takes, the least of several turns.
fn micros(times: u32, mut run: impl FnMut()) -> f64 {
    let turn = |_| {
        let start = Instant::now();
        (0..times).for_each(|_| run());
        start.elapsed().as_secs_f64() * 1e6 / f64::from(times)
    };
    (0..9).map(turn).fold(f64::INFINITY, f64::min)
}

fn compare(
    registry: &Registry,
    name: &str,
    id: TypeId,
    bytes: &[u8],
) -> Result<(), Box<dyn Error>> {
    let text = registry.decode_json(id, bytes)?;
    let times = if bytes.len() < 1000 { 20_000 } else { 500 };
    let decode = micros(times, || {
        black_box(registry.decode(id, bytes)).ok();
    });
    let shown = micros(times, || {
        black_box(registry.decode(id, bytes).map(|value| value.to_string())).ok();
    });
    let json = micros(times, || {
        black_box(registry.decode_json(id, bytes)).ok();
    });
    let parse = micros(times, || {
        black_box(
            Parser {
                text: text.as_bytes(),
                at: 0,
            }
            .value(),
        );
    });
    println!(
        "{name}: decode {decode:.2}, decode and to_string {shown:.2}, decode_json {json:.2}, \
         parsing that text {parse:.2}"
    );
    Ok(())
}

fn main() -> Result<(), Box<dyn Error>> {
    let words: Vec<String> = env::args().collect();
    let [_, metadata, account, events] = &words[..] else {
        return Err("usage: bench METADATA ACCOUNT EVENTS".into());
    };
    let registry = Registry::open(&fs::read(metadata)?)?;
    let account_info = registry
        .find("frame_system::AccountInfo")
        .ok_or("no accounts")?;
    compare(&registry, "account", account_info, &fs::read(account)?)?;
    compare(
        &registry,
        "events block",
        TypeId::new(10),
        &fs::read(events)?,
    )
}
