//! The tables of test vectors: each registry's answer and types, each value whole and in pieces, as
//! JSON and as nodes, and back from them, and what metadata names.

mod common;

use common::*;
use scaleview::{Error, Item, Limits, Metadata, OpenOptions, Progress, Registry, TypeId, Value};
use std::collections::HashMap;

/// The error in the words of the tables.
fn told(error: Error) -> String {
    match error {
        Error::Registry { reason, place } => format!("{reason} at {place}"),
        Error::Value { reason, place } => format!("{reason} at {place}"),
        Error::UnknownReference { from, to } => format!("UnknownType {to} in type {from}"),
        Error::UnknownType { .. } => "UnknownType".to_string(),
        Error::LimitOutOfRange => "LimitOutOfRange".to_string(),
        error => error.to_string(),
    }
}

/// What is to be answered to all bytes of a registry's row: the first error, or its type lines.
fn wanted_of(row: &[&str], len: usize) -> String {
    let [_, prefix, _, read, check, lines] = row else {
        panic!("six columns")
    };
    let end = read
        .split(' ')
        .next()
        .and_then(|end| end.parse::<usize>().ok());
    match end {
        None => read.to_string(),
        Some(end) if *prefix == "none" && end < len => format!("TrailingBytes at {end}"),
        Some(_) if check.starts_with('W') => lines.to_string(),
        Some(_) => check.to_string(),
    }
}

fn lines_of(registry: &Registry) -> String {
    let lines = registry
        .types()
        .map(|one| registry.type_line(one.id()).expect("a type"));
    let joined = lines
        .map(|line| line.trim_end().to_string())
        .collect::<Vec<_>>()
        .join(" / ");
    if joined.is_empty() {
        "-".to_string()
    } else {
        joined
    }
}

/// Each type's line has its class, kind and path, and its path finds it.
fn check_types(registry: &Registry) {
    assert_eq!(registry.types().len(), registry.len() as usize);
    for (id, one) in (0..).zip(registry.types()) {
        assert_eq!(
            (one.id(), registry.find_from(id, one.path().unwrap())),
            (TypeId::new(id), Some(TypeId::new(id)))
        );
        let line = registry.type_line(id).unwrap();
        let kind = one
            .primitive()
            .map_or(one.kind().to_string(), |primitive| primitive.to_string());
        let wanted = format!("{id} {} {kind} ", one.class());
        assert!(line.starts_with(&wanted), "{line} {wanted}");
    }
}

#[test]
fn registries_are_answered() {
    let mut count = 0;
    for row in rows(&table("registries.tsv")) {
        let bytes = bytes_of(row[2]);
        let metadata = row[1] == "metadata";
        let opened = if metadata {
            Registry::open_metadata(&bytes)
        } else {
            Registry::open_raw(&bytes)
        };
        if let Ok(registry) = &opened {
            check_types(registry);
        }
        let found = opened.map_or_else(told, |registry| lines_of(&registry));
        assert_eq!(found, wanted_of(&row, bytes.len()), "{}", row[0]);
        // The first four bytes say which of both it is, unless they are cut.
        if metadata == bytes.starts_with(b"meta") {
            let guessed = Registry::open(&bytes).map_or_else(told, |registry| lines_of(&registry));
            assert_eq!(guessed, found, "{}", row[0]);
        }
        count += 1;
    }
    assert!(count > 500);
}

/// A value's row.
struct Row<'a> {
    name: &'a str,
    id: u32,
    limits: Limits,
    bytes: Vec<u8>,
    answer: &'a str,
    /// Bytes taken, nodes, and bytes of texts, byte runs and bit sequences.
    held: (u64, u64, u64),
    json: &'a str,
}

impl<'a> Row<'a> {
    fn of(row: &[&'a str]) -> Row<'a> {
        let number = |column: usize| row[column].parse::<u64>().expect("a number");
        Row {
            name: row[0],
            id: number(2) as u32,
            limits: Limits::new().depth(number(3) as u16).bytes(number(4)),
            bytes: bytes_of(row[5]),
            answer: row[6],
            held: (number(7), number(8), number(9)),
            json: row[10],
        }
    }

    /// What a session of the bytes ends with: the value's JSON, or the error.
    fn end(&self) -> String {
        match self.answer {
            "Done" => self.json.to_string(),
            "More" => format!("Truncated at {}", self.bytes.len()),
            error => error.to_string(),
        }
    }

    /// The same where no byte may follow the value.
    fn whole(&self) -> String {
        let taken = self.held.0;
        if self.answer == "Done" && taken < self.bytes.len() as u64 {
            format!("TrailingBytes at {taken}")
        } else {
            self.end()
        }
    }

    /// A value is encoded as its bytes, which are decoded as the same value.
    fn check_back(&self, registry: &Registry, value: &Value) {
        let limits = self.limits;
        assert_eq!(
            registry.encode_within(self.id, value, limits).as_ref(),
            Ok(&self.bytes),
            "{}",
            self.name
        );
        let item = Item::from(value);
        let encoded = registry.encode_within(self.id, &item, limits);
        assert_eq!(encoded.as_ref(), Ok(&self.bytes), "{}", self.name);
        assert_eq!(
            registry
                .decode_within(self.id, &self.bytes, limits)
                .as_ref(),
            Ok(value),
            "{}",
            self.name
        );
    }

    fn check_pieces(&self, registry: &Registry, step: usize) {
        let mut session = match registry.start(self.id, self.limits) {
            Ok(session) => session,
            Err(error) => return assert_eq!(told(error), self.answer, "{}", self.name),
        };
        let mut fed = session.feed(b"");
        for piece in self.bytes.chunks(step) {
            if fed == Ok(Progress::More) {
                fed = session.feed(piece);
            }
        }
        let held = (session.taken(), session.nodes(), session.text_bytes());
        assert_eq!(held, self.held, "{} in pieces of {step}", self.name);
        let found = session
            .finish()
            .map_or_else(told, |value| value.to_string());
        assert_eq!(found, self.end(), "{} in pieces of {step}", self.name);
        let found = session.finish_json().unwrap_or_else(told);
        assert_eq!(found, self.end(), "{} in pieces of {step}", self.name);
    }

    /// The value is answered whole and in pieces, as JSON and as nodes.
    fn check(&self, registry: &Registry) {
        let found = registry
            .decode_json_within(self.id, &self.bytes, self.limits)
            .unwrap_or_else(told);
        assert_eq!(found, self.whole(), "{}", self.name);
        match registry.decode_within(self.id, &self.bytes, self.limits) {
            Ok(value) => {
                assert_eq!(value.to_string(), self.whole(), "{}", self.name);
                self.check_back(registry, &value);
            }
            Err(error) => assert_eq!(told(error), self.whole(), "{}", self.name),
        }
        for step in [1, 7, 4096] {
            self.check_pieces(registry, step);
        }
    }
}

#[test]
fn values_are_answered() {
    let (registries, values) = (table("registries.tsv"), table("values.tsv"));
    let by_name: HashMap<&str, Vec<u8>> = rows(&registries)
        .map(|row| (row[0], bytes_of(row[2])))
        .collect();
    let mut count = 0;
    for row in rows(&values) {
        let registry = Registry::open_raw(&by_name[row[1]]).expect("a registry");
        Row::of(&row).check(&registry);
        count += 1;
    }
    assert!(count > 1500);
}

#[test]
fn bit_sequences_are_answered() {
    let options = OpenOptions::new().bits(true);
    let mut count = 0;
    for row in rows(&table("bits.tsv")) {
        let registry = options.open_raw(&bytes_of(row[1])).expect("a registry");
        Row::of(&row).check(&registry);
        count += 1;
    }
    assert!(count > 250);
}

/// How many types metadata has by itself, how many with the synthetic ones, and how many names.
fn counts_of(bytes: &[u8]) -> Result<String, Error> {
    let metadata = Metadata::open(bytes)?;
    let own = Registry::open_metadata(bytes)?.len();
    let mut names = 0;
    for named in metadata.names() {
        let found = metadata.named(named.name())?;
        assert_eq!(found.type_id(), named.type_id());
        assert_eq!(found.has_bytes(), named.has_bytes());
        names += 1;
    }
    Ok(format!("{own} {} {names}", metadata.len()))
}

#[test]
fn metadata_is_answered() {
    let mut count = 0;
    for row in rows(&table("metadata.tsv")) {
        let found = counts_of(&bytes_of(row[1])).unwrap_or_else(|error| error.to_string());
        assert_eq!(found, row[2], "{}", row[0]);
        count += 1;
    }
    assert!(count > 150);
}

/// A JSON string, as the library writes it.
fn quoted(text: &str) -> String {
    let registry = Registry::open(b"\x04\0\0\0\x05\x02\0").expect("a registry of str");
    let bytes = registry.encode(0, &Item::from(text)).expect("a text");
    registry.decode_json(0, &bytes).expect("its JSON")
}

/// What the command prints, which the tables show with `\n` for a line feed and two backslashes
/// for one.
fn printed(column: &str) -> String {
    let shown = if column == "-" { "" } else { column };
    let parts: Vec<String> = shown
        .split(r"\\")
        .map(|part| part.replace(r"\n", "\n"))
        .collect();
    parts.join("\\")
}

/// A command line that decodes a value by a name or by an ID.
#[derive(Default)]
struct Line<'a> {
    name: &'a str,
    options: OpenOptions,
    limits: Limits,
    has_value: bool,
    is_opaque: bool,
    is_metadata: bool,
}

impl<'a> Line<'a> {
    /// Reads the words, unless they ask for more than this crate does.
    fn of(words: &'a str) -> Option<Line<'a>> {
        let mut words = words.strip_prefix("decode r ")?.split(' ');
        let name = words.next()?;
        let is_opaque = name == "extrinsic";
        let mut line = Line {
            name,
            is_opaque,
            ..Line::default()
        };
        while let Some(word) = words.next() {
            match word {
                "v" if !line.has_value => line.has_value = true,
                "--bits" => line.options = line.options.bits(true),
                "--opaque" => line.is_opaque = true,
                "--depth" => line.limits = line.limits.depth(words.next()?.parse().ok()?),
                "--bytes" => line.limits = line.limits.bytes(words.next()?.parse().ok()?),
                "--metadata" => line.is_metadata = true,
                _ => return None,
            }
        }
        Some(line)
    }

    fn json(&self, registry: &Registry, id: TypeId, bytes: &[u8]) -> Result<String, Error> {
        if self.is_opaque {
            let value = registry.decode_opaque_within(id, bytes, self.limits);
            let json = registry.decode_opaque_json_within(id, bytes, self.limits);
            assert_eq!(value.map(|value| value.to_string()), json);
            json
        } else {
            registry.decode_json_within(id, bytes, self.limits)
        }
    }

    /// The JSON by a type of the registry alone, whose names are not read.
    fn by_id(&self, id: TypeId, file: &[u8], value: &[u8]) -> Result<String, Error> {
        let registry = if self.is_metadata {
            self.options.open_metadata(file)?
        } else {
            self.options.open_raw(file)?
        };
        self.json(&registry, id, value)
    }

    fn by_name(&self, file: &[u8], value: &[u8]) -> Result<String, String> {
        let told = |error: Error| error.to_string();
        let metadata = self.options.open_with_names(file).map_err(told)?;
        let named = metadata.named(self.name).map_err(told)?;
        let bytes = if self.has_value {
            value.to_vec()
        } else {
            named.bytes().map_err(told)?
        };
        self.json(&metadata, named.type_id(), &bytes).map_err(told)
    }

    /// What the command prints without the line feed: the JSON, or the line of an error.
    fn answer(&self, file: &[u8], value: &[u8]) -> Result<String, String> {
        match self.name.parse() {
            Ok(id) => self
                .by_id(id, file, value)
                .map_err(|error| error.to_string()),
            Err(_) => self.by_name(file, value),
        }
    }
}

/// What the command lists: a name with a control character is a JSON string.
fn list(bytes: &[u8]) -> Result<String, String> {
    let metadata = Metadata::open(bytes).map_err(|error| error.to_string())?;
    let mut lines = String::new();
    for named in metadata.names() {
        let is_plain = named.name().chars().all(|c| c >= ' ');
        let name = if is_plain {
            named.name().to_string()
        } else {
            quoted(named.name())
        };
        lines += &format!("{name} {}\n", named.type_id());
    }
    Ok(lines)
}

#[test]
fn command_lines_are_answered() {
    let mut count = 0;
    for row in rows(&table("chain.tsv")).filter(|row| row[4] < "2") {
        let bytes = metadata(row[2]);
        let found = if row[1] == "names r" {
            list(&bytes)
        } else if let Some(line) = Line::of(row[1]) {
            line.answer(&bytes, &bytes_of(row[3]))
                .map(|json| json + "\n")
        } else {
            continue;
        };
        let wanted = match row[4] {
            "0" => Ok(printed(row[5])),
            _ => Err(printed(row[6])),
        };
        let found = found.map_err(|line| format!("scaleview: {line}\n"));
        assert_eq!(found, wanted, "{}", row[0]);
        count += 1;
    }
    assert!(count > 270, "{count}");
}
