//! The stored answers of the examples: each value as JSON by the library and by its nodes, whole
//! and in pieces, and back.

use scaleview::{Item, Limits, Registry};
use std::fs;
use std::path::{Path, PathBuf};

fn folder(name: &str) -> PathBuf {
    Path::new(env!("CARGO_MANIFEST_DIR"))
        .join("../../../examples")
        .join(name)
}

fn check_value(registry: &Registry, id: u32, bytes: &[u8], json: &str) {
    assert_eq!(registry.decode_json(id, bytes).unwrap(), json);
    let value = registry.decode(id, bytes).unwrap();
    assert_eq!(value.to_string(), json);
    assert_eq!(registry.encode(id, &value).unwrap(), bytes);
    assert_eq!(registry.encode(id, &Item::from(&value)).unwrap(), bytes);
    let mut session = registry.start(id, Limits::new()).unwrap();
    for piece in bytes.chunks(5) {
        let _ = session.feed(piece).unwrap();
    }
    assert_eq!(session.finish().unwrap(), value);
    assert_eq!(session.finish_json().unwrap(), json);
}

fn check(name: &str, file: &str) -> usize {
    let folder = folder(name);
    let registry = Registry::open(&fs::read(folder.join(file)).unwrap()).unwrap();
    let lines: String = registry
        .types()
        .map(|one| registry.type_line(one.id()).unwrap())
        .collect();
    assert_eq!(lines, fs::read_to_string(folder.join("types.txt")).unwrap());
    let values = fs::read_to_string(folder.join("values.txt")).unwrap();
    for line in values.lines() {
        let (value, id) = line.split_once(' ').unwrap();
        let bytes = fs::read(folder.join(format!("{value}.scale"))).unwrap();
        let json = fs::read_to_string(folder.join(format!("{value}.json"))).unwrap();
        check_value(
            &registry,
            id.parse().unwrap(),
            &bytes,
            json.trim_end_matches('\n'),
        );
    }
    values.lines().count()
}

#[test]
fn the_examples_are_answered() {
    assert!(check("account", "registry.scale") >= 5);
    assert!(check("account", "metadata.scale") >= 5);
    assert!(check("runtime", "metadata.scale") >= 13);
    assert!(check("first", "registry.scale") >= 1);
}
