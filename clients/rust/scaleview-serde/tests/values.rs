//! Values as types of Rust, and as JSON by serde_json.

#[path = "../../scaleview/tests/common/mod.rs"]
mod common;

use common::*;
use scaleview::{Item, Metadata, OpenOptions, Registry, ValueReason};
use scaleview_serde::{DecodeAs, Error, Serde, from_value};
use serde::Deserialize;
use std::collections::BTreeMap;
use std::fs;
use std::path::Path;

fn example(name: &str) -> Vec<u8> {
    let folder = Path::new(env!("CARGO_MANIFEST_DIR")).join("../../../examples");
    fs::read(folder.join(name)).unwrap()
}

fn chain() -> Metadata {
    let options = OpenOptions::new().bits(true);
    options
        .open_with_names(&example("chain/chain.metadata"))
        .unwrap()
}

#[derive(Debug, PartialEq, Deserialize)]
struct Account {
    nonce: u32,
    data: Balances,
}

#[derive(Debug, PartialEq, Deserialize)]
struct Balances {
    free: u128,
    flags: u128,
}

#[test]
fn a_struct_takes_the_fields_that_it_names() {
    let chain = chain();
    let bytes = example("runtime/account_info.scale");
    let account = chain.storage("System.Account").unwrap();
    let found: Account = chain.decode_as(account, &bytes).unwrap();
    let data = Balances {
        free: 8_574_363_989_262_094_294_975,
        flags: 1_000_998_235_074_593_292_011_716_059_555_240_738,
    };
    let nonce = 712_822;
    assert_eq!(found, Account { nonce, data });
    let value = account.decode(&bytes).unwrap();
    let free: u128 = from_value(value.at("data.free").unwrap()).unwrap();
    assert_eq!(free, found.data.free);
}

#[derive(Debug, PartialEq, Deserialize)]
enum Outer {
    System(Call),
    Idle,
    Pair(u32, [u8; 2]),
}

#[derive(Debug, PartialEq, Deserialize)]
#[allow(non_camel_case_types)]
enum Call {
    remark { remark: Vec<u8>, value: u64 },
}

#[derive(Debug, PartialEq, Deserialize)]
struct Id([u8; 2]);

#[derive(Debug, PartialEq, Deserialize)]
struct Top {
    id: Id,
    calls: Outer,
    list: Vec<[u8; 2]>,
    tuple: (u32,),
    #[serde(rename = "1")]
    one: i8,
}

#[test]
fn parts_become_types_of_rust() {
    let registry = Registry::open(&paths()).unwrap();
    let remark = vec![b'x'];
    let wanted = Top {
        id: Id([0xaa, 0xbb]),
        calls: Outer::System(Call::remark { remark, value: 7 }),
        list: vec![[1, 2], [3, 4]],
        tuple: (5,),
        one: 9,
    };
    assert_eq!(registry.decode_as::<Top>(9, &top()), Ok(wanted));
    let pair = registry.decode_as(11, b"\x02\x05\0\0\0\x01\x02");
    assert_eq!(pair, Ok(Outer::Pair(5, [1, 2])));
    assert_eq!(registry.decode_as(11, b"\x01"), Ok(Outer::Idle));
    let value = registry.decode(9, &top()).unwrap();
    let borrowed: &[u8] = from_value(value.get("id").unwrap()).unwrap();
    assert_eq!(borrowed, [0xaa, 0xbb]);
    let calls: BTreeMap<String, Call> = from_value(value.get("calls").unwrap()).unwrap();
    assert_eq!(calls.into_keys().collect::<Vec<_>>(), ["System"]);
}

#[test]
fn an_option_is_a_variant_of_its_names() {
    let option = variant(&[("None", &[]), ("Some", &[("", 0)])]);
    let registry = Registry::open(&types(&[vec![5, 3], option])).unwrap();
    assert_eq!(registry.decode_as(1, b"\0"), Ok(None::<u8>));
    assert_eq!(registry.decode_as(1, b"\x01\x07"), Ok(Some(7u8)));
    assert_eq!(registry.decode_as(0, b"\x07"), Ok(Some(7u8)));
}

/// All primitives, the unit, a sequence of it, and one of u16.
fn leaves() -> Registry {
    let mut definitions: Vec<_> = (0..15).map(|number| vec![5, number]).collect();
    definitions.extend([vec![4, 0], vec![2, 60], vec![2, 16]]);
    Registry::open(&types(&definitions)).unwrap()
}

#[test]
fn leaves_become_types_of_rust() {
    let registry = leaves();
    assert_eq!(registry.decode_as(0, b"\x01"), Ok(true));
    assert_eq!(registry.decode_as(1, b"a\0\0\0"), Ok('a'));
    assert_eq!(registry.decode_as(2, b"\x0cyes"), Ok("yes".to_string()));
    assert_eq!(registry.decode_as(7, &[0xff; 16]), Ok(u128::MAX));
    assert_eq!(registry.decode_as(9, b"\xff"), Ok(-1i64));
    assert_eq!(registry.decode_as(13, &[0xff; 16]), Ok(-1i128));
    assert_eq!(registry.decode_as(14, &[0xff; 32]), Ok(-1i8));
    assert_eq!(registry.decode_as(8, &[7; 32]), Ok([7u8; 32]));
    assert_eq!(registry.decode_as(15, b""), Ok(()));
    assert_eq!(registry.decode_as(16, b"\x08"), Ok(vec![(), ()]));
    let many = registry.decode_as::<serde_json::Value>(16, b"\xfe\xff\xff\xff");
    assert_eq!(many, Ok(serde_json::json!({ "count": 1_073_741_823 })));
    assert_eq!(registry.decode_as(17, b"\x08\x01\0\x02\0"), Ok((1u8, 2u64)));
    let bits = OpenOptions::new()
        .bits(true)
        .open(&bits(3, "Lsb0"))
        .unwrap();
    assert_eq!(bits.decode_as(2, b"\x0c\x05"), Ok([true, false, true]));
}

#[test]
fn an_error_has_the_path() {
    let registry = Registry::open(&paths()).unwrap();
    let path = |error| match error {
        Error::Mismatch { path, .. } => path,
        error => panic!("{error}"),
    };
    #[derive(Debug, Deserialize)]
    #[allow(dead_code)]
    struct Lists {
        list: Vec<[bool; 2]>,
    }
    let error = registry.decode_as::<Lists>(9, &top()).unwrap_err();
    assert!(
        error.to_string().ends_with("expected a boolean at list.0"),
        "{error}"
    );
    #[derive(Debug, Deserialize)]
    #[allow(dead_code)]
    enum Wrong {
        System { remark: u8 },
        Pair(u32, u8),
        Idle(u8),
    }
    let wrong = |bytes: &[u8]| path(registry.decode_as::<Wrong>(11, bytes).unwrap_err());
    assert_eq!(wrong(b"\x02\x05\0\0\0\x01\x02"), "Pair.1");
    assert_eq!(wrong(b"\x01"), "Idle");
    let short = registry.decode_as::<Vec<u8>>(11, b"").unwrap_err();
    let reason = ValueReason::Truncated;
    assert_eq!(
        short,
        Error::Decode(scaleview::Error::Value { reason, place: 0 })
    );
    let few = leaves()
        .decode_as::<(u8,)>(17, b"\x08\x01\0\x02\0")
        .unwrap_err();
    assert_eq!(few.to_string(), "invalid length 2, expected 1 parts");
}

#[test]
fn json_is_that_for_the_web_in_the_order_of_types() {
    let registry = Registry::open(&paths()).unwrap();
    let value = registry.decode(9, &top()).unwrap();
    let json = concat!(
        r#"{"id":"0xaabb","calls":{"System":[{"remark":{"remark":"0x78","value":7}}]},"#,
        r#""list":["0x0102","0x0304"],"tuple":[5],"1":9}"#
    );
    assert_eq!(serde_json::to_string(&Serde(value.root())).unwrap(), json);
    let registry = leaves();
    let large = [
        Item::from(u128::MAX),
        (-1i128 << 100).into(),
        Item::Wide([7; 32]),
    ];
    for (id, item) in [7, 13, 14].into_iter().zip(large) {
        let bytes = registry.encode(id, &item).unwrap();
        let value = registry.decode(id, &bytes).unwrap();
        let text = serde_json::to_string(&Serde(value.root())).unwrap();
        assert_eq!(text, value.to_web_json().unwrap());
    }
}

#[test]
fn the_examples_are_serialized() {
    let chain = chain();
    let values = String::from_utf8(example("runtime/values.txt")).unwrap();
    for line in values.lines() {
        let (name, id) = line.split_once(' ').unwrap();
        let id: u32 = id.parse().unwrap();
        let bytes = example(&format!("runtime/{name}.scale"));
        let value = chain.decode(id, &bytes).unwrap();
        let found = serde_json::to_value(Serde(value.root())).unwrap();
        let wanted: serde_json::Value =
            serde_json::from_str(&value.to_web_json().unwrap()).unwrap();
        assert_eq!(found, wanted, "{name}");
    }
    assert!(values.lines().count() >= 13);
}
