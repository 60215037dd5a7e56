//! Paths into values, and JSON for the web.

mod common;

use common::*;
use scaleview::{Item, Registry, ValueRef};

fn number(value: Option<ValueRef<'_>>) -> Option<u128> {
    value.and_then(|value| value.as_u128())
}

#[test]
fn a_path_leads_through_fields_variants_and_newtypes() {
    let registry = Registry::open(&paths()).unwrap();
    let value = registry.decode(9, &top()).unwrap();
    let bytes = |path| value.at(path).and_then(|part| part.as_bytes());
    assert_eq!(bytes("id"), Some(b"\xaa\xbb".as_slice()));
    assert_eq!(bytes("calls.System.remark.remark"), Some(b"x".as_slice()));
    assert_eq!(bytes("calls.System.0"), Some(b"x".as_slice()));
    assert_eq!(bytes("list.1"), Some(b"\x03\x04".as_slice()));
    for path in [
        "calls.System.remark.value",
        "calls.System.value",
        "calls.0.value",
    ] {
        assert_eq!(number(value.at(path)), Some(7), "{path}");
    }
    let remark = value.at("calls.System.remark").unwrap();
    assert_eq!(remark.variant_name(), Some("remark"));
    assert_eq!(number(remark.at("value")), Some(7));
    assert_eq!(number(value.at("tuple.0")), Some(5));
    // A name comes before a position.
    assert_eq!(number(value.at("1")), Some(9));
    assert_eq!(bytes("0"), Some(b"\xaa\xbb".as_slice()));
    assert_eq!(value.at(""), Some(value.root()));
}

#[test]
fn a_path_to_nothing_is_none() {
    let registry = Registry::open(&paths()).unwrap();
    let value = registry.decode(9, &top()).unwrap();
    for path in [
        "none",
        ".",
        "id.",
        "id.0",
        "list.2",
        "list.+1",
        "list.-1",
        "list.x",
        "calls.Idle",
        "5",
        "calls.System.remark.remark.remark",
        "tuple.1",
        "list.18446744073709551616",
    ] {
        assert!(value.at(path).is_none(), "{path}");
    }
}

#[test]
fn a_variant_of_several_fields_stays() {
    let registry = Registry::open(&paths()).unwrap();
    let pair = registry.decode(11, b"\x02\x05\0\0\0\x01\x02").unwrap();
    assert_eq!(pair.at("Pair"), Some(pair.root()));
    assert_eq!(number(pair.at("Pair.0")), Some(5));
    let id = pair.at("Pair.1").and_then(|id| id.as_bytes());
    assert_eq!(id, Some(b"\x01\x02".as_slice()));
    assert!(pair.at("Pair.Pair").is_none() && pair.at("System").is_none());
    let idle = registry.decode(11, b"\x01").unwrap();
    assert_eq!(idle.at("Idle"), Some(idle.root()));
    assert!(idle.at("Idle.0").is_none());
}

#[test]
fn newtypes_alone_are_looked_through() {
    let registry = Registry::open(&paths()).unwrap();
    let deep = registry.decode(5, b"\x01\x02").unwrap();
    assert_eq!(deep.inner().as_bytes(), Some(b"\x01\x02".as_slice()));
    assert_eq!(deep.at("").map(|inner| inner.type_id().get()), Some(3));
    let tuple = registry.decode(10, b"\x05\0\0\0").unwrap();
    assert_eq!(tuple.inner(), tuple.root());
    let call = registry.decode(11, &[b"\0\0\0".as_slice(), &[0; 16]].concat());
    let call = call.unwrap();
    assert_eq!(call.inner(), call.root());
}

/// The Top of the tests by hand.
const TOP: &str = concat!(
    r#"{"1":9,"calls":{"System":[{"remark":{"remark":"0x78","value":"7"}}]},"#,
    r#""id":[["0xaabb"]],"list":[["0x0102"],["0x0304"]],"tuple":[5]}"#
);
const WEB: &str = concat!(
    r#"{"1":9,"calls":{"System":[{"remark":{"remark":"0x78","value":7}}]},"#,
    r#""id":"0xaabb","list":["0x0102","0x0304"],"tuple":[5]}"#
);
const LINES: &str = r#"{
  "1": 9,
  "calls": {
    "System": [
      {
        "remark": {
          "remark": "0x78",
          "value": "7"
        }
      }
    ]
  },
  "id": [
    [
      "0xaabb"
    ]
  ],
  "list": [
    [
      "0x0102"
    ],
    [
      "0x0304"
    ]
  ],
  "tuple": [
    5
  ]
}"#;

#[test]
fn json_for_the_web_has_what_newtypes_hold() {
    let registry = Registry::open(&paths()).unwrap();
    let value = registry.decode(9, &top()).unwrap();
    assert_eq!(value.to_string(), TOP);
    assert_eq!(value.to_web_json().unwrap(), WEB);
    let calls = value.get("calls").unwrap();
    let web = r#"{"System":[{"remark":{"remark":"0x78","value":7}}]}"#;
    assert_eq!(calls.to_web_json().unwrap(), web);
}

#[test]
fn the_alternate_form_has_a_line_for_each_part() {
    let registry = Registry::open(&paths()).unwrap();
    let value = registry.decode(9, &top()).unwrap();
    assert_eq!(format!("{value:#}"), LINES);
    assert_eq!(format!("{:#?}", value), format!("Value({LINES} of type 9)"));
    let idle = registry.decode(11, b"\x01").unwrap();
    let lines = "{\n  \"Idle\": []\n}";
    assert_eq!(format!("{idle:#}"), lines);
    let shown = format!("ValueRef({lines} of type 11)");
    assert_eq!(format!("{:#?}", idle.root()), shown);
    assert_eq!(format!("{idle:?}"), r#"Value({"Idle":[]} of type 11)"#);
    let empty = registry.decode(8, b"\0").unwrap();
    assert_eq!(format!("{empty:#}"), "[]");
    assert_eq!(format!("{empty:>#4}"), "  []");
}

/// All primitives at scale-info's numbers, a compact u64, the unit and a sequence of it, and text.
fn numbers() -> Registry {
    let mut definitions: Vec<_> = (0..15).map(|number| vec![5, number]).collect();
    definitions.extend([vec![6, 24], vec![4, 0], vec![2, 64]]);
    Registry::open(&types(&definitions)).unwrap()
}

#[test]
fn json_for_the_web_has_texts_of_large_integers() {
    const SAFE: i128 = (1 << 53) - 1;
    let registry = numbers();
    let web = |id: u32, item: Item| {
        let bytes = registry.encode(id, &item).unwrap();
        registry.decode(id, &bytes).unwrap().to_web_json().unwrap()
    };
    let (unsigned, signed) = ([6, 7, 8, 15], [12, 13, 14]);
    for id in unsigned.into_iter().chain(signed) {
        assert_eq!(web(id, 0.into()), "0");
        assert_eq!(web(id, SAFE.into()), "9007199254740991");
        assert_eq!(web(id, (SAFE + 1).into()), "\"9007199254740992\"");
    }
    for id in signed {
        assert_eq!(web(id, (-1).into()), "-1");
        assert_eq!(web(id, (-SAFE).into()), "-9007199254740991");
        assert_eq!(web(id, (-SAFE - 1).into()), "\"-9007199254740992\"");
    }
    let most = "340282366920938463463374607431768211455";
    for id in [7, 8, 14] {
        assert_eq!(web(id, u128::MAX.into()), format!("\"{most}\""));
    }
    let least = "-170141183460469231731687303715884105728";
    for id in [13, 14] {
        assert_eq!(web(id, i128::MIN.into()), format!("\"{least}\""));
    }
    assert_eq!(web(16, Item::Unit), "null");
    assert_eq!(web(17, Item::Empties(3)), r#"{"count":3}"#);
    assert_eq!(web(2, "a\"".into()), r#""a\"""#);
    assert_eq!(web(1, 'a'.into()), r#""a""#);
    assert_eq!(web(0, true.into()), "true");
}

#[test]
fn json_for_the_web_has_all_digits_of_256_bits() {
    let registry = numbers();
    let web = |id: u32, bytes: &[u8]| registry.decode(id, bytes).unwrap().to_web_json().unwrap();
    let two_to_256 =
        "115792089237316195423570985008687907853269984665640564039457584007913129639935";
    let two_to_255 =
        "57896044618658097711785492504343953926634992332820282019728792003956564819968";
    assert_eq!(web(8, &[0xff; 32]), format!("\"{two_to_256}\""));
    assert_eq!(web(14, &[0xff; 32]), "-1");
    let mut least = [0; 32];
    least[31] = 0x80;
    assert_eq!(web(8, &least), format!("\"{two_to_255}\""));
    assert_eq!(web(14, &least), format!("\"-{two_to_255}\""));
    // 10^39, the first power of ten that 128 bits don't hold.
    let mut large = [0; 32];
    large[..17].copy_from_slice(b"\0\0\0\0\x80Ve_\xc4\xacC\x89\x93\xfeP\xf0\x02");
    assert_eq!(web(8, &large), format!("\"1{}\"", "0".repeat(39)));
}
