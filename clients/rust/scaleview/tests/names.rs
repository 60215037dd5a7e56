//! What metadata names: each method, what is rejected, and the samples of a chain.

mod common;

use common::*;
use scaleview::{
    Error, Limits, Metadata, OpenOptions, Progress, Registry, RegistryReason, TypeId, TypeKind,
    ValueReason,
};
use std::fs;
use std::path::Path;
use std::sync::Arc;

/// Metadata of version 15 with the pallets Sys and Other, the runtime APIs Core and Pool, and the
/// custom values Owner and Sys.Now.
fn small() -> Metadata {
    Metadata::open(&metadata("small chain 15")).unwrap()
}

fn id<N: Into<TypeId>>(named: Result<N, Error>) -> Option<u32> {
    named.ok().map(|named| named.into().get())
}

fn unknown(name: &str) -> Error {
    let name = name.to_string();
    Error::UnknownName { name }
}

fn value_error(reason: ValueReason, place: u64) -> Error {
    Error::Value { reason, place }
}

#[test]
fn names_are_found_by_their_parts() {
    let chain = small();
    assert_eq!(id(chain.extrinsic()), Some(13));
    assert_eq!(id(chain.call()), Some(3));
    assert_eq!(id(chain.event()), Some(11));
    assert_eq!(id(chain.error()), Some(12));
    assert_eq!(id(chain.calls("Sys")), Some(3));
    assert_eq!(id(chain.events("Other")), Some(11));
    assert_eq!(id(chain.errors("Sys")), Some(12));
    assert_eq!(id(chain.storage("Sys.Owner")), Some(2));
    let key = chain.storage("Sys.Owner").unwrap().key().unwrap();
    assert_eq!((key.name(), key.type_id().get()), ("key:Sys.Owner", 17));
    assert_eq!(id(chain.constant("Other.Pair")), Some(5));
    let method = |name| {
        let method = chain.api(name).unwrap();
        (method.params.type_id().get(), method.result.type_id().get())
    };
    assert_eq!(method("Core.run"), (20, 4));
    assert_eq!(method("Pool.check"), (21, 5));
    assert_eq!(id(chain.custom("Sys.Now")), Some(0));
    assert_eq!(id(chain.named("storage:Sys.Owner")), Some(2));
}

#[test]
fn unknown_names_are_reported() {
    let chain = small();
    assert_eq!(chain.calls("Other").err(), Some(unknown("calls:Other")));
    assert_eq!(chain.events("Sy").err(), Some(unknown("events:Sy")));
    assert_eq!(chain.errors("Other").err(), Some(unknown("errors:Other")));
    let entry = chain.storage("Sys.now");
    assert_eq!(entry.err(), Some(unknown("storage:Sys.now")));
    let constant = chain.constant("Sys.Now");
    assert_eq!(constant.err(), Some(unknown("constant:Sys.Now")));
    let method = chain.api("Core.check");
    assert_eq!(method.err(), Some(unknown("params:Core.check")));
    assert_eq!(chain.custom("Sys").err(), Some(unknown("custom:Sys")));
    assert_eq!(chain.named("").err(), Some(unknown("")));
    assert_eq!(chain.named("storag").err(), Some(unknown("storag")));
    let told = unknown("storage:\"\n").to_string();
    assert_eq!(told, r#"type: UnknownName "storage:\"\n""#);
    let old = Metadata::open(&metadata("small chain 14")).unwrap();
    assert_eq!(
        (id(old.call()), id(old.event()), id(old.error())),
        (Some(3), None, None)
    );
    let unsigned = metadata("extrinsic without the parameter signature");
    let chain = Metadata::open(&unsigned).unwrap();
    assert_eq!(chain.extrinsic().err(), Some(unknown("extrinsic")));
    let error = chain.decode_extrinsic(b"\x04\x04").err();
    assert_eq!(error, Some(unknown("extrinsic")));
}

#[test]
fn a_name_has_a_type() {
    let chain = small();
    let named = chain.api("Core.run").unwrap().params;
    assert_eq!(
        (named.name(), named.type_id().get()),
        ("params:Core.run", 20)
    );
    let ty = named.ty().unwrap();
    assert_eq!((ty.id().get(), ty.kind()), (20, TypeKind::Composite));
    let fields: Vec<_> = ty
        .fields()
        .unwrap()
        .iter()
        .map(|field| (field.name(), field.type_id().get()))
        .collect();
    assert_eq!(fields, [(Some("block"), 2), (Some("at"), 1)]);
    let shown = r#"Named { name: "params:Core.run", type_id: TypeId(20), .. }"#;
    assert_eq!(format!("{named:?}"), shown);
}

#[test]
fn names_are_listed_in_order() {
    let chain = small();
    let names: Vec<_> = chain.names().collect();
    let first: Vec<_> = names[..9]
        .iter()
        .map(|named| (named.name(), named.type_id().get()))
        .collect();
    assert_eq!(
        first,
        [
            ("extrinsic", 13),
            ("call", 3),
            ("event", 11),
            ("error", 12),
            ("calls:Sys", 3),
            ("events:Sys", 11),
            ("errors:Sys", 12),
            ("storage:Sys.Now", 1),
            ("key:Sys.Now", 14),
        ]
    );
    assert_eq!((names.len(), names[28].name()), (29, "custom:Sys.Now"));
    assert!(names[28].has_bytes() && !names[0].has_bytes());
    let mut rest = chain.names();
    assert_eq!(rest.len(), 29);
    let last = rest.next_back().map(|named| named.name());
    assert_eq!((last, rest.by_ref().count()), (Some("custom:Sys.Now"), 28));
    assert!(rest.next().is_none() && rest.next_back().is_none());
    assert_eq!((&chain).into_iter().len(), 29);
    let shown = format!("{chain:?}");
    assert!(
        shown.starts_with("Metadata { registry: Registry {"),
        "{shown}"
    );
    assert!(shown.ends_with("names: 29 }"), "{shown}");
    let first = r#"[Named { name: "extrinsic", type_id: TypeId(13), .. }, "#;
    assert!(format!("{:?}", chain.names()).starts_with(first));
}

#[test]
fn entries_and_constants_are_listed() {
    let chain = small();
    let entries: Vec<_> = chain.storage_entries().map(|entry| entry.name()).collect();
    assert_eq!(entries[..2], ["Sys.Now", "Sys.Last"]);
    let constants: Vec<_> = chain.constants().map(|constant| constant.name()).collect();
    assert_eq!(constants.last(), Some(&"Other.Pair"));
    let by_word = |word| {
        let names = chain.names().map(|named| named.name());
        names.filter(|name| name.starts_with(word)).count()
    };
    assert_eq!(entries.len(), by_word("storage:"));
    assert_eq!(constants.len(), by_word("constant:"));
}

#[test]
fn some_names_have_bytes() {
    let chain = small();
    let now = chain.storage("Sys.Now").unwrap();
    assert_eq!(now.value().bytes(), Ok(vec![42, 0, 0, 0]));
    let default = now.default().unwrap();
    assert_eq!(default.and_then(|now| now.as_u128()), Some(42));
    let pair = chain.constant("Other.Pair").unwrap();
    assert_eq!(pair.bytes(), Ok(vec![1, 0, 0, 0, 2]));
    assert_eq!((pair.name(), pair.type_id().get()), ("Other.Pair", 5));
    assert_eq!(pair.value().unwrap().to_string(), "[1,2]");
    let owner = chain.custom("Owner").unwrap();
    assert_eq!(owner.value().unwrap().to_string(), "1");
    let last = chain.storage("Sys.Last").unwrap();
    assert_eq!(last.default(), Ok(None));
    for named in [last.value(), chain.call().unwrap()] {
        assert!(!named.has_bytes());
        let name = named.name().to_string();
        let none = Error::NoBytes { name };
        assert_eq!(named.bytes().err(), Some(none.clone()));
        assert_eq!(named.value().err(), Some(none));
    }
    let name = "call".to_string();
    let told = Error::NoBytes { name }.to_string();
    assert_eq!(told, r#"type: NoBytes "call""#);
}

#[test]
fn values_and_keys_are_decoded_by_name() {
    let chain = small();
    let now = chain.storage("Sys.Now").unwrap();
    assert_eq!(now.decode(b"\x07\0\0\0").unwrap().as_u128(), Some(7));
    let key = [[1; 16], [2; 16]].concat();
    let key = now.decode_key(&key).unwrap();
    let entry = key.at("entry").and_then(|entry| entry.as_bytes());
    assert_eq!(entry, Some([2; 16].as_slice()));
    let run = chain.api("Core.run").unwrap().params;
    let value = run.decode(b"\x04\xff\x07\0\0\0").unwrap();
    let (json, bytes) = (r#"{"at":7,"block":"0xff"}"#, run.encode(&value).unwrap());
    assert_eq!(value.to_string(), json);
    assert_eq!(run.decode_json(&bytes), Ok(json.to_string()));
    let limits = Limits::new().bytes(2);
    let error = value_error(ValueReason::TooLong, 2);
    assert_eq!(run.decode_within(&bytes, limits).err(), Some(error));
    assert_eq!(chain.decode(run, &bytes), Ok(value));
}

#[test]
fn an_entry_may_have_no_type_of_keys() {
    let chain = Metadata::open(&metadata("maps by several hashers")).unwrap();
    // Its key is a tuple of two, and it has no hasher.
    let entry = chain.storage("M.NoneOfPair").unwrap();
    assert!(entry.key().is_none());
    let error = entry.decode_key(b"").err();
    assert_eq!(error, Some(unknown("key:M.NoneOfPair")));
}

#[test]
fn bytes_of_a_name_need_not_be_a_value() {
    let chain = Metadata::open(&metadata("types without values")).unwrap();
    let none = chain.storage("S.NoValue").unwrap();
    let error = value_error(ValueReason::NoFiniteValue, 0);
    assert_eq!(none.default().err(), Some(error));
}

#[test]
fn a_metadata_is_a_registry() {
    let chain = small();
    assert_eq!(
        (chain.len(), chain.end(), chain.version()),
        (24, 217, Some(15))
    );
    let registry = chain.into_registry();
    assert_eq!(registry.len(), 24);
    let registry = Arc::new(registry);
    let mut session = registry.start_owned(20, Limits::new()).unwrap();
    assert_eq!(
        session.feed(b"\x04\xff\x07\0\0\0"),
        Ok(Progress::Done { used: 6 })
    );
    assert_eq!(session.finish_json().unwrap(), r#"{"at":7,"block":"0xff"}"#);
}

#[test]
fn bits_are_read_by_the_option() {
    let bytes = metadata("a bit sequence over a synthetic u8");
    for bits in [false, true] {
        let chain = OpenOptions::new()
            .bits(bits)
            .open_with_names(&bytes)
            .unwrap();
        let id = chain.storage("S.B").unwrap().type_id();
        // Its store is at the position of a synthetic type, so its values are never read.
        let error = value_error(ValueReason::BitSequence, 0);
        assert_eq!(chain.decode(id, b"\x04\x01").err(), Some(error));
    }
}

#[test]
fn a_fault_after_the_registry_has_a_reason_and_a_place() {
    let bytes = metadata("small chain 15");
    let open = |bytes: &[u8]| Metadata::open(bytes).err().unwrap();
    let changed = |place: usize, byte: u8| {
        let mut changed = bytes.clone();
        changed[place] = byte;
        open(&changed)
    };
    let fault = |reason, place| Error::Metadata { reason, place };
    assert_eq!(open(&bytes[..455]), fault(ValueReason::Truncated, 455));
    // The name of the first pallet, whether it has storage, and the number of pallets.
    assert_eq!(changed(219, 0xff), fault(ValueReason::BadUtf8, 219));
    assert_eq!(changed(222, 2), fault(ValueReason::NoSuchVariant, 222));
    assert_eq!(changed(217, 7), fault(ValueReason::CompactTooLarge, 217));
    assert_eq!(changed(249, 1), fault(ValueReason::CompactNotShortest, 249));
    let reason = RegistryReason::TrailingBytes;
    let longer = [bytes.as_slice(), &[0]].concat();
    assert_eq!(open(&longer), Error::Registry { reason, place: 456 });
    // The type of the first entry, and the element of an own type: 13 is a synthetic one.
    let to = TypeId::new(13);
    let unknown = Error::UnknownMetadataReference { to, place: 234 };
    assert_eq!(changed(234, 13 << 2), unknown);
    assert_eq!(
        changed(22, 13 << 2),
        Error::UnknownReference {
            from: TypeId::new(2),
            to
        }
    );
    let reason = RegistryReason::NotMetadata;
    assert_eq!(open(U16), Error::Registry { reason, place: 0 });
}

#[test]
fn faults_of_metadata_are_told_as_the_command_does() {
    let reason = ValueReason::NoSuchVariant;
    let told = Error::Metadata { reason, place: 222 }.to_string();
    assert_eq!(told, "registry: NoSuchVariant at 222");
    let to = TypeId::new(13);
    let told = Error::UnknownMetadataReference { to, place: 234 }.to_string();
    assert_eq!(told, "registry: UnknownReference to type 13 at 234");
}

#[test]
fn an_opaque_value_has_places_from_its_length() {
    let registry = Registry::open(U32).unwrap();
    let error = |bytes: &[u8]| registry.decode_opaque(0, bytes).err();
    let value = registry.decode_opaque(0, b"\x10\x07\0\0\0").unwrap();
    assert_eq!(value.as_u128(), Some(7));
    let json = registry.decode_opaque_json(0, b"\x10\x07\0\0\0");
    assert_eq!(json, Ok("7".to_string()));
    assert_eq!(error(b""), Some(value_error(ValueReason::Truncated, 0)));
    assert_eq!(
        error(b"\x10\x07\0"),
        Some(value_error(ValueReason::Truncated, 3))
    );
    assert_eq!(
        error(b"\x0c\x07\0\0"),
        Some(value_error(ValueReason::Truncated, 4))
    );
    assert_eq!(
        error(b"\x10\x07\0\0\0\0"),
        Some(value_error(ValueReason::TrailingBytes, 5))
    );
    assert_eq!(
        error(b"\x14\x07\0\0\0\0"),
        Some(value_error(ValueReason::TrailingBytes, 5))
    );
    assert_eq!(
        error(b"\x11\0\x07\0\0\0"),
        Some(value_error(ValueReason::CompactNotShortest, 0))
    );
    assert_eq!(
        error(b"\x07\0\0\0\0\0"),
        Some(value_error(ValueReason::CompactTooLarge, 0))
    );
    // The type is looked for first.
    let unknown = registry.decode_opaque(1, b"").err();
    let id = TypeId::new(1);
    assert_eq!(unknown, Some(Error::UnknownType { id }));
}

#[test]
fn limits_hold_for_the_bytes_of_an_opaque_value() {
    let registry = Registry::open(U32).unwrap();
    let within = |bytes| {
        let limits = Limits::new().bytes(bytes);
        registry.decode_opaque_json_within(0, b"\x10\x07\0\0\0", limits)
    };
    assert_eq!(within(4), Ok("7".to_string()));
    assert_eq!(within(3), Err(value_error(ValueReason::TooLong, 4)));
    let limits = Limits::new().depth(1025);
    let error = registry
        .decode_opaque_within(0, b"\x10\x07\0\0\0", limits)
        .err();
    assert_eq!(error, Some(Error::LimitOutOfRange));
}

fn example(name: &str) -> Vec<u8> {
    let folder = Path::new(env!("CARGO_MANIFEST_DIR")).join("../../../examples");
    fs::read(folder.join(name)).unwrap()
}

/// The bytes of a text of hexadecimal digits with 0x in front.
fn example_of_hex(name: &str) -> Vec<u8> {
    let text = String::from_utf8(example(name)).unwrap();
    bytes_of(text.trim_end().strip_prefix("0x").unwrap())
}

fn example_text(name: &str) -> String {
    String::from_utf8(example(name))
        .unwrap()
        .trim_end()
        .to_string()
}

#[test]
fn the_names_of_the_examples_are_listed() {
    for name in ["chain", "chain15"] {
        let chain = Metadata::open(&example(&format!("chain/{name}.metadata"))).unwrap();
        let mut lines = String::new();
        for named in chain.names() {
            lines += &format!("{} {}\n", named.name(), named.type_id());
        }
        assert_eq!(lines.into_bytes(), example(&format!("chain/{name}.names")));
    }
}

#[test]
fn the_values_of_the_examples_are_decoded() {
    let chain = OpenOptions::new()
        .bits(true)
        .open_with_names(&example("chain/chain.metadata"))
        .unwrap();
    let account = chain.storage("System.Account").unwrap();
    let key = account.decode_key(&example("chain/key.scale")).unwrap();
    assert_eq!(key.to_string(), example_text("chain/key.json"));
    let value = account
        .decode(&example("runtime/account_info.scale"))
        .unwrap();
    assert_eq!(value.to_string(), example_text("runtime/account_info.json"));
    let extrinsic = chain.extrinsic().unwrap();
    let transfer = example("chain/transfer.scale");
    let json = chain.decode_opaque_json(extrinsic, &transfer).unwrap();
    assert_eq!(json, example_text("chain/transfer.json"));
    let value = chain
        .decode_extrinsic(&example_of_hex("chain/extrinsic.hex"))
        .unwrap();
    assert!(value.to_string().contains(r#""bitfields":"0b11011110101""#));
    let call = chain.call().unwrap().type_id();
    let value = chain
        .decode(call, &example_of_hex("chain/call.hex"))
        .unwrap();
    assert_eq!(value.variant_name(), Some("Utility"));
    let deposit = chain.constant("Balances.ExistentialDeposit").unwrap();
    assert_eq!(deposit.value().unwrap().as_u128(), Some(10_000_000_000));
}
