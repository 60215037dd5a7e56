//! Positions of types, and the words for kinds, classes and primitives.

mod common;

use common::*;
use scaleview::{Class, ParseTypeError, Primitive, Registry, TypeId, TypeKind};
use std::collections::{BTreeSet, HashSet};

#[test]
fn a_position_is_a_number_in_order() {
    let ids = [2, 0, 1, 2].map(TypeId::from);
    let ordered: BTreeSet<_> = ids.into_iter().collect();
    assert_eq!(
        ordered.into_iter().map(u32::from).collect::<Vec<_>>(),
        [0, 1, 2]
    );
    assert_eq!(ids.into_iter().collect::<HashSet<_>>().len(), 3);
    assert_eq!(
        (TypeId::new(7).get(), TypeId::default()),
        (7, TypeId::new(0))
    );
    assert_eq!(format!("{:>3}|{0:?}", TypeId::new(7)), "  7|TypeId(7)");
}

#[test]
fn a_position_is_read_as_the_command_does() {
    let read = |text: &str| text.parse::<TypeId>().ok().map(u32::from);
    assert_eq!((read("0"), read("007")), (Some(0), Some(7)));
    assert_eq!(read("4294967295"), Some(u32::MAX));
    for text in ["", "+1", "-1", " 1", "1 ", "x", "4294967296"] {
        assert_eq!(read(text), None, "{text}");
    }
}

#[test]
fn what_names_a_type_is_taken_for_it() {
    let registry = Registry::open(U16).unwrap();
    let one = registry.get(0).unwrap();
    assert_eq!(TypeId::from(one), TypeId::new(0));
    let value = registry.decode(one, b"\x07\0").unwrap();
    assert_eq!(registry.encode(one.id(), &value), Ok(vec![7, 0]));
    assert_eq!(registry.find_from(one, ""), Some(one.id()));
}

#[test]
fn words_are_read_as_they_are_displayed() {
    let kinds = [
        TypeKind::Composite,
        TypeKind::Variant,
        TypeKind::Sequence,
        TypeKind::Array,
        TypeKind::Tuple,
        TypeKind::Primitive,
        TypeKind::Compact,
        TypeKind::BitSequence,
    ];
    for kind in kinds {
        assert_eq!(kind.to_string().parse(), Ok(kind));
    }
    assert_eq!("bitsequence".parse(), Ok(TypeKind::BitSequence));
    assert_eq!("Sized".parse(), Ok(Class::Sized));
    assert_eq!("i256".parse(), Ok(Primitive::I256));
    let wrong: [Result<Primitive, ParseTypeError>; 2] = ["U8".parse(), "".parse()];
    assert!(wrong.iter().all(Result::is_err));
    let error = "sized".parse::<Class>().unwrap_err();
    assert_eq!(format!("{error:.8}"), "the text");
}
