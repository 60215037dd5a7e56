//! The types in a form for decoding and printing.

use super::Target;
use super::analysis::{Analysis, Class};
use super::json::put_text;
use super::registry::{Arm, Definition, Field, Primitive, Registry};

/// The parts of a composite, a tuple or an arm.
pub struct Parts {
    pub types: Vec<u32>,
    /// The parts in the order of their names, each with its name as JSON and a colon; none where they are shown as a list.
    pub keys: Option<Vec<(u32, String)>>,
}

/// An arm of a variant.
pub struct ArmPlan {
    /// What stands before its fields in JSON.
    pub head: String,
    pub parts: Parts,
}

/// What a value of a type is read as.
pub enum Step {
    NoValue,
    Empty,
    BitSequence,
    BadCompact,
    Primitive(Primitive),
    Compact(Target),
    Parts(Parts),
    /// The place of each index's arm among the arms, or one behind all of them.
    Arms(Box<[u16; 256]>, Vec<ArmPlan>),
    Count,
    Bytes,
    ByteArray(u32),
    Sequence(u32),
    Array(u32, u32),
}

/// The steps of all types.
pub struct Plan {
    pub steps: Vec<Step>,
}

fn json_of(name: &str) -> String {
    let mut text = Vec::new();
    put_text(&mut text, name);
    text.push(b':');
    String::from_utf8(text).expect("a text")
}

fn keys_of(fields: &[Field]) -> Option<Vec<(u32, String)>> {
    let mut names = Vec::new();
    for (at, field) in fields.iter().enumerate() {
        names.push((field.name.as_deref()?, at as u32));
    }
    names.sort();
    if names.is_empty() || names.windows(2).any(|two| two[0].0 == two[1].0) {
        return None;
    }
    Some(
        names
            .into_iter()
            .map(|(name, at)| (at, json_of(name)))
            .collect(),
    )
}

fn parts_of(fields: &[Field]) -> Parts {
    Parts {
        types: fields.iter().map(|field| field.ty).collect(),
        keys: keys_of(fields),
    }
}

fn arms_of(arms: &[Arm]) -> Step {
    let mut places = Box::new([u16::MAX; 256]);
    let mut plans = Vec::new();
    for arm in arms {
        let place = &mut places[usize::from(arm.index)];
        if *place == u16::MAX {
            *place = plans.len() as u16;
            let head = format!("{{{}", json_of(&arm.name));
            plans.push(ArmPlan {
                head,
                parts: parts_of(&arm.fields),
            });
        }
    }
    Step::Arms(places, plans)
}

fn step_of(registry: &Registry, analysis: &Analysis, at: usize) -> Step {
    let is_u8 = |ty: u32| {
        matches!(
            registry[ty as usize].definition,
            Definition::Primitive(Primitive::U8)
        )
    };
    match analysis.classes[at] {
        Class::NoValue => return Step::NoValue,
        Class::Empty => return Step::Empty,
        Class::Sized => {}
    }
    match &registry[at].definition {
        Definition::Primitive(primitive) => Step::Primitive(*primitive),
        Definition::Compact(_) => analysis.targets[at].map_or(Step::BadCompact, Step::Compact),
        Definition::BitSequence(..) => Step::BitSequence,
        Definition::Composite(fields) => Step::Parts(parts_of(fields)),
        Definition::Tuple(members) => Step::Parts(Parts {
            types: members.clone(),
            keys: None,
        }),
        Definition::Variant(arms) => arms_of(arms),
        Definition::Sequence(element) if analysis.classes[*element as usize] == Class::Empty => {
            Step::Count
        }
        Definition::Sequence(element) if is_u8(*element) => Step::Bytes,
        Definition::Sequence(element) => Step::Sequence(*element),
        Definition::Array(len, element) if is_u8(*element) => Step::ByteArray(*len),
        Definition::Array(len, element) => Step::Array(*len, *element),
    }
}

impl Plan {
    pub fn new(registry: &Registry, analysis: &Analysis) -> Plan {
        Plan {
            steps: (0..registry.len())
                .map(|at| step_of(registry, analysis, at))
                .collect(),
        }
    }
}
