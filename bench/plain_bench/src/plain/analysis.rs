//! What each type's values are made of, found by one worklist.

use super::registry::{Arm, Definition, Field, Primitive, Registry};
use super::{Fault, Reason, Target, refuse};

/// What a value of a type takes: there is none, it takes no bytes, or some.
#[derive(Clone, Copy, Debug, PartialEq, Eq)]
pub enum Class {
    NoValue,
    Empty,
    Sized,
}

/// The class of each type, and what each compact is made of, where that is an integer.
pub struct Analysis {
    pub classes: Vec<Class>,
    pub targets: Vec<Option<Target>>,
}

/// A composite, a tuple, an array or an arm: its owner has a value once all its members have one.
struct Group {
    owner: u32,
    waits: u32,
    is_empty: bool,
}

/// The groups, who is in which, and the types that are known to have a value: whether one of no bytes.
#[derive(Default)]
struct Groups {
    groups: Vec<Group>,
    members: Vec<(u32, u32)>,
    ready: Vec<(u32, bool)>,
}

impl Groups {
    /// A group of these members, which takes a byte of its own where it is an arm.
    fn add(&mut self, owner: usize, members: impl Iterator<Item = u32>, is_arm: bool) {
        let group = self.groups.len() as u32;
        let before = self.members.len();
        self.members.extend(members.map(|member| (member, group)));
        let waits = (self.members.len() - before) as u32;
        self.groups.push(Group {
            owner: owner as u32,
            waits,
            is_empty: !is_arm,
        });
        if waits == 0 {
            self.ready.push((owner as u32, !is_arm));
        }
    }

    /// The first arm of each index is a group. The others are none, since no value has them.
    fn add_arms(&mut self, owner: usize, arms: &[Arm]) {
        let mut seen = [0u64; 4];
        for arm in arms {
            let (word, bit) = (usize::from(arm.index / 64), 1 << (arm.index % 64));
            if seen[word] & bit == 0 {
                seen[word] |= bit;
                self.add(owner, types_of(&arm.fields), true);
            }
        }
    }

    fn add_type(&mut self, at: usize, definition: &Definition) {
        match definition {
            Definition::Composite(fields) => self.add(at, types_of(fields), false),
            Definition::Tuple(members) => self.add(at, members.iter().copied(), false),
            Definition::Array(0, _) => self.ready.push((at as u32, true)),
            Definition::Array(_, element) => self.add(at, std::iter::once(*element), false),
            Definition::Variant(arms) => self.add_arms(at, arms),
            Definition::Compact(_) => {}
            Definition::Sequence(_) | Definition::Primitive(_) | Definition::BitSequence(..) => {
                self.ready.push((at as u32, false));
            }
        }
    }

    /// The groups of each type in one list, and where each type's begin in it.
    fn by_member(&self, types: usize) -> (Vec<u32>, Vec<u32>) {
        let mut begins = vec![0; types + 1];
        for (member, _) in &self.members {
            begins[*member as usize + 1] += 1;
        }
        for ty in 0..types {
            begins[ty + 1] += begins[ty];
        }
        let mut next = begins.clone();
        let mut groups = vec![0; self.members.len()];
        for (member, group) in &self.members {
            let place = &mut next[*member as usize];
            groups[*place as usize] = *group;
            *place += 1;
        }
        (groups, begins)
    }

    /// Follows what is known to have a value to all that has one therefore.
    fn classes(mut self, types: usize) -> Vec<Class> {
        let (groups, begins) = self.by_member(types);
        let mut classes = vec![Class::NoValue; types];
        while let Some((ty, is_empty)) = self.ready.pop() {
            let ty = ty as usize;
            if classes[ty] != Class::NoValue {
                continue;
            }
            classes[ty] = if is_empty { Class::Empty } else { Class::Sized };
            for group in &groups[begins[ty] as usize..begins[ty + 1] as usize] {
                let group = &mut self.groups[*group as usize];
                group.waits -= 1;
                group.is_empty &= is_empty;
                if group.waits == 0 {
                    self.ready.push((group.owner, group.is_empty));
                }
            }
        }
        classes
    }
}

fn types_of(fields: &[Field]) -> impl Iterator<Item = u32> {
    fields.iter().map(|field| field.ty)
}

/// What a search through wrappers of one part knows of a type.
#[derive(Clone, Copy)]
enum Seen {
    No,
    OnTheWay,
    Known(Option<Target>),
}

/// The integer below wrappers of one part, or the unit; each type is followed once.
fn target_of(registry: &Registry, seen: &mut [Seen], first: u32) -> Option<Target> {
    let mut ty = first as usize;
    let mut way = Vec::new();
    let found = loop {
        match seen[ty] {
            Seen::Known(target) => break target,
            Seen::OnTheWay => break None,
            Seen::No => {}
        }
        seen[ty] = Seen::OnTheWay;
        way.push(ty);
        let (count, part) = match &registry[ty].definition {
            Definition::Primitive(primitive) => break target_of_primitive(*primitive),
            Definition::Composite(fields) => (fields.len(), fields.first().map(|field| field.ty)),
            Definition::Tuple(members) => (members.len(), members.first().copied()),
            _ => break None,
        };
        match (count, part) {
            (0, _) => break Some(Target::Unit),
            (1, Some(part)) => ty = part as usize,
            _ => break None,
        }
    };
    for ty in way {
        seen[ty] = Seen::Known(found);
    }
    found
}

fn target_of_primitive(primitive: Primitive) -> Option<Target> {
    match primitive {
        Primitive::U8 => Some(Target::U8),
        Primitive::U16 => Some(Target::U16),
        Primitive::U32 => Some(Target::U32),
        Primitive::U64 => Some(Target::U64),
        Primitive::U128 => Some(Target::U128),
        _ => None,
    }
}

/// Are all types there to which a definition refers?
fn is_known(definition: &Definition, types: usize) -> bool {
    let is_there = |ty: u32| (ty as usize) < types;
    match definition {
        Definition::Composite(fields) => types_of(fields).all(is_there),
        Definition::Tuple(members) => members.iter().copied().all(is_there),
        Definition::Variant(arms) => arms.iter().all(|arm| types_of(&arm.fields).all(is_there)),
        Definition::Array(_, ty) | Definition::Sequence(ty) | Definition::Compact(ty) => {
            is_there(*ty)
        }
        Definition::Primitive(_) | Definition::BitSequence(..) => true,
    }
}

/// Finds classes and targets, or refuses the first type that refers to one which isn't there, by its position.
pub fn analyse(registry: &Registry) -> Result<Analysis, Fault> {
    let types = registry.len();
    let mut groups = Groups::default();
    let mut seen = vec![Seen::No; types];
    let mut targets = vec![None; types];
    for (at, ty) in registry.iter().enumerate() {
        if !is_known(&ty.definition, types) {
            return refuse(Reason::UnknownType, at);
        }
        groups.add_type(at, &ty.definition);
    }
    for (at, ty) in registry.iter().enumerate() {
        if let Definition::Compact(wrapped) = ty.definition {
            targets[at] = target_of(registry, &mut seen, wrapped);
            groups
                .ready
                .push((at as u32, targets[at] == Some(Target::Unit)));
        }
    }
    Ok(Analysis {
        classes: groups.classes(types),
        targets,
    })
}
