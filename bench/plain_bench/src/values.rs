//! What is measured: values of a registry's types, made from a seed, and those of one shape each with registries of their own.

use crate::plain::{Definition, Field, Plan, Primitive, Registry, analyse, read};
use std::rc::Rc;

/// A registry, and what the plain decoder makes of it.
pub struct Types {
    pub bytes: Vec<u8>,
    pub registry: Registry,
    pub plan: Plan,
}

/// What decoding by a registry needs, whose types are all there.
pub fn plan_of(registry: &Registry) -> Plan {
    let analysis = analyse(registry).expect("types that are there");
    Plan::new(registry, &analysis)
}

impl Types {
    pub fn new(bytes: Vec<u8>) -> Rc<Types> {
        let (registry, len) = read(&bytes).expect("a registry");
        let plan = plan_of(&registry);
        Rc::new(Types {
            bytes: bytes[..len].to_vec(),
            registry,
            plan,
        })
    }
}

/// A value to measure.
#[derive(Clone)]
pub struct Sample {
    pub name: String,
    pub types: Rc<Types>,
    pub ty: u32,
    pub value: Vec<u8>,
}

/// Numbers from a seed, by the generator splitmix64.
pub struct Random(u64);

impl Random {
    pub fn new(seed: u64) -> Random {
        Random(seed)
    }

    fn next(&mut self) -> u64 {
        self.0 = self.0.wrapping_add(0x9e37_79b9_7f4a_7c15);
        let mixed = (self.0 ^ (self.0 >> 30)).wrapping_mul(0xbf58_476d_1ce4_e5b9);
        let mixed = (mixed ^ (mixed >> 27)).wrapping_mul(0x94d0_49bb_1331_11eb);
        mixed ^ (mixed >> 31)
    }

    pub fn below(&mut self, limit: usize) -> usize {
        (self.next() % limit as u64) as usize
    }

    pub fn letter(&mut self) -> u8 {
        b'a' + self.below(26) as u8
    }

    /// At most 16 bytes.
    pub fn bytes<const N: usize>(&mut self) -> [u8; N] {
        let all = self.u128().to_le_bytes();
        *all.first_chunk().expect("at most 16 bytes")
    }

    fn u128(&mut self) -> u128 {
        u128::from(self.next()) << 64 | u128::from(self.next())
    }

    /// A number of at most so many bits, as often of each count of them.
    pub fn number(&mut self, bits: u32) -> u128 {
        self.u128() >> (128 - bits) >> self.below(bits as usize)
    }
}

/// The shortest spelling of a compact integer.
pub fn compact(number: u128) -> Vec<u8> {
    match number {
        0..=0x3f => vec![(number as u8) << 2],
        0x40..=0x3fff => ((number as u16) << 2 | 1).to_le_bytes().to_vec(),
        0x4000..=0x3fff_ffff => ((number as u32) << 2 | 2).to_le_bytes().to_vec(),
        _ => {
            let bytes = number.to_le_bytes();
            let len = (16 - number.leading_zeros() as usize / 8).max(4);
            [&[(len as u8 - 4) << 2 | 3], &bytes[..len]].concat()
        }
    }
}

/// A list of elements of about so many bytes together.
pub fn list_of(bytes: usize, mut put: impl FnMut(&mut Vec<u8>)) -> Vec<u8> {
    let (mut elements, mut count) = (Vec::with_capacity(bytes + bytes / 8), 0);
    while elements.len() < bytes {
        put(&mut elements);
        count += 1;
    }
    [compact(count), elements].concat()
}

/// Writes values of a registry's types.
struct Maker<'t> {
    registry: &'t Registry,
    /// How many levels a value of each type needs at least.
    levels: Vec<usize>,
    random: Random,
}

const NO_VALUE: usize = usize::MAX;

fn types_of(fields: &[Field]) -> impl Iterator<Item = u32> {
    fields.iter().map(|field| field.ty)
}

/// One more than the most of the types' levels.
fn above(levels: &[usize], types: impl Iterator<Item = u32>) -> usize {
    types
        .map(|ty| levels[ty as usize])
        .max()
        .map_or(0, |most| most.saturating_add(1))
}

fn levels_of(levels: &[usize], definition: &Definition) -> usize {
    match definition {
        Definition::Composite(fields) => above(levels, types_of(fields)),
        Definition::Tuple(members) => above(levels, members.iter().copied()),
        Definition::Array(_, element) => above(levels, std::iter::once(*element)),
        Definition::Variant(arms) => arms
            .iter()
            .map(|arm| above(levels, types_of(&arm.fields)))
            .min()
            .unwrap_or(NO_VALUE),
        Definition::BitSequence(..) => NO_VALUE,
        Definition::Sequence(_) | Definition::Primitive(_) | Definition::Compact(_) => 0,
    }
}

impl<'t> Maker<'t> {
    fn new(registry: &'t Registry, seed: u64) -> Maker<'t> {
        let mut levels = vec![NO_VALUE; registry.len()];
        loop {
            let found: Vec<usize> = registry
                .iter()
                .map(|ty| levels_of(&levels, &ty.definition))
                .collect();
            if found == levels {
                return Maker {
                    registry,
                    levels,
                    random: Random::new(seed),
                };
            }
            levels = found;
        }
    }

    /// A value that has at most so many levels below it, where that is enough for one of its type.
    fn put(&mut self, out: &mut Vec<u8>, ty: u32, levels: usize) {
        let registry = self.registry;
        let below = levels.saturating_sub(1);
        match &registry[ty as usize].definition {
            Definition::Composite(fields) => {
                types_of(fields).for_each(|ty| self.put(out, ty, below))
            }
            Definition::Tuple(members) => members.iter().for_each(|ty| self.put(out, *ty, below)),
            Definition::Array(len, element) => {
                (0..*len).for_each(|_| self.put(out, *element, below))
            }
            Definition::Variant(_) => self.put_arm(out, ty, levels),
            Definition::Sequence(element) => self.put_list(out, *element, levels),
            Definition::Compact(wrapped) => match self.bits(*wrapped) {
                0 => {}
                bits => out.extend(compact(self.random.number(bits))),
            },
            Definition::Primitive(primitive) => self.put_primitive(out, *primitive),
            Definition::BitSequence(..) => unreachable!("it has no value here"),
        }
    }

    /// Any arm that has a value of so few levels, or else the one of fewest.
    fn put_arm(&mut self, out: &mut Vec<u8>, ty: u32, levels: usize) {
        let registry = self.registry;
        let Definition::Variant(arms) = &registry[ty as usize].definition else {
            unreachable!("it is asked of variants");
        };
        let needs = |at: &usize| above(&self.levels, types_of(&arms[*at].fields));
        let few: Vec<usize> = (0..arms.len()).filter(|at| needs(at) <= levels).collect();
        let fewest = (0..arms.len()).min_by_key(needs).expect("an arm");
        let arm = if few.is_empty() {
            &arms[fewest]
        } else {
            &arms[few[self.random.below(few.len())]]
        };
        out.push(arm.index);
        types_of(&arm.fields).for_each(|ty| self.put(out, ty, levels.saturating_sub(1)));
    }

    /// A run of up to 40 bytes, or up to two elements where there are levels for them.
    fn put_list(&mut self, out: &mut Vec<u8>, element: u32, levels: usize) {
        let is_u8 = matches!(
            self.registry[element as usize].definition,
            Definition::Primitive(Primitive::U8)
        );
        let limit = match (is_u8, self.levels[element as usize] < levels) {
            (true, _) => 41,
            (false, true) => 3,
            (false, false) => 1,
        };
        let len = self.random.below(limit);
        out.extend(compact(len as u128));
        (0..len).for_each(|_| self.put(out, element, levels.saturating_sub(1)));
    }

    /// How many bits the integer has that a compact wraps; 0 where it wraps a type without parts, which takes no bytes.
    fn bits(&self, ty: u32) -> u32 {
        match &self.registry[ty as usize].definition {
            Definition::Primitive(Primitive::U8) => 8,
            Definition::Primitive(Primitive::U16) => 16,
            Definition::Primitive(Primitive::U32) => 32,
            Definition::Primitive(Primitive::U64) => 64,
            Definition::Primitive(Primitive::U128) => 128,
            Definition::Composite(fields) if fields.len() == 1 => self.bits(fields[0].ty),
            Definition::Tuple(members) if members.len() == 1 => self.bits(members[0]),
            _ => 0,
        }
    }

    fn put_primitive(&mut self, out: &mut Vec<u8>, primitive: Primitive) {
        let len = match primitive {
            Primitive::Bool => return out.push(self.random.below(2) as u8),
            Primitive::Char => return out.extend([self.random.letter(), 0, 0, 0]),
            Primitive::Str => return put_text(out, &mut self.random, 20),
            Primitive::U8 | Primitive::I8 => 1,
            Primitive::U16 | Primitive::I16 => 2,
            Primitive::U32 | Primitive::I32 => 4,
            Primitive::U64 | Primitive::I64 => 8,
            Primitive::U128 | Primitive::I128 => 16,
            Primitive::U256 | Primitive::I256 => 32,
        };
        (0..len).for_each(|_| out.push(self.random.next() as u8));
    }
}

/// A text of less than so many letters.
fn put_text(out: &mut Vec<u8>, random: &mut Random, limit: usize) {
    let len = random.below(limit);
    out.extend(compact(len as u128));
    out.extend((0..len).map(|_| random.letter()));
}

/// About how many bytes a long value has.
pub const LENGTH: usize = 300_000;

/// Sequences of the runtime's types: what they are called here, and their positions.
pub const RUNTIME: [(&str, u32); 7] = [
    ("events", 10),
    ("accounts", 5),
    ("exposures", 847),
    ("calls", 275),
    ("names", 849),
    ("u32s", 27),
    ("bytes", 32),
];

/// How many levels an element of a runtime's value has at most.
const LEVELS: usize = 12;

/// A sequence of the runtime's registry with this type, of about so many bytes.
pub fn sequence(types: &Rc<Types>, name: &str, ty: u32, bytes: usize) -> Sample {
    let Definition::Sequence(element) = types.registry[ty as usize].definition else {
        panic!("type {ty} is no sequence");
    };
    let mut maker = Maker::new(&types.registry, u64::from(ty));
    let value = list_of(bytes, |out| maker.put(out, element, LEVELS));
    Sample {
        name: name.into(),
        types: types.clone(),
        ty,
        value,
    }
}
