//! A value as a tree, whose names are lent from the plan.

use super::input::Input;
use super::plan::{ArmPlan, Parts, Plan, Step};
use super::registry::Primitive;
use super::{Fault, Reason, Target, refuse};

pub enum Value<'p> {
    Empty,
    Bool(bool),
    Char(char),
    Text(String),
    Unsigned(u64),
    Unsigned128(u128),
    Signed(i64),
    Signed128(i128),
    /// An integer of 256 bits, its lowest byte first.
    Wide(Box<[u8; 32]>),
    Parts(&'p Parts, Vec<Value<'p>>),
    Arm(&'p ArmPlan, Vec<Value<'p>>),
    List(Vec<Value<'p>>),
    Count(u32),
    Bytes(Vec<u8>),
}

impl Value<'_> {
    /// How many nodes the tree has.
    pub fn nodes(&self) -> u64 {
        match self {
            Value::Parts(_, parts) | Value::Arm(_, parts) | Value::List(parts) => {
                1 + parts.iter().map(Value::nodes).sum::<u64>()
            }
            _ => 1,
        }
    }
}

struct Decoder<'p, 'b> {
    plan: &'p Plan,
    input: Input<'b>,
}

impl<'p> Decoder<'p, '_> {
    /// The next value, which may have so many levels below it.
    fn value(&mut self, ty: u32, levels: u16) -> Result<Value<'p>, Fault> {
        let input = &mut self.input;
        Ok(match &self.plan.steps[ty as usize] {
            Step::Empty => Value::Empty,
            Step::Primitive(primitive) => return self.primitive(*primitive),
            Step::Compact(Target::U128) => Value::Unsigned128(input.compact(Target::U128)?),
            Step::Compact(target) => Value::Unsigned(input.compact(*target)? as u64),
            Step::Parts(parts) => Value::Parts(parts, self.parts(parts, levels)?),
            Step::Arms(places, arms) => {
                match arms.get(usize::from(places[usize::from(input.byte()?)])) {
                    Some(arm) => Value::Arm(arm, self.parts(&arm.parts, levels)?),
                    None => return refuse(Reason::NoSuchVariant, input.at() - 1),
                }
            }
            Step::Count => Value::Count(input.short_compact()?),
            Step::Bytes => {
                let len = input.short_compact()?;
                Value::Bytes(input.slice(len as usize)?.to_vec())
            }
            Step::ByteArray(len) => Value::Bytes(input.slice(*len as usize)?.to_vec()),
            Step::Sequence(element) => {
                let count = input.short_compact()?;
                Value::List(self.list(*element, count, levels)?)
            }
            Step::Array(count, element) => Value::List(self.list(*element, *count, levels)?),
            Step::NoValue => return refuse(Reason::NoFiniteValue, input.at()),
            Step::BitSequence => return refuse(Reason::BitSequence, input.at()),
            Step::BadCompact => return refuse(Reason::BadCompact, input.at()),
        })
    }

    #[inline]
    fn primitive(&mut self, primitive: Primitive) -> Result<Value<'p>, Fault> {
        let input = &mut self.input;
        Ok(match primitive {
            Primitive::Bool => Value::Bool(input.bool()?),
            Primitive::Char => Value::Char(input.char()?),
            Primitive::Str => Value::Text(input.text()?.to_string()),
            Primitive::U8 => Value::Unsigned(u64::from(input.byte()?)),
            Primitive::U16 => Value::Unsigned(u64::from(u16::from_le_bytes(input.array()?))),
            Primitive::U32 => Value::Unsigned(u64::from(u32::from_le_bytes(input.array()?))),
            Primitive::U64 => Value::Unsigned(u64::from_le_bytes(input.array()?)),
            Primitive::U128 => Value::Unsigned128(u128::from_le_bytes(input.array()?)),
            Primitive::I8 => Value::Signed(i64::from(i8::from_le_bytes(input.array()?))),
            Primitive::I16 => Value::Signed(i64::from(i16::from_le_bytes(input.array()?))),
            Primitive::I32 => Value::Signed(i64::from(i32::from_le_bytes(input.array()?))),
            Primitive::I64 => Value::Signed(i64::from_le_bytes(input.array()?)),
            Primitive::I128 => Value::Signed128(i128::from_le_bytes(input.array()?)),
            Primitive::U256 | Primitive::I256 => Value::Wide(Box::new(input.array()?)),
        })
    }

    #[inline]
    fn parts(&mut self, parts: &'p Parts, levels: u16) -> Result<Vec<Value<'p>>, Fault> {
        if parts.types.is_empty() {
            return Ok(Vec::new());
        }
        if levels == 0 {
            return refuse(Reason::TooDeep, self.input.at());
        }
        let mut values = Vec::with_capacity(parts.types.len());
        for ty in &parts.types {
            values.push(self.value(*ty, levels - 1)?);
        }
        Ok(values)
    }

    #[inline]
    fn list(&mut self, element: u32, count: u32, levels: u16) -> Result<Vec<Value<'p>>, Fault> {
        if count == 0 {
            return Ok(Vec::new());
        }
        if levels == 0 {
            return refuse(Reason::TooDeep, self.input.at());
        }
        let mut values = Vec::with_capacity((count as usize).min(self.input.left()).min(4096));
        for _ in 0..count {
            values.push(self.value(element, levels - 1)?);
        }
        Ok(values)
    }
}

/// The value on the front, which may be as deep as this, and how many bytes it took.
pub fn decode<'p>(
    plan: &'p Plan,
    ty: u32,
    bytes: &[u8],
    depth: u16,
) -> Result<(Value<'p>, usize), Fault> {
    let mut decoder = Decoder {
        plan,
        input: Input::new(bytes),
    };
    let value = decoder.value(ty, depth)?;
    Ok((value, decoder.input.at()))
}
