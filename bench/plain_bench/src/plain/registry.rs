//! A registry of types, and its reader.

use super::input::Input;
use super::{Fault, Reason, refuse};

#[derive(Clone, Copy, Debug, PartialEq, Eq)]
pub enum Primitive {
    Bool,
    Char,
    Str,
    U8,
    U16,
    U32,
    U64,
    U128,
    U256,
    I8,
    I16,
    I32,
    I64,
    I128,
    I256,
}

impl Primitive {
    /// By the byte that says which it is.
    const ALL: [Primitive; 15] = [
        Primitive::Bool,
        Primitive::Char,
        Primitive::Str,
        Primitive::U8,
        Primitive::U16,
        Primitive::U32,
        Primitive::U64,
        Primitive::U128,
        Primitive::U256,
        Primitive::I8,
        Primitive::I16,
        Primitive::I32,
        Primitive::I64,
        Primitive::I128,
        Primitive::I256,
    ];
}

pub struct Field {
    pub name: Option<String>,
    pub ty: u32,
    pub type_name: Option<String>,
    pub docs: Vec<String>,
}

pub struct Arm {
    pub name: String,
    pub fields: Vec<Field>,
    pub index: u8,
    pub docs: Vec<String>,
}

pub enum Definition {
    Composite(Vec<Field>),
    Variant(Vec<Arm>),
    Sequence(u32),
    Array(u32, u32),
    Tuple(Vec<u32>),
    Primitive(Primitive),
    Compact(u32),
    BitSequence(u32, u32),
}

pub struct Type {
    pub path: Vec<String>,
    pub parameters: Vec<(String, Option<u32>)>,
    pub definition: Definition,
    pub docs: Vec<String>,
}

/// The types by their positions.
pub type Registry = Vec<Type>;

#[inline]
fn list<'b, T>(
    input: &mut Input<'b>,
    mut one: impl FnMut(&mut Input<'b>) -> Result<T, Fault>,
) -> Result<Vec<T>, Fault> {
    let count = input.short_compact()? as usize;
    let mut all = Vec::with_capacity(count.min(input.left()).min(1024));
    for _ in 0..count {
        all.push(one(input)?);
    }
    Ok(all)
}

#[inline]
fn option<'b, T>(
    input: &mut Input<'b>,
    one: impl FnOnce(&mut Input<'b>) -> Result<T, Fault>,
) -> Result<Option<T>, Fault> {
    match input.byte()? {
        0 => Ok(None),
        1 => one(input).map(Some),
        _ => refuse(Reason::BadOption, input.at() - 1),
    }
}

fn text(input: &mut Input) -> Result<String, Fault> {
    input.text().map(String::from)
}

fn field(input: &mut Input) -> Result<Field, Fault> {
    Ok(Field {
        name: option(input, text)?,
        ty: input.short_compact()?,
        type_name: option(input, text)?,
        docs: list(input, text)?,
    })
}

fn arm(input: &mut Input) -> Result<Arm, Fault> {
    Ok(Arm {
        name: text(input)?,
        fields: list(input, field)?,
        index: input.byte()?,
        docs: list(input, text)?,
    })
}

fn primitive(input: &mut Input) -> Result<Primitive, Fault> {
    match Primitive::ALL.get(usize::from(input.byte()?)) {
        Some(primitive) => Ok(*primitive),
        None => refuse(Reason::BadPrimitive, input.at() - 1),
    }
}

fn definition(input: &mut Input) -> Result<Definition, Fault> {
    Ok(match input.byte()? {
        0 => Definition::Composite(list(input, field)?),
        1 => Definition::Variant(list(input, arm)?),
        2 => Definition::Sequence(input.short_compact()?),
        3 => Definition::Array(u32::from_le_bytes(input.array()?), input.short_compact()?),
        4 => Definition::Tuple(list(input, Input::short_compact)?),
        5 => Definition::Primitive(primitive(input)?),
        6 => Definition::Compact(input.short_compact()?),
        7 => Definition::BitSequence(input.short_compact()?, input.short_compact()?),
        _ => return refuse(Reason::BadDefinition, input.at() - 1),
    })
}

fn parameter(input: &mut Input) -> Result<(String, Option<u32>), Fault> {
    Ok((text(input)?, option(input, Input::short_compact)?))
}

/// The registry on the front, and how many bytes it took.
pub fn read(bytes: &[u8]) -> Result<(Registry, usize), Fault> {
    let mut input = Input::new(bytes);
    let mut next = 0;
    let types = list(&mut input, |input| {
        let at = input.at();
        if input.short_compact()? != next {
            return refuse(Reason::IdOutOfPlace, at);
        }
        next += 1;
        Ok(Type {
            path: list(input, text)?,
            parameters: list(input, parameter)?,
            definition: definition(input)?,
            docs: list(input, text)?,
        })
    })?;
    Ok((types, input.at()))
}
