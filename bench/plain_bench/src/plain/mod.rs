//! What a plain and quick decoder in Rust does. Nothing here is proved, and nothing here says what a correct answer is.
//!
//! `read` reads a registry, `analyse` finds what its types are by one worklist, `Plan::new` makes a table for decoding, `decode` a
//! tree whose names are lent from that table, and `print` the tree's JSON.

mod analysis;
mod input;
mod json;
mod plan;
#[expect(
    dead_code,
    reason = "a reader that keeps all texts is what the proved one is compared with"
)]
mod registry;
mod tree;

pub use analysis::analyse;
pub use json::print;
pub use plan::Plan;
pub use registry::{Definition, Field, Primitive, Registry, read};
pub use tree::{Value, decode};

/// Why bytes are refused.
#[derive(Clone, Copy, Debug, PartialEq, Eq)]
pub enum Reason {
    Truncated,
    BadBool,
    BadChar,
    BadUtf8,
    CompactNotShortest,
    CompactTooLarge,
    NoSuchVariant,
    TooDeep,
    NoFiniteValue,
    BitSequence,
    BadCompact,
    BadOption,
    BadDefinition,
    BadPrimitive,
    IdOutOfPlace,
    UnknownType,
}

/// A refusal with its place in the input.
#[derive(Clone, Copy, Debug, PartialEq, Eq)]
pub struct Fault {
    pub reason: Reason,
    pub at: usize,
}

#[cold]
fn refuse<T>(reason: Reason, at: usize) -> Result<T, Fault> {
    Err(Fault { reason, at })
}

/// Which integer a compact one is made of.
#[derive(Clone, Copy, Debug, PartialEq, Eq)]
pub enum Target {
    Unit,
    U8,
    U16,
    U32,
    U64,
    U128,
}

impl Target {
    pub fn bytes(self) -> usize {
        match self {
            Target::Unit => 0,
            Target::U8 => 1,
            Target::U16 => 2,
            Target::U32 => 4,
            Target::U64 => 8,
            Target::U128 => 16,
        }
    }

    fn greatest(self) -> u128 {
        match self {
            Target::Unit => 0,
            Target::U128 => u128::MAX,
            other => (1 << (8 * other.bytes())) - 1,
        }
    }
}
