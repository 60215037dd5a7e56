//! What a call may take.

/// How deep a value may be, how many bytes it may have, and how much memory the library may use for
/// it.
///
/// The default is a depth of 64, 16777216 bytes, and [`Memory::ByInput`]: 64 MiB of memory and 64
/// times the length of the input.
///
/// # Examples
///
/// ```
/// # use scaleview::{Error, Limits, Registry};
/// # fn main() -> Result<(), Error> {
/// let registry = Registry::open(b"\x08\x00\x00\x00\x05\x03\x00\x04\x00\x00\x02\x00\x00")?;
/// let limits = Limits::new().depth(8).bytes(1 << 20).memory(1 << 24);
/// assert_eq!(registry.decode_json_within(1, b"\x08\x01\xff", limits)?, "\"0x01ff\"");
/// # Ok(())
/// # }
/// ```
#[derive(Clone, Copy, Debug, PartialEq, Eq, Hash)]
#[non_exhaustive]
pub struct Limits {
    /// The greatest depth of a part.
    pub depth: u16,
    /// The greatest number of a value's bytes.
    pub bytes: u64,
    /// The budget of memory.
    pub memory: Memory,
}

/// The most bytes that the library allocates at once for a value and its text.
///
/// What this crate keeps comes in addition: a text's bytes, or 32 bytes for each node of a value,
/// once for each type of the registry its names, and all names of metadata.
#[derive(Clone, Copy, Debug, Default, PartialEq, Eq, Hash)]
#[non_exhaustive]
pub enum Memory {
    /// 64 MiB and 64 times the length of the input.
    ///
    /// The input of a session is as long as its limit of bytes. That of an encoding has 32 bytes
    /// for each node, and the bytes of its texts, byte runs and bit sequences.
    ///
    /// A value of more than a mebibyte with three or more parts for each byte may exceed it.
    #[default]
    ByInput,
    /// So many bytes.
    AtMost(u64),
    /// No budget. A few bytes of untrusted input can then take gigabytes, since a value may have
    /// many parts of no bytes.
    Unbounded,
}

impl Limits {
    /// Returns the default limits.
    pub const fn new() -> Limits {
        Limits {
            depth: 64,
            bytes: 16_777_216,
            memory: Memory::ByInput,
        }
    }

    /// Sets the greatest depth of a part, up to 1024. The value itself has depth 0.
    ///
    /// To write JSON the library uses stack for each level. A thread of 128 KiB is enough for depth
    /// 64, and one of 1 MiB for depth 1024. This crate's own walks use none.
    #[must_use]
    pub const fn depth(self, depth: u16) -> Limits {
        Limits { depth, ..self }
    }

    /// Sets the greatest number of a value's bytes, up to 2^40.
    #[must_use]
    pub const fn bytes(self, bytes: u64) -> Limits {
        Limits { bytes, ..self }
    }

    /// Sets the budget to [`Memory::AtMost`] so many bytes, or to [`Memory::Unbounded`] for 0.
    #[must_use]
    pub const fn memory(self, memory: u64) -> Limits {
        let memory = match memory {
            0 => Memory::Unbounded,
            most => Memory::AtMost(most),
        };
        Limits { memory, ..self }
    }

    /// Sets the budget to [`Memory::Unbounded`].
    #[must_use]
    pub const fn unbounded_memory(self) -> Limits {
        Limits {
            memory: Memory::Unbounded,
            ..self
        }
    }

    /// Returns the library's number for the budget of an input of this length.
    pub(crate) fn budget(self, length: u64) -> u64 {
        match self.memory {
            Memory::ByInput => length.saturating_mul(64).saturating_add(64 << 20),
            // The library takes 0 for no budget.
            Memory::AtMost(most) => most.max(1),
            Memory::Unbounded => 0,
        }
    }
}

impl Default for Limits {
    fn default() -> Limits {
        Limits::new()
    }
}
