//! The names of metadata, as they are looked up.

use crate::buffer;
use crate::describe;
use crate::error::Error;
use crate::registry::Registry;
use crate::type_id::TypeId;
use scaleview_sys::{self as sys, scaleview_answer as Answer};
use std::hash::{BuildHasher, Hasher, RandomState};

/// A name with its type.
pub(crate) struct Entry {
    pub name: String,
    pub type_id: TypeId,
    pub has_bytes: bool,
}

impl Entry {
    fn has_name(&self, word: &str, path: &str) -> bool {
        self.name.strip_prefix(word) == Some(path)
    }
}

/// The names of metadata.
// The library looks through all of them for each name, and a table of hashes needn't.
pub(crate) struct Index {
    /// In the order of the metadata.
    pub entries: Vec<Entry>,
    /// The positions of the entries, each in the slot of its hash or in the next free one after it.
    /// There are more slots than entries, and their number is a power of two.
    slots: Vec<Option<u32>>,
    seed: u64,
}

impl Index {
    /// Reads the names of a registry.
    pub fn of(registry: &Registry) -> Result<Index, Error> {
        let mut entries = Vec::new();
        while let Some(entry) = read(registry, entries.len() as u32)? {
            buffer::push(&mut entries, entry)?;
        }
        let count = (2 * entries.len() + 1).next_power_of_two();
        let mut slots = buffer::reserved(count)?;
        slots.resize(count, None);
        let mut index = Index {
            entries,
            slots,
            // Who writes metadata doesn't know it, and can't give many names one hash.
            seed: RandomState::new().build_hasher().finish(),
        };
        index.fill();
        Ok(index)
    }

    fn fill(&mut self) {
        for (position, entry) in (0..).zip(&self.entries) {
            let (word, path) = split(&entry.name);
            let mut slot = hash(self.seed, word, path) as usize;
            let last = self.slots.len() - 1;
            while let Some(Some(_)) = self.slots.get(slot & last) {
                slot = slot.wrapping_add(1);
            }
            if let Some(free) = self.slots.get_mut(slot & last) {
                *free = Some(position);
            }
        }
    }

    /// Returns the entry of a name as a whole.
    pub fn find_whole(&self, name: &str) -> Option<&Entry> {
        let (word, path) = split(name);
        self.find(word, path)
    }

    /// Returns the entry of a word with its colon, and of what follows it.
    #[inline]
    pub fn find(&self, word: &str, path: &str) -> Option<&Entry> {
        let last = self.slots.len() - 1;
        let mut slot = hash(self.seed, word, path) as usize;
        loop {
            let position = (*self.slots.get(slot & last)?)?;
            let entry = self.entries.get(position as usize)?;
            if entry.has_name(word, path) {
                return Some(entry);
            }
            slot = slot.wrapping_add(1);
        }
    }
}

/// Returns a name's word with its colon, which some have, and what follows it.
fn split(name: &str) -> (&str, &str) {
    let colon = name.find(':').map_or(0, |colon| colon + 1);
    name.split_at_checked(colon).unwrap_or((name, ""))
}

/// Returns the hash of a word and of what follows it.
#[inline]
fn hash(seed: u64, word: &str, path: &str) -> u64 {
    let start = seed ^ last_eight(word.as_bytes());
    let eights = path.as_bytes().chunks_exact(8).map(last_eight);
    mix(eights.fold(start, mix), last_eight(path.as_bytes()))
}

/// Returns the last eight bytes as a number.
#[inline]
fn last_eight(bytes: &[u8]) -> u64 {
    match bytes.last_chunk() {
        Some(eight) => u64::from_le_bytes(*eight),
        None => bytes
            .iter()
            .fold(0, |number, byte| number << 8 | u64::from(*byte)),
    }
}

/// Mixes eight bytes into a hash.
fn mix(hash: u64, eight: u64) -> u64 {
    // The fraction of the golden ratio: its bits have no pattern.
    const GOLDEN: u64 = 0x9e37_79b9_7f4a_7c15;
    let product = u128::from(hash ^ eight) * u128::from(GOLDEN);
    (product >> 64) as u64 ^ product as u64
}

/// Reads the name at this position, unless there are no more.
fn read(registry: &Registry, position: u32) -> Result<Option<Entry>, Error> {
    let mut is_end = false;
    let call = |out, room, answer: &mut Answer| {
        // SAFETY: the registry is open; the places are `named`'s.
        let code = registry.reading(|handle| unsafe {
            sys::scaleview_name_at(handle, position, out, room, answer)
        });
        is_end = code == sys::SCALEVIEW_UNKNOWN_NAME;
        code
    };
    let named = describe::named(call);
    if is_end {
        return Ok(None);
    }
    let (name, answer) = named?;
    Ok(Some(Entry {
        name,
        type_id: TypeId::new(answer.from),
        has_bytes: answer.at == 1,
    }))
}
