//! Memory that calls write to. Nothing here aborts if an allocation fails.

use crate::error::Error;
use scaleview_sys::{
    SCALEVIEW_MEMORY as MEMORY, SCALEVIEW_NO_ROOM as NO_ROOM, SCALEVIEW_OK as OK,
    scaleview_answer as Answer, scaleview_node as Node,
};
use std::fmt::{self, Write};
use std::str;

/// The answer of a call for which an allocation of this crate failed.
fn no_memory() -> Answer {
    Answer {
        code: MEMORY,
        ..Answer::default()
    }
}

/// Returns an empty vector with this capacity.
pub(crate) fn reserved<T>(count: usize) -> Result<Vec<T>, Error> {
    let mut vector = Vec::new();
    vector.try_reserve_exact(count).map_err(|_| Error::Memory)?;
    Ok(vector)
}

/// Appends an element.
pub(crate) fn push<T>(vector: &mut Vec<T>, element: T) -> Result<(), Error> {
    vector.try_reserve(1).map_err(|_| Error::Memory)?;
    vector.push(element);
    Ok(())
}

/// Returns two texts in one.
pub(crate) fn joined(one: &str, other: &str) -> Result<String, Error> {
    let mut whole = String::new();
    whole
        .try_reserve_exact(one.len().saturating_add(other.len()))
        .map_err(|_| Error::Memory)?;
    whole.push_str(one);
    whole.push_str(other);
    Ok(whole)
}

/// Appends bytes.
pub(crate) fn extend(vector: &mut Vec<u8>, bytes: &[u8]) -> Result<(), Error> {
    vector.try_reserve(bytes.len()).map_err(|_| Error::Memory)?;
    vector.extend_from_slice(bytes);
    Ok(())
}

/// Text that is written without an abort if an allocation fails.
#[derive(Default)]
pub(crate) struct Text(Vec<u8>);

impl Text {
    /// Returns whether nothing was written.
    pub fn is_empty(&self) -> bool {
        self.0.is_empty()
    }

    /// Returns what was written.
    pub fn into_string(self) -> Result<String, Error> {
        // Whole texts were written.
        String::from_utf8(self.0).map_err(|_| Error::Memory)
    }
}

impl fmt::Write for Text {
    fn write_str(&mut self, text: &str) -> fmt::Result {
        extend(&mut self.0, text.as_bytes()).map_err(|_| fmt::Error)
    }
}

/// Writes a text with the width and the precision of the formatter.
pub(crate) fn pad(f: &mut fmt::Formatter<'_>, text: fmt::Arguments<'_>) -> fmt::Result {
    // Most texts have neither, and are written without memory.
    if f.width().is_none() && f.precision().is_none() {
        return f.write_fmt(text);
    }
    let mut whole = Text::default();
    whole.write_fmt(text)?;
    f.pad(str::from_utf8(&whole.0).map_err(|_| fmt::Error)?)
}

/// Replaces a vector that is less than half full by one without spare capacity, if there is memory
/// for that.
fn tight<T: Copy>(vector: Vec<T>) -> Vec<T> {
    if vector.capacity() / 2 <= vector.len() {
        return vector;
    }
    match reserved(vector.len()) {
        Ok(mut exact) => {
            exact.extend_from_slice(&vector);
            exact
        }
        Err(_) => vector,
    }
}

/// Returns an empty vector for the number of elements that a call asked for.
fn more<T>(wanted: u64) -> Result<Vec<T>, Answer> {
    let wanted = usize::try_from(wanted).map_err(|_| no_memory())?;
    reserved(wanted).map_err(|_| no_memory())
}

/// Returns the number of elements that a call wrote, unless it exceeds the capacity.
fn written(length: u64, capacity: usize, answer: Answer) -> Result<usize, Answer> {
    usize::try_from(length)
        .ok()
        .filter(|length| *length <= capacity)
        .ok_or(answer)
}

/// Returns the bytes that a call writes. It is called again with more room if `guess` was too
/// little.
///
/// # Errors
/// The call's answer, or `MEMORY`.
///
/// # Safety
/// The call writes at most as many bytes as it is given, and as many as its answer's `length` if it
/// returns `OK`.
pub(crate) unsafe fn bytes(
    guess: usize,
    mut call: impl FnMut(*mut u8, usize, &mut Answer) -> u32,
) -> Result<Vec<u8>, Answer> {
    let mut out: Vec<u8> = reserved(guess).unwrap_or_default();
    loop {
        let mut answer = Answer::default();
        match call(out.as_mut_ptr(), out.capacity(), &mut answer) {
            OK => {
                let length = written(answer.length, out.capacity(), answer)?;
                // SAFETY: the call wrote so many bytes, as the caller promises.
                unsafe { out.set_len(length) };
                return Ok(tight(out));
            }
            NO_ROOM if answer.length > out.capacity() as u64 => out = more(answer.length)?,
            _ => return Err(answer),
        }
    }
}

/// Returns the text that a call writes.
///
/// # Errors
/// The call's answer, or `MEMORY`.
///
/// # Safety
/// As [`bytes`].
pub(crate) unsafe fn text(
    guess: usize,
    call: impl FnMut(*mut u8, usize, &mut Answer) -> u32,
) -> Result<String, Answer> {
    // SAFETY: the caller promises the same.
    let bytes = unsafe { bytes(guess, call) }?;
    // The header promises UTF-8.
    String::from_utf8(bytes).map_err(|_| Answer::default())
}

/// Returns the nodes and the pool that a call writes. It is called again with more room if a guess
/// was too little.
///
/// # Errors
/// The call's answer, or `MEMORY`.
///
/// # Safety
/// The call writes at most as many nodes and bytes as it is given, and if it returns `OK` as many
/// nodes as its answer's `length` and as many bytes as its `at`.
pub(crate) unsafe fn nodes(
    guess: (usize, usize),
    mut call: impl FnMut(*mut Node, usize, *mut u8, usize, &mut Answer) -> u32,
) -> Result<(Vec<Node>, Vec<u8>), Answer> {
    let mut nodes: Vec<Node> = reserved(guess.0).unwrap_or_default();
    let mut pool: Vec<u8> = reserved(guess.1).unwrap_or_default();
    loop {
        let mut answer = Answer::default();
        match call(
            nodes.as_mut_ptr(),
            nodes.capacity(),
            pool.as_mut_ptr(),
            pool.capacity(),
            &mut answer,
        ) {
            OK => {
                let count = written(answer.length, nodes.capacity(), answer)?;
                let length = written(answer.at, pool.capacity(), answer)?;
                // SAFETY: the call wrote so many nodes and bytes, as the caller promises.
                unsafe {
                    nodes.set_len(count);
                    pool.set_len(length);
                }
                return Ok((tight(nodes), tight(pool)));
            }
            NO_ROOM
                if answer.length > nodes.capacity() as u64
                    || answer.at > pool.capacity() as u64 =>
            {
                nodes = more(answer.length)?;
                pool = more(answer.at)?;
            }
            _ => return Err(answer),
        }
    }
}
