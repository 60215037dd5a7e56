//! A registry that is open.

use crate::buffer;
use crate::describe::{Details, Reader};
use crate::error::{Error, ValueReason};
use crate::item::{Item, Source};
use crate::limits::Limits;
use crate::lower::lower;
use crate::options::OpenOptions;
use crate::session::{OwnedSession, Progress, Session};
use crate::type_id::TypeId;
use crate::types::{Primitive, Type, Types};
use crate::value::{AnyValue, OwnedValue, Value};
use scaleview_sys::{
    self as sys, scaleview_answer as Answer, scaleview_node as Node, scaleview_registry as Handle,
};
use std::fmt;
use std::sync::atomic::{AtomicU8, Ordering};
use std::sync::{Arc, OnceLock};

/// The library's handle of an open registry.
struct Raw(Handle);

// SAFETY: "A handle may be used on any thread", says the header, and "any number of threads may make
// calls on one registry at the same time, and start and free sessions of it". "Only during
// scaleview_close no other call may run on the registry", which is made in `drop`, where nothing
// else has the registry.
unsafe impl Send for Raw {}
// SAFETY: as above.
unsafe impl Sync for Raw {}

/// What was read of a type.
#[derive(Default)]
struct Slot {
    /// A vector of one, since only a vector's memory is asked for without an abort.
    details: OnceLock<Vec<Details>>,
    /// One more than the number of the primitive that the type wraps, or 0 if it isn't known yet.
    target: AtomicU8,
}

/// A registry of types that is open. It is freed when it is dropped.
///
/// It may be shared by threads. Calls on it and on different sessions run at the same time.
///
/// # Examples
///
/// ```
/// # use scaleview::{Error, Registry};
/// # fn main() -> Result<(), Error> {
/// let registry = Registry::open(b"\x04\x00\x00\x00\x05\x03\x00")?;
/// std::thread::scope(|scope| {
///     for byte in 0..4 {
///         let registry = &registry;
///         scope.spawn(move || assert_eq!(registry.decode_json(0, &[byte]), Ok(byte.to_string())));
///     }
/// });
/// # Ok(())
/// # }
/// ```
///
/// No session outlives it:
///
/// ```compile_fail,E0505
/// let registry = scaleview::Registry::open(b"\x04\x00\x00\x00\x05\x03\x00").unwrap();
/// let session = registry.start(0, Default::default()).unwrap();
/// drop(registry);
/// drop(session);
/// ```
pub struct Registry {
    raw: Raw,
    slots: Vec<Slot>,
    len: u32,
    end: u64,
    version: u32,
}

/// The length from which on a value is decoded in a session, in bytes.
// A shorter value for which the first guess is enough would be decoded more slowly in a session.
const LARGE: usize = 1 << 18;

impl Registry {
    /// Opens a registry with these flags of [`scaleview_open`](sys::scaleview_open).
    pub(crate) fn opened(bytes: &[u8], flags: u32) -> Result<Registry, Error> {
        let found = sys::scaleview_version();
        if found / 100 != sys::SCALEVIEW_VERSION / 100 {
            return Err(Error::Version { found });
        }
        let (mut handle, mut answer) = (
            Handle {
                inside: std::ptr::null_mut(),
            },
            Answer::default(),
        );
        // SAFETY: the slice and both places are this call's, and the handle is null.
        let code = unsafe {
            sys::scaleview_open(bytes.as_ptr(), bytes.len(), flags, &mut handle, &mut answer)
        };
        if code != sys::SCALEVIEW_OK {
            return Err(Error::of_opening(answer));
        }
        let len = answer.length as u32;
        let mut registry = Registry {
            raw: Raw(handle),
            slots: Vec::new(),
            len,
            end: answer.at,
            version: answer.from,
        };
        registry.slots = buffer::reserved(len as usize)?;
        registry.slots.resize_with(len as usize, Slot::default);
        Ok(registry)
    }

    /// Opens the registry that all the bytes hold: a chain's metadata, version 14 or 15, if they
    /// begin with the four letters `meta`, and otherwise a registry alone. What follows the
    /// registry in metadata is not read, as it is by [`Metadata::open`](crate::Metadata::open). The
    /// bytes are not kept.
    ///
    /// Values of bit sequences are rejected, unless the registry is opened with
    /// [`OpenOptions::bits`].
    ///
    /// # Errors
    /// `Registry` at the first error, `UnknownReference` if a type refers to one that doesn't
    /// exist, `Memory`, `Version`.
    ///
    /// # Examples
    ///
    /// ```
    /// # use scaleview::{Error, Registry, RegistryReason};
    /// # fn main() -> Result<(), Error> {
    /// // One type, u32.
    /// let bytes = b"\x04\x00\x00\x00\x05\x05\x00";
    /// let registry = Registry::open(bytes)?;
    /// assert_eq!((registry.len(), registry.version()), (1, None));
    ///
    /// let metadata = [b"meta\x0e".as_slice(), bytes].concat();
    /// assert_eq!(Registry::open(&metadata)?.version(), Some(14));
    ///
    /// let error = Registry::open(b"\x04\x00").unwrap_err();
    /// let reason = RegistryReason::Truncated;
    /// assert_eq!(error, Error::Registry { reason, place: 2 });
    /// # Ok(())
    /// # }
    /// ```
    pub fn open(bytes: &[u8]) -> Result<Registry, Error> {
        OpenOptions::new().open(bytes)
    }

    /// Opens a registry alone, whatever the bytes begin with.
    ///
    /// # Errors
    /// As [`open`](Registry::open).
    pub fn open_raw(bytes: &[u8]) -> Result<Registry, Error> {
        OpenOptions::new().open_raw(bytes)
    }

    /// Opens the registry of a chain's metadata; other bytes are rejected with `NotMetadata`.
    ///
    /// # Errors
    /// As [`open`](Registry::open).
    pub fn open_metadata(bytes: &[u8]) -> Result<Registry, Error> {
        OpenOptions::new().open_metadata(bytes)
    }

    /// Makes a call on the registry; others may run at the same time.
    pub(crate) fn reading<T>(&self, call: impl FnOnce(Handle) -> T) -> T {
        call(self.raw.0)
    }

    /// Returns the version of the metadata, or `None` for a registry alone.
    pub fn version(&self) -> Option<u32> {
        (self.version != 0).then_some(self.version)
    }

    /// Returns where the registry's own types end, in bytes from the start of the input.
    pub fn end(&self) -> u64 {
        self.end
    }

    /// Returns the number of types; their positions are below that. The synthetic types of
    /// [`Metadata`](crate::Metadata) count.
    pub fn len(&self) -> u32 {
        self.len
    }

    /// Returns whether it has no types.
    pub fn is_empty(&self) -> bool {
        self.len == 0
    }

    /// Returns the type at this position.
    pub fn get(&self, id: impl Into<TypeId>) -> Option<Type<'_>> {
        let id = id.into();
        // SAFETY: the registry is open.
        let shape = self
            .reading(|handle| unsafe { Reader::new(handle) }.shape(id))
            .ok()?;
        Some(Type {
            registry: self,
            id,
            shape,
        })
    }

    /// Returns the types, in the order of their positions.
    pub fn types(&self) -> Types<'_> {
        Types {
            registry: self,
            rest: 0..self.len,
        }
    }

    /// Returns the first type with this path, its segments joined by `::`. An empty path finds the
    /// first type without one.
    pub fn find(&self, path: &str) -> Option<TypeId> {
        self.find_from(0, path)
    }

    /// Returns the first type with this path, from the position `from` on. A path need not be one
    /// type's alone.
    pub fn find_from(&self, from: impl Into<TypeId>, path: &str) -> Option<TypeId> {
        let from = from.into().get();
        let mut answer = Answer::default();
        let code = self.reading(|handle| {
            // SAFETY: the registry is open; the slice and the place are this
            // call's.
            unsafe { sys::scaleview_find(handle, from, path.as_ptr(), path.len(), &mut answer) }
        });
        if code == sys::SCALEVIEW_OK {
            u32::try_from(answer.at).ok().map(TypeId::new)
        } else {
            None
        }
    }

    /// Returns the type's position, class, kind and path, and a line feed, as the command prints
    /// them.
    ///
    /// # Errors
    /// `UnknownType`, `Memory`.
    pub fn type_line(&self, id: impl Into<TypeId>) -> Result<String, Error> {
        let id = id.into();
        let call = |out, room, answer: &mut Answer| {
            // SAFETY: the registry is open; the places are this call's.
            self.reading(|handle| unsafe {
                sys::scaleview_type_line(handle, id.get(), out, room, answer)
            })
        };
        // SAFETY: the header promises what `text` wants.
        unsafe { buffer::text(128, call) }.map_err(Error::of_type(id))
    }

    /// Returns what the registry says of a type, which is read once and kept.
    pub(crate) fn details(&self, id: TypeId) -> Result<&Details, Error> {
        let slot = self
            .slots
            .get(id.index())
            .ok_or(Error::UnknownType { id })?;
        if slot.details.get().is_none() {
            // SAFETY: the registry is open.
            let details = self.reading(|handle| unsafe { Reader::new(handle) }.details(id))?;
            let mut one = buffer::reserved(1)?;
            one.push(details);
            // Another thread may have read the same meanwhile.
            let _ = slot.details.set(one);
        }
        slot.details
            .get()
            .and_then(|one| one.first())
            .ok_or(Error::Memory)
    }

    /// Reads what the registry says of the types of composites, variants and bit sequences among
    /// these nodes, so that no later walk has to.
    // It is no part of a generic function, which another crate would compile without `details`.
    pub(crate) fn read_names(&self, nodes: &[Node]) -> Result<(), Error> {
        for node in nodes {
            if matches!(
                node.kind,
                sys::SCALEVIEW_NODE_FIELDS | sys::SCALEVIEW_NODE_ARM | sys::SCALEVIEW_NODE_BITS
            ) {
                self.details(TypeId::new(node.r#type))?;
            }
        }
        Ok(())
    }

    /// Returns the next type inside one that wraps one value, the primitive, or neither.
    fn inside(&self, reader: Reader, id: TypeId) -> Result<TypeId, Option<Primitive>> {
        let known = self
            .slots
            .get(id.index())
            .map_or(0, |slot| slot.target.load(Ordering::Relaxed));
        if known != 0 {
            return Err(Primitive::of(u32::from(known) - 1));
        }
        let shape = reader.shape(id).map_err(|_| None)?;
        match shape.kind {
            sys::SCALEVIEW_PRIMITIVE => Err(Primitive::of(shape.primitive)),
            sys::SCALEVIEW_COMPACT => Ok(TypeId::new(shape.element)),
            sys::SCALEVIEW_COMPOSITE | sys::SCALEVIEW_TUPLE if shape.parts == 1 => {
                reader.first_part(id).ok_or(None)
            }
            _ => Err(None),
        }
    }

    /// Returns the primitive that the type is or wraps, as a compact does.
    pub(crate) fn target(&self, id: TypeId) -> Option<Primitive> {
        self.reading(|handle| {
            // SAFETY: the registry is open.
            let reader = unsafe { Reader::new(handle) };
            let mut at = id;
            // Types may wrap one another in a circle.
            let found = (0..=self.len).find_map(|_| match self.inside(reader, at) {
                Ok(next) => {
                    at = next;
                    None
                }
                Err(end) => Some(end),
            })??;
            // Those on the way have the same, and need not go it again.
            let mut at = id;
            while let Ok(next) = self.inside(reader, at) {
                self.learn(at, found);
                at = next;
            }
            self.learn(at, found);
            Some(found)
        })
    }

    fn learn(&self, id: TypeId, target: Primitive) {
        if let Some(slot) = self.slots.get(id.index()) {
            slot.target.store(target as u8 + 1, Ordering::Relaxed);
        }
    }

    /// Decodes the value, of the type at this position, that all the bytes spell, within the
    /// default limits. They bound the library's memory by 64 MiB and 64 times the length of
    /// `bytes`, and [`Limits::unbounded_memory`] lifts that.
    ///
    /// # Errors
    /// `UnknownType`, `Value` with the reason and the place, `Memory`.
    ///
    /// # Examples
    ///
    /// ```
    /// # use scaleview::{Error, Registry, ValueReason};
    /// # fn main() -> Result<(), Error> {
    /// let registry = Registry::open(b"\x04\x00\x00\x00\x05\x05\x00")?;
    /// let value = registry.decode(0, b"\x2a\x00\x00\x00")?;
    /// assert_eq!(value.as_u128(), Some(42));
    ///
    /// let error = registry.decode(0, b"\x2a\x00\x00\x00\xff").unwrap_err();
    /// let reason = ValueReason::TrailingBytes;
    /// assert_eq!(error, Error::Value { reason, place: 4 });
    /// # Ok(())
    /// # }
    /// ```
    pub fn decode(&self, id: impl Into<TypeId>, bytes: &[u8]) -> Result<Value<'_>, Error> {
        self.decode_within(id, bytes, Limits::new())
    }

    /// Decodes a value as [`decode`](Registry::decode) does, within these limits.
    ///
    /// # Errors
    /// As [`decode`](Registry::decode), and `LimitOutOfRange`.
    pub fn decode_within(
        &self,
        id: impl Into<TypeId>,
        bytes: &[u8],
        limits: Limits,
    ) -> Result<Value<'_>, Error> {
        self.value_of(id.into(), bytes, limits)
    }

    // It isn't generic, so it is compiled in this crate, beside what it calls.
    fn value_of(&self, id: TypeId, bytes: &[u8], limits: Limits) -> Result<Value<'_>, Error> {
        AnyValue::decoded(self, id, bytes, limits)
    }

    /// Decodes a value as [`decode`](Registry::decode) does. It shares the registry, so it may be
    /// kept anywhere.
    ///
    /// # Errors
    /// As [`decode`](Registry::decode).
    ///
    /// # Examples
    ///
    /// ```
    /// # use scaleview::{Error, Registry};
    /// # use std::sync::Arc;
    /// # fn main() -> Result<(), Error> {
    /// let registry = Arc::new(Registry::open(b"\x04\x00\x00\x00\x05\x05\x00")?);
    /// let value = registry.decode_owned(0, b"\x2a\x00\x00\x00")?;
    /// drop(registry);
    /// assert_eq!(value.as_u128(), Some(42));
    /// # Ok(())
    /// # }
    /// ```
    pub fn decode_owned(
        self: &Arc<Self>,
        id: impl Into<TypeId>,
        bytes: &[u8],
    ) -> Result<OwnedValue, Error> {
        self.decode_owned_within(id, bytes, Limits::new())
    }

    /// Decodes a value as [`decode_owned`](Registry::decode_owned) does, within these limits.
    ///
    /// # Errors
    /// As [`decode_within`](Registry::decode_within).
    pub fn decode_owned_within(
        self: &Arc<Self>,
        id: impl Into<TypeId>,
        bytes: &[u8],
        limits: Limits,
    ) -> Result<OwnedValue, Error> {
        AnyValue::decoded(Arc::clone(self), id.into(), bytes, limits)
    }

    /// Returns the nodes of a value, and their bytes.
    pub(crate) fn decode_nodes(
        &self,
        id: TypeId,
        bytes: &[u8],
        limits: Limits,
    ) -> Result<(Vec<Node>, Vec<u8>), Error> {
        if bytes.len() >= LARGE {
            return self.decode_large(id, bytes, limits);
        }
        let (depth, limit) = (limits.depth, limits.bytes);
        let memory = limits.budget(bytes.len() as u64);
        let call = |nodes, node_room, pool, pool_room, answer: &mut Answer| {
            // SAFETY: the registry is open; the slice and the places are
            // this call's.
            self.reading(|handle| unsafe {
                sys::scaleview_decode_nodes(
                    handle,
                    id.get(),
                    depth,
                    limit,
                    memory,
                    bytes.as_ptr(),
                    bytes.len(),
                    nodes,
                    node_room,
                    pool,
                    pool_room,
                    answer,
                )
            })
        };
        // Most values have fewer nodes than bytes, and all have at most as many bytes in their
        // pool.
        let most = usize::try_from(limit).map_or(bytes.len(), |limit| bytes.len().min(limit));
        let guess = (most / 8 * 5 + 8, most);
        // SAFETY: the header promises what `nodes` wants.
        unsafe { buffer::nodes(guess, call) }.map_err(Error::of_type(id))
    }

    /// Decodes a value in a session, which keeps it while its nodes are counted. So it is decoded
    /// once, whatever its number of nodes.
    fn decode_large(
        &self,
        id: TypeId,
        bytes: &[u8],
        limits: Limits,
    ) -> Result<(Vec<Node>, Vec<u8>), Error> {
        // The default budget of a session is that of its limit.
        let limits = limits.memory(limits.budget(bytes.len() as u64));
        let mut session = self.start(id, limits)?;
        match session.feed(bytes)? {
            Progress::Done { used } if used < bytes.len() => Err(Error::Value {
                reason: ValueReason::TrailingBytes,
                place: used as u64,
            }),
            _ => session.finish_nodes(),
        }
    }

    /// Returns the JSON of the value, of the type at this position, that all the bytes spell,
    /// within the default limits.
    ///
    /// The text nests at most `2 * (depth + 1)` arrays and objects, which is 130 by default.
    /// `serde_json::from_str` reads 127 levels, so it reads all values of a depth up to 62; for
    /// deeper ones give it `serde_json::Deserializer::disable_recursion_limit`.
    ///
    /// # Errors
    /// As [`decode`](Registry::decode).
    ///
    /// # Examples
    ///
    /// ```
    /// # use scaleview::{Error, Registry};
    /// # fn main() -> Result<(), Error> {
    /// let registry = Registry::open(b"\x04\x00\x00\x00\x05\x05\x00")?;
    /// assert_eq!(registry.decode_json(0, b"\x2a\x00\x00\x00")?, "42");
    /// # Ok(())
    /// # }
    /// ```
    pub fn decode_json(&self, id: impl Into<TypeId>, bytes: &[u8]) -> Result<String, Error> {
        self.decode_json_within(id, bytes, Limits::new())
    }

    /// Returns JSON as [`decode_json`](Registry::decode_json) does, within these limits.
    ///
    /// # Errors
    /// As [`decode`](Registry::decode), and `LimitOutOfRange`.
    pub fn decode_json_within(
        &self,
        id: impl Into<TypeId>,
        bytes: &[u8],
        limits: Limits,
    ) -> Result<String, Error> {
        let id = id.into();
        let (depth, limit) = (limits.depth, limits.bytes);
        let memory = limits.budget(bytes.len() as u64);
        let call = |out, room, answer: &mut Answer| {
            // SAFETY: the registry is open; the slice and the places are
            // this call's.
            self.reading(|handle| unsafe {
                sys::scaleview_decode(
                    handle,
                    id.get(),
                    depth,
                    limit,
                    memory,
                    bytes.as_ptr(),
                    bytes.len(),
                    out,
                    room,
                    answer,
                )
            })
        };
        // SAFETY: the header promises what `text` wants.
        unsafe { buffer::text(json_guess(limit.min(bytes.len() as u64)), call) }
            .map_err(Error::of_type(id))
    }

    /// Encodes a value of the type at this position: a decoded [`Value`], a part of one, or an
    /// [`Item`].
    ///
    /// # Errors
    /// `UnknownType`, `Node` with the reason and the node, `UnknownField` and `MissingField` for an
    /// item, `Memory`.
    ///
    /// # Examples
    ///
    /// ```
    /// # use scaleview::{Error, Item, Registry};
    /// # fn main() -> Result<(), Error> {
    /// let registry = Registry::open(b"\x04\x00\x00\x00\x05\x05\x00")?;
    /// assert_eq!(registry.encode(0, &Item::from(7))?, [7, 0, 0, 0]);
    /// assert_eq!(registry.encode(0, &registry.decode(0, &[7, 0, 0, 0])?)?, [7, 0, 0, 0]);
    /// # Ok(())
    /// # }
    /// ```
    pub fn encode<'a>(
        &self,
        id: impl Into<TypeId>,
        source: impl Into<Source<'a>>,
    ) -> Result<Vec<u8>, Error> {
        self.encode_within(id, source, Limits::new())
    }

    /// Encodes a value as [`encode`](Registry::encode) does, within a depth and a budget of memory.
    ///
    /// # Errors
    /// As [`encode`](Registry::encode), and `LimitOutOfRange`.
    pub fn encode_within<'a>(
        &self,
        id: impl Into<TypeId>,
        source: impl Into<Source<'a>>,
        limits: Limits,
    ) -> Result<Vec<u8>, Error> {
        let id = id.into();
        match source.into() {
            Source::Value(value) => match value.as_bits() {
                Some(bits) => self.encode_item(id, &Item::Bits(bits), limits),
                None => self.encode_nodes(id, value.nodes, value.pool, limits),
            },
            Source::Item(item) => self.encode_item(id, item, limits),
        }
    }

    fn encode_item(&self, id: TypeId, item: &Item<'_>, limits: Limits) -> Result<Vec<u8>, Error> {
        let (nodes, pool) = lower(self, id, item)?;
        self.encode_nodes(id, &nodes, &pool, limits)
    }

    fn encode_nodes(
        &self,
        id: TypeId,
        nodes: &[Node],
        pool: &[u8],
        limits: Limits,
    ) -> Result<Vec<u8>, Error> {
        let depth = limits.depth;
        let length = size_of_val(nodes).saturating_add(pool.len());
        let memory = limits.budget(length as u64);
        let call = |out, room, answer: &mut Answer| {
            // SAFETY: the registry is open; the slices and the places are
            // this call's.
            self.reading(|handle| unsafe {
                sys::scaleview_encode_nodes(
                    handle,
                    id.get(),
                    depth,
                    memory,
                    nodes.as_ptr(),
                    nodes.len(),
                    pool.as_ptr(),
                    pool.len(),
                    out,
                    room,
                    answer,
                )
            })
        };
        let guess = nodes.len().saturating_mul(8).saturating_add(pool.len());
        // SAFETY: the header promises what `bytes` wants.
        unsafe { buffer::bytes(guess, call) }.map_err(Error::of_type(id))
    }

    /// Starts a value of the type at this position whose bytes come in pieces, in a session that
    /// borrows the registry.
    ///
    /// # Errors
    /// `UnknownType`, `LimitOutOfRange`, `Memory`.
    ///
    /// # Examples
    ///
    /// ```
    /// # use scaleview::{Error, Limits, Progress, Registry};
    /// # fn main() -> Result<(), Error> {
    /// let registry = Registry::open(b"\x04\x00\x00\x00\x05\x05\x00")?;
    /// let mut session = registry.start(0, Limits::new())?;
    /// assert_eq!(session.feed(b"\x2a\x00")?, Progress::More);
    /// assert_eq!(session.feed(b"\x00\x00")?, Progress::Done { used: 2 });
    /// assert_eq!(session.finish()?.as_u128(), Some(42));
    /// # Ok(())
    /// # }
    /// ```
    pub fn start(&self, id: impl Into<TypeId>, limits: Limits) -> Result<Session<'_>, Error> {
        Session::over(self, id.into(), limits)
    }

    /// Starts a value as [`start`](Registry::start) does, in a session that shares the registry and
    /// may be kept anywhere.
    ///
    /// # Errors
    /// As [`start`](Registry::start).
    pub fn start_owned(
        self: &Arc<Self>,
        id: impl Into<TypeId>,
        limits: Limits,
    ) -> Result<OwnedSession, Error> {
        OwnedSession::over(Arc::clone(self), id.into(), limits)
    }
}

/// Returns a likely size of the JSON of so many bytes.
pub(crate) fn json_guess(bytes: u64) -> usize {
    usize::try_from(bytes.saturating_mul(8)).map_or(usize::MAX, |bytes| bytes.saturating_add(128))
}

impl fmt::Debug for Registry {
    fn fmt(&self, f: &mut fmt::Formatter<'_>) -> fmt::Result {
        f.debug_struct("Registry")
            .field("len", &self.len)
            .field("end", &self.end)
            .field("version", &self.version())
            .finish_non_exhaustive()
    }
}

impl Drop for Registry {
    fn drop(&mut self) {
        // SAFETY: nothing else has the registry, and no call follows. A session that was forgotten
        // keeps it open.
        unsafe { sys::scaleview_close(&mut self.raw.0) };
    }
}
