//! A value whose bytes come in pieces.

use crate::buffer;
use crate::error::Error;
use crate::limits::Limits;
use crate::registry::{Registry, json_guess};
use crate::registry_ref::RegistryRef;
use crate::type_id::TypeId;
use crate::value::AnyValue;
use scaleview_sys::{
    self as sys, scaleview_answer as Answer, scaleview_node as Node, scaleview_session as Handle,
};
use std::fmt;
use std::sync::{Arc, Mutex, PoisonError};

/// How far a value is.
///
/// A piece may go on after the value, so the compiler warns if this is dropped unread:
///
/// ```compile_fail
/// #![deny(unused_must_use)]
/// # fn main() -> Result<(), scaleview::Error> {
/// let registry = scaleview::Registry::open(b"\x04\x00\x00\x00\x05\x03\x00")?;
/// registry.start(0, Default::default())?.feed(b"\x2a\xff")?;
/// # Ok(())
/// # }
/// ```
#[must_use = "the value may end inside the piece"]
#[derive(Clone, Copy, Debug, PartialEq, Eq, Hash)]
#[non_exhaustive]
pub enum Progress {
    /// All bytes of the piece were taken, and the value is incomplete.
    More,
    /// The value is complete.
    Done {
        /// How many bytes of this piece belong to it.
        used: usize,
    },
}

/// The library's handle of a session. Every call is given its place, those that only report too.
struct Raw(Handle);

// SAFETY: "A handle may be used on any thread", says the header. "A session is used by one call at
// a time": its handle lies in a lock.
unsafe impl Send for Raw {}

/// A value in progress, as [`Session`] and [`OwnedSession`] are. It is freed when it is dropped.
///
/// Sessions of one registry may be on several threads, and take pieces at the same time.
///
/// # Examples
///
/// A function may take sessions of both kinds:
///
/// ```
/// use scaleview::{AnySession, Error, Limits, Progress, Registry, RegistryRef};
/// use std::sync::Arc;
/// fn is_done<R: RegistryRef>(session: &mut AnySession<R>, piece: &[u8]) -> Result<bool, Error> {
///     Ok(matches!(session.feed(piece)?, Progress::Done { .. }))
/// }
/// # fn main() -> Result<(), Error> {
/// let registry = Arc::new(Registry::open(b"\x04\x00\x00\x00\x05\x03\x00")?);
/// assert!(is_done(&mut registry.start(0, Limits::new())?, b"\x2a")?);
/// assert!(is_done(&mut registry.start_owned(0, Limits::new())?, b"\x2a")?);
/// # Ok(())
/// # }
/// ```
pub struct AnySession<R: RegistryRef> {
    raw: Mutex<Raw>,
    owner: R,
}

/// A value in progress, over a registry that it borrows.
///
/// # Examples
///
/// ```
/// # fn main() -> Result<(), scaleview::Error> {
/// use scaleview::{Limits, Progress, Registry};
/// let registry = Registry::open(b"\x04\x00\x00\x00\x05\x04\x00")?;
/// let mut session = registry.start(0, Limits::new())?;
/// assert_eq!(session.feed(b"\x2a")?, Progress::More);
/// assert_eq!(session.feed(b"\x00\xff")?, Progress::Done { used: 1 });
/// assert_eq!(session.finish()?.as_u128(), Some(42));
/// assert_eq!(session.finish_json()?, "42");
/// # Ok(())
/// # }
/// ```
pub type Session<'r> = AnySession<&'r Registry>;

/// A value in progress, over a registry or metadata that it shares: a struct may have both, and a
/// thread may take it along.
///
/// # Examples
///
/// ```
/// # fn main() -> Result<(), scaleview::Error> {
/// use scaleview::{Limits, OwnedSession, Progress, Registry};
/// use std::sync::Arc;
/// struct Reader { registry: Arc<Registry>, session: OwnedSession }
/// let registry = Arc::new(Registry::open(b"\x04\x00\x00\x00\x05\x04\x00")?);
/// let session = registry.start_owned(0, Limits::new())?;
/// let mut reader = Reader { registry, session };
/// let text = std::thread::spawn(move || {
///     assert_eq!(reader.session.feed(b"\x2a\x00")?, Progress::Done { used: 2 });
///     reader.session.finish_json()
/// });
/// assert_eq!(text.join().unwrap()?, "42");
/// # Ok(())
/// # }
/// ```
pub type OwnedSession<R = Registry> = AnySession<Arc<R>>;

impl<R: RegistryRef> AnySession<R> {
    pub(crate) fn over(owner: R, id: TypeId, limits: Limits) -> Result<AnySession<R>, Error> {
        let Limits { depth, bytes, .. } = limits;
        // The length of all pieces isn't known yet, and the limit bounds it.
        let memory = limits.budget(bytes);
        let (mut handle, mut answer) = (
            Handle {
                inside: std::ptr::null_mut(),
            },
            Answer::default(),
        );
        let code = owner.registry().reading(|open| {
            // SAFETY: the registry is open; the places are this call's, and the handle is null.
            unsafe {
                sys::scaleview_start(
                    open,
                    id.get(),
                    depth,
                    bytes,
                    memory,
                    &mut handle,
                    &mut answer,
                )
            }
        });
        match code {
            sys::SCALEVIEW_OK => Ok(AnySession {
                raw: Mutex::new(Raw(handle)),
                owner,
            }),
            _ => Err(Error::of_type(id)(answer)),
        }
    }

    /// Makes a call on the session, while no other runs on it.
    fn changing<T>(&self, call: impl FnOnce(*mut Handle) -> T) -> T {
        let mut raw = self.raw.lock().unwrap_or_else(PoisonError::into_inner);
        call(&mut raw.0)
    }

    /// Returns the registry.
    pub fn registry(&self) -> &Registry {
        self.owner.registry()
    }

    /// Takes the next piece, which may be empty. A session that has answered keeps its answer.
    ///
    /// # Errors
    /// `Value` with the reason and the place in all pieces, `Memory`. Every later call returns the
    /// same.
    ///
    /// # Examples
    ///
    /// ```
    /// # use scaleview::{Error, Limits, Progress, Registry};
    /// # fn main() -> Result<(), Error> {
    /// let registry = Registry::open(b"\x04\x00\x00\x00\x05\x05\x00")?;
    /// let mut session = registry.start(0, Limits::new())?;
    /// assert_eq!(session.feed(b"\x2a\x00\x00")?, Progress::More);
    /// let piece = b"\x00next";
    /// if let Progress::Done { used } = session.feed(piece)? {
    ///     assert_eq!(&piece[used..], b"next");
    /// }
    /// assert_eq!(session.taken(), 4);
    /// # Ok(())
    /// # }
    /// ```
    #[must_use = "a piece may be rejected, and the value may end inside it"]
    pub fn feed(&mut self, piece: &[u8]) -> Result<Progress, Error> {
        let mut answer = Answer::default();
        // SAFETY: the handle is a session's, and this call has it alone; the slice and the place
        // are this call's.
        let code = self.changing(|session| unsafe {
            sys::scaleview_feed(session, piece.as_ptr(), piece.len(), &mut answer)
        });
        match code {
            sys::SCALEVIEW_MORE => Ok(Progress::More),
            // At most the length of the piece.
            sys::SCALEVIEW_OK => Ok(Progress::Done {
                used: answer.length as usize,
            }),
            _ => Err(Error::of(answer)),
        }
    }

    fn reported(&self, call: unsafe extern "C" fn(*mut Handle, *mut Answer) -> u32) -> u64 {
        let mut answer = Answer::default();
        // SAFETY: as in `feed`.
        self.changing(|session| unsafe { call(session, &mut answer) });
        answer.length
    }

    /// Returns the number of bytes that were taken of all pieces, or 0 after the value was
    /// finished.
    pub fn taken(&self) -> u64 {
        self.reported(sys::scaleview_taken)
    }

    /// Returns the number of nodes that are held.
    pub fn nodes(&self) -> u64 {
        self.reported(sys::scaleview_nodes)
    }

    /// Returns the number of bytes of texts, byte runs and bit sequences that are held.
    pub fn text_bytes(&self) -> u64 {
        self.reported(sys::scaleview_text_bytes)
    }

    /// Ends the value, and returns its JSON, as [`Registry::decode_json`] does. The value is kept
    /// until the session is dropped, so both ends may be asked for, and again after `Memory`. No
    /// piece is taken afterwards.
    ///
    /// # Errors
    /// `Value` with `Truncated` at the bytes taken if the value is incomplete, or the error that
    /// [`feed`](AnySession::feed) returned; `Memory`.
    ///
    /// # Examples
    ///
    /// ```
    /// # use scaleview::{Error, Limits, Progress, Registry, ValueReason};
    /// # fn main() -> Result<(), Error> {
    /// let registry = Registry::open(b"\x04\x00\x00\x00\x05\x05\x00")?;
    /// let mut session = registry.start(0, Limits::new())?;
    /// assert_eq!(session.feed(b"\x2a\x00\x00\x00")?, Progress::Done { used: 4 });
    /// assert_eq!(session.finish_json()?, "42");
    ///
    /// let mut session = registry.start(0, Limits::new())?;
    /// assert_eq!(session.feed(b"\x2a")?, Progress::More);
    /// let reason = ValueReason::Truncated;
    /// assert_eq!(session.finish_json(), Err(Error::Value { reason, place: 1 }));
    /// # Ok(())
    /// # }
    /// ```
    pub fn finish_json(&mut self) -> Result<String, Error> {
        let guess = json_guess(self.taken());
        let call = |out, room, answer: &mut Answer| {
            // SAFETY: as in `feed`.
            self.changing(|session| unsafe { sys::scaleview_finish(session, out, room, answer) })
        };
        // SAFETY: the header promises what `text` wants.
        unsafe { buffer::text(guess, call) }.map_err(Error::of)
    }

    /// Ends the value, and returns its nodes and their bytes.
    pub(crate) fn finish_nodes(&self) -> Result<(Vec<Node>, Vec<u8>), Error> {
        let call = |nodes, node_room, pool, pool_room, answer: &mut Answer| {
            // SAFETY: as in `feed`.
            self.changing(|session| unsafe {
                sys::scaleview_finish_nodes(session, nodes, node_room, pool, pool_room, answer)
            })
        };
        // A session keeps its value, so it may be asked how large it is.
        // SAFETY: the header promises what `nodes` wants.
        unsafe { buffer::nodes((0, 0), call) }.map_err(Error::of)
    }

    /// Ends the value, and returns it. It is kept until the session is dropped, so it may be asked
    /// for again. The value of an [`OwnedSession`] is an [`OwnedValue`](crate::OwnedValue).
    ///
    /// # Errors
    /// As [`finish_json`](AnySession::finish_json).
    ///
    /// # Examples
    ///
    /// ```
    /// # use scaleview::{Error, Limits, Progress, Registry};
    /// # fn main() -> Result<(), Error> {
    /// let registry = Registry::open(b"\x04\x00\x00\x00\x05\x05\x00")?;
    /// let mut session = registry.start(0, Limits::new())?;
    /// assert_eq!(session.feed(b"\x2a\x00\x00\x00")?, Progress::Done { used: 4 });
    /// assert_eq!(session.finish()?.as_u128(), Some(42));
    /// # Ok(())
    /// # }
    /// ```
    pub fn finish(&mut self) -> Result<AnyValue<R>, Error> {
        let (nodes, pool) = self.finish_nodes()?;
        AnyValue::new(self.owner.clone(), nodes, pool)
    }
}

impl<R: RegistryRef> fmt::Debug for AnySession<R> {
    fn fmt(&self, f: &mut fmt::Formatter<'_>) -> fmt::Result {
        f.debug_struct("Session")
            .field("taken", &self.taken())
            .finish_non_exhaustive()
    }
}

impl<R: RegistryRef> Drop for AnySession<R> {
    fn drop(&mut self) {
        // SAFETY: as in `feed`; no call follows, and the owner keeps the registry open until then.
        self.changing(|session| unsafe { sys::scaleview_free(session) });
    }
}
