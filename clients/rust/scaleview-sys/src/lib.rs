//! Raw declarations of the calls of libscaleview, as `clients/c/scaleview.h` describes them. The
//! header is the contract: it says what each call does, returns and wants. The crate `scaleview`
//! has the same in safe Rust.
//!
//! The rules that every caller keeps, of pointers, handles, threads and the stack, stand at the
//! head of the header:
//!
//! - A pointer may be null if its length is 0, as may `inside` of a handle; no other is. What a
//!   call writes to must not overlap anything else that it is given. No call keeps a pointer to
//!   bytes.
//! - A handle is null or was set by a call. A copy of a closed or freed handle must not be used.
//! - Any number of threads may make calls on one registry at the same time, and start and free
//!   sessions of it. Only during [`scaleview_close`] no other call may run on the registry or on a
//!   session of it.
//! - A session is used by one call at a time. Calls on different sessions may run at the same time.
//! - [`scaleview_decode`] and [`scaleview_finish`] need a thread of 128 KiB for values of depth 64,
//!   and one of 1 MiB for depth 1024. No other call needs more than 16 KiB.

#![no_std]
#![deny(missing_docs)]
#![allow(non_camel_case_types)]

use core::ffi::c_void;
use core::mem::{align_of, offset_of, size_of};

/// The version of this header: 10000 times the major number, 100 times the minor one, and the patch
/// number.
pub const SCALEVIEW_VERSION: u32 = 100;

/// Stands for no position of an arm or of a field.
pub const SCALEVIEW_NONE: u32 = u32::MAX;

/// The call succeeded.
pub const SCALEVIEW_OK: u32 = 0;
/// The piece was taken, and the value is incomplete.
pub const SCALEVIEW_MORE: u32 = 1;
/// The text has `length` bytes and does not fit; nothing is lost.
pub const SCALEVIEW_NO_ROOM: u32 = 2;
/// An allocation failed, or would have exceeded `memory`.
pub const SCALEVIEW_MEMORY: u32 = 3;
/// A session of the registry is not freed yet, so it stays open.
pub const SCALEVIEW_LENT: u32 = 4;
/// The handle is null or of the other kind; nothing changes.
pub const SCALEVIEW_NO_HANDLE: u32 = 5;
/// The handle to be set is not null, and is unchanged.
pub const SCALEVIEW_TAKEN: u32 = 6;
/// The registry's bytes are rejected: `Truncated`.
pub const SCALEVIEW_REGISTRY_TRUNCATED: u32 = 101;
/// The registry's bytes are rejected: `BadUtf8`.
pub const SCALEVIEW_REGISTRY_BAD_UTF8: u32 = 102;
/// The registry's bytes are rejected: `CompactNotShortest`.
pub const SCALEVIEW_REGISTRY_COMPACT_NOT_SHORTEST: u32 = 103;
/// The registry's bytes are rejected: `CompactTooLarge`.
pub const SCALEVIEW_REGISTRY_COMPACT_TOO_LARGE: u32 = 104;
/// The registry's bytes are rejected: `BadOption`.
pub const SCALEVIEW_REGISTRY_BAD_OPTION: u32 = 105;
/// The registry's bytes are rejected: `BadDefinition`.
pub const SCALEVIEW_REGISTRY_BAD_DEFINITION: u32 = 106;
/// The registry's bytes are rejected: `BadPrimitive`.
pub const SCALEVIEW_REGISTRY_BAD_PRIMITIVE: u32 = 107;
/// The registry's bytes are rejected: `IdOutOfPlace`.
pub const SCALEVIEW_REGISTRY_ID_OUT_OF_PLACE: u32 = 108;
/// The registry's bytes are rejected: `NotMetadata`.
pub const SCALEVIEW_REGISTRY_NOT_METADATA: u32 = 109;
/// The registry's bytes are rejected: `WrongVersion`.
pub const SCALEVIEW_REGISTRY_WRONG_VERSION: u32 = 110;
/// Bytes follow the registry, which ends at `at`.
pub const SCALEVIEW_REGISTRY_TRAILING_BYTES: u32 = 111;
/// The type `from` refers to the type `at`, which does not exist.
pub const SCALEVIEW_REGISTRY_UNKNOWN_REFERENCE: u32 = 112;
/// What follows the registry in metadata refers, at the place `at`, to the type `from`, which does
/// not exist.
pub const SCALEVIEW_METADATA_UNKNOWN_REFERENCE: u32 = 113;
/// There are more types, references, names, fields or bytes of a name than numbers of 32 bits.
pub const SCALEVIEW_REGISTRY_TOO_LARGE: u32 = 114;
/// The registry has no type at this position.
pub const SCALEVIEW_UNKNOWN_TYPE: u32 = 201;
/// A limit is above 1024 for the depth, or above 2^40 for the bytes.
pub const SCALEVIEW_LIMIT_OUT_OF_RANGE: u32 = 202;
/// The type has no such field, member or arm.
pub const SCALEVIEW_UNKNOWN_PART: u32 = 203;
/// The metadata has no such name.
pub const SCALEVIEW_UNKNOWN_NAME: u32 = 204;
/// The metadata has no bytes for the name.
pub const SCALEVIEW_NO_BYTES: u32 = 205;
/// The value's bytes are rejected: `Truncated`.
pub const SCALEVIEW_VALUE_TRUNCATED: u32 = 301;
/// The value's bytes are rejected: `BadBool`.
pub const SCALEVIEW_VALUE_BAD_BOOL: u32 = 302;
/// The value's bytes are rejected: `BadChar`.
pub const SCALEVIEW_VALUE_BAD_CHAR: u32 = 303;
/// The value's bytes are rejected: `BadUtf8`.
pub const SCALEVIEW_VALUE_BAD_UTF8: u32 = 304;
/// The value's bytes are rejected: `CompactNotShortest`.
pub const SCALEVIEW_VALUE_COMPACT_NOT_SHORTEST: u32 = 305;
/// The value's bytes are rejected: `CompactTooLarge`.
pub const SCALEVIEW_VALUE_COMPACT_TOO_LARGE: u32 = 306;
/// The value's bytes are rejected: `NoSuchVariant`.
pub const SCALEVIEW_VALUE_NO_SUCH_VARIANT: u32 = 307;
/// The value's bytes are rejected: `TooDeep`.
pub const SCALEVIEW_VALUE_TOO_DEEP: u32 = 308;
/// The value's bytes are rejected: `NoFiniteValue`.
pub const SCALEVIEW_VALUE_NO_FINITE_VALUE: u32 = 309;
/// The value's bytes are rejected: `BitSequence`.
pub const SCALEVIEW_VALUE_BIT_SEQUENCE: u32 = 310;
/// The value's bytes are rejected: `BadCompact`.
pub const SCALEVIEW_VALUE_BAD_COMPACT: u32 = 311;
/// The value's bytes are rejected: `TooLong`.
pub const SCALEVIEW_VALUE_TOO_LONG: u32 = 312;
/// Bytes follow the value, which ends at `at`.
pub const SCALEVIEW_VALUE_TRAILING_BYTES: u32 = 313;
/// The value's bytes are rejected: `UnusedBits`.
pub const SCALEVIEW_VALUE_UNUSED_BITS: u32 = 314;
/// A node is rejected: it is deeper than `depth`.
pub const SCALEVIEW_NODES_TOO_DEEP: u32 = 401;
/// A node is rejected: its type has no finite value.
pub const SCALEVIEW_NODES_NO_FINITE_VALUE: u32 = 402;
/// A node is rejected: its type is a bit sequence that the registry doesn't read.
pub const SCALEVIEW_NODES_BIT_SEQUENCE: u32 = 403;
/// A node is rejected: its type is a compact that wraps no unsigned integer.
pub const SCALEVIEW_NODES_BAD_COMPACT: u32 = 404;
/// A node is rejected: it is of another kind than its type, of no kind, or follows a complete
/// value.
pub const SCALEVIEW_NODES_WRONG_KIND: u32 = 405;
/// A node is rejected: a number, a length, a range of the pool or a number of children is out of
/// range, or an unused bit is 1.
pub const SCALEVIEW_NODES_OUT_OF_RANGE: u32 = 406;
/// A node is rejected: no arm has this position, or an earlier arm has its index.
pub const SCALEVIEW_NODES_NO_SUCH_VARIANT: u32 = 407;
/// A node is rejected: a node is missing; `at` is the number of nodes.
pub const SCALEVIEW_NODES_UNFINISHED_VALUE: u32 = 408;
/// A node is rejected: a text is not UTF-8.
pub const SCALEVIEW_NODES_BAD_TEXT: u32 = 409;

/// A flag of [`scaleview_open`]: the bytes are a chain's metadata.
pub const SCALEVIEW_METADATA: u32 = 1;
/// A flag of [`scaleview_open`]: the names that the metadata gives to types are read as well.
pub const SCALEVIEW_NAMES: u32 = 2;
/// A flag of [`scaleview_open`]: values of bit sequences are read, where the store and the order
/// are known.
pub const SCALEVIEW_BITS: u32 = 4;

/// The kind of a type: composite.
pub const SCALEVIEW_COMPOSITE: u32 = 0;
/// The kind of a type: variant.
pub const SCALEVIEW_VARIANT: u32 = 1;
/// The kind of a type: sequence.
pub const SCALEVIEW_SEQUENCE: u32 = 2;
/// The kind of a type: array.
pub const SCALEVIEW_ARRAY: u32 = 3;
/// The kind of a type: tuple.
pub const SCALEVIEW_TUPLE: u32 = 4;
/// The kind of a type: primitive.
pub const SCALEVIEW_PRIMITIVE: u32 = 5;
/// The kind of a type: compact.
pub const SCALEVIEW_COMPACT: u32 = 6;
/// The kind of a type: bit sequence.
pub const SCALEVIEW_BIT_SEQUENCE: u32 = 7;

/// The type has no finite value.
pub const SCALEVIEW_NO_VALUE: u32 = 0;
/// The type has one value, of no bytes.
pub const SCALEVIEW_EMPTY: u32 = 1;
/// The values take bytes.
pub const SCALEVIEW_SIZED: u32 = 2;

/// The primitive type `bool`.
pub const SCALEVIEW_BOOL: u32 = 0;
/// The primitive type `char`.
pub const SCALEVIEW_CHAR: u32 = 1;
/// The primitive type `str`.
pub const SCALEVIEW_STR: u32 = 2;
/// The primitive type `u8`.
pub const SCALEVIEW_U8: u32 = 3;
/// The primitive type `u16`.
pub const SCALEVIEW_U16: u32 = 4;
/// The primitive type `u32`.
pub const SCALEVIEW_U32: u32 = 5;
/// The primitive type `u64`.
pub const SCALEVIEW_U64: u32 = 6;
/// The primitive type `u128`.
pub const SCALEVIEW_U128: u32 = 7;
/// The primitive type `u256`.
pub const SCALEVIEW_U256: u32 = 8;
/// The primitive type `i8`.
pub const SCALEVIEW_I8: u32 = 9;
/// The primitive type `i16`.
pub const SCALEVIEW_I16: u32 = 10;
/// The primitive type `i32`.
pub const SCALEVIEW_I32: u32 = 11;
/// The primitive type `i64`.
pub const SCALEVIEW_I64: u32 = 12;
/// The primitive type `i128`.
pub const SCALEVIEW_I128: u32 = 13;
/// The primitive type `i256`.
pub const SCALEVIEW_I256: u32 = 14;

/// A kind of node: the one value of a type that takes no bytes.
pub const SCALEVIEW_NODE_EMPTY: u32 = 0;
/// A kind of node: `low` is 0 or 1.
pub const SCALEVIEW_NODE_BOOL: u32 = 1;
/// A kind of node: `low` is the code point.
pub const SCALEVIEW_NODE_CHAR: u32 = 2;
/// A kind of node: an unsigned integer of at most 128 bits, its halves in `low` and `high`.
pub const SCALEVIEW_NODE_UNSIGNED: u32 = 3;
/// A kind of node: a signed one, as 128 bits of two's complement.
pub const SCALEVIEW_NODE_SIGNED: u32 = 4;
/// A kind of node: a compact integer, its halves in `low` and `high`.
pub const SCALEVIEW_NODE_COMPACT: u32 = 5;
/// A kind of node: a sequence of `low` elements that take no bytes.
pub const SCALEVIEW_NODE_COUNT: u32 = 6;
/// A kind of node: a text: `high` bytes of UTF-8 from the position `low` of the pool on.
pub const SCALEVIEW_NODE_TEXT: u32 = 7;
/// A kind of node: a sequence or an array of u8: `high` bytes from the position `low` of the pool
/// on.
pub const SCALEVIEW_NODE_BYTES: u32 = 8;
/// A kind of node: a 256-bit integer: 32 bytes, the lowest first, from the position `low` of the
/// pool on.
pub const SCALEVIEW_NODE_WIDE: u32 = 9;
/// A kind of node: a composite or a tuple.
pub const SCALEVIEW_NODE_FIELDS: u32 = 10;
/// A kind of node: a variant, whose arm is at the position `arm` of its type.
pub const SCALEVIEW_NODE_ARM: u32 = 11;
/// A kind of node: an array or a sequence of another type than u8.
pub const SCALEVIEW_NODE_LIST: u32 = 12;
/// A kind of node: a bit sequence of `high` bits, whose words begin at the position `low` of the
/// pool.
pub const SCALEVIEW_NODE_BITS: u32 = 13;

/// What a type is. Numbers are 0 unless the kind gives them a meaning.
#[repr(C)]
#[derive(Clone, Copy, Debug, Default, PartialEq, Eq, Hash)]
pub struct scaleview_type_shape {
    /// The kind, of `SCALEVIEW_COMPOSITE` to `SCALEVIEW_BIT_SEQUENCE`.
    pub kind: u32,
    /// How many bytes the values take, of `SCALEVIEW_NO_VALUE` to `SCALEVIEW_SIZED`.
    pub value_class: u32,
    /// The primitive, of `SCALEVIEW_BOOL` to `SCALEVIEW_I256`, if the kind is
    /// `SCALEVIEW_PRIMITIVE`.
    pub primitive: u32,
    /// The type of a sequence's or an array's elements, a compact's target, or a bit sequence's
    /// store.
    pub element: u32,
    /// The type that names the order of a bit sequence, by the last segment of its path.
    pub order: u32,
    /// The number of elements of an array.
    pub length: u32,
    /// The number of fields of a composite, of members of a tuple, or of arms of a variant.
    pub parts: u32,
}

/// A node of a value. The nodes of a value stand in the order of their bytes, each before its
/// children, and the bytes of texts, byte runs, bit sequences and 256-bit integers in the same
/// order in a pool beside them.
///
/// The words of a bit sequence are those of its type. In the shape of [`scaleview_type`],
/// `element` is the type of a word, u8 to u64, and `order` is a type whose path ends with `Lsb0`
/// or `Msb0`. Words are little-endian. Bit i is in the word i / w of w bits, where it has the
/// value 2^(i mod w) with `Lsb0`, and 2^(w - 1 - i mod w) with `Msb0`. Unused bits are 0.
#[repr(C)]
#[derive(Clone, Copy, Debug, Default, PartialEq, Eq, Hash)]
pub struct scaleview_node {
    /// The kind, of `SCALEVIEW_NODE_EMPTY` to `SCALEVIEW_NODE_BITS`.
    pub kind: u32,
    /// The position of its type, which encoding reads of a bit sequence alone.
    pub r#type: u32,
    /// How many children it has; each follows with its own subtree.
    pub children: u32,
    /// The position of a variant's arm, which is not its index.
    pub arm: u32,
    /// A number's low half, or a place in the pool; of a composite, a tuple, a variant or a list
    /// how many nodes its subtree has, itself included.
    pub low: u64,
    /// A number's high half, how many bytes it has in the pool, or how many bits it has.
    pub high: u64,
}

/// A step of the path from a value to one of its parts: a node, and which of its parts is meant.
#[repr(C)]
#[derive(Clone, Copy, Debug, Default, PartialEq, Eq, Hash)]
pub struct scaleview_step {
    /// The position of the node's type.
    pub r#type: u32,
    /// Of a variant, the position of its arm; otherwise 0.
    pub arm: u32,
    /// The position of the part, from 0: of a field, a member or an element.
    pub part: u32,
}

/// What a call reports besides its code, which is repeated here. Numbers are 0 unless the code
/// gives them a meaning.
#[repr(C)]
#[derive(Clone, Copy, Debug, Default, PartialEq, Eq, Hash)]
pub struct scaleview_answer {
    /// The code that the call returned.
    pub code: u32,
    /// The position of the type that has the unknown reference, or that metadata refers to; the
    /// version of an open registry's metadata; the type of a part or of a name; or the index of an
    /// arm.
    pub from: u32,
    /// The place of an error, or where an open registry ends or an opaque value begins, in bytes
    /// from the start of the input; 1 if a part has a name or a name has bytes; the number of an
    /// arm's fields; the position of a type or of a node; or the number of bytes of a pool.
    pub at: u64,
    /// The number of bytes of a text, of a name's bytes, of an opaque value, of types, of nodes, or
    /// of bytes of a piece that belong to the value.
    pub length: u64,
}

/// An open registry, or null. It may be copied. All copies are the same registry, and none may be
/// used once one was closed.
#[repr(C)]
#[derive(Clone, Copy, Debug)]
pub struct scaleview_registry {
    /// The library's pointer.
    pub inside: *mut c_void,
}

/// A value in progress, or null. It has one owner, and no copy of it may be used.
#[repr(C)]
#[derive(Debug)]
pub struct scaleview_session {
    /// The library's pointer.
    pub inside: *mut c_void,
}

// The layouts of the header, on all targets whose C has the usual alignment.
const _: () = {
    assert!(size_of::<scaleview_type_shape>() == 28 && align_of::<scaleview_type_shape>() == 4);
    assert!(size_of::<scaleview_node>() == 32 && align_of::<scaleview_node>() == align_of::<u64>());
    assert!(offset_of!(scaleview_node, arm) == 12 && offset_of!(scaleview_node, low) == 16);
    assert!(size_of::<scaleview_step>() == 12 && align_of::<scaleview_step>() == 4);
    assert!(
        size_of::<scaleview_answer>() == 24 && align_of::<scaleview_answer>() == align_of::<u64>()
    );
    assert!(offset_of!(scaleview_answer, at) == 8 && offset_of!(scaleview_answer, length) == 16);
    assert!(size_of::<scaleview_registry>() == size_of::<*mut c_void>());
    assert!(size_of::<scaleview_session>() == size_of::<*mut c_void>());
};

unsafe extern "C" {
    /// Opens the registry that all the bytes hold. `flags` is 0 or a sum of [`SCALEVIEW_METADATA`]
    /// for a chain's metadata, [`SCALEVIEW_NAMES`], without which its end is not read, and
    /// [`SCALEVIEW_BITS`].
    ///
    /// # Safety
    ///
    /// `registry` points to a handle that this call alone uses. `bytes` can be read for `length`
    /// elements. `answer` can be written. What is written overlaps nothing else that the call is
    /// given.
    pub fn scaleview_open(
        bytes: *const u8,
        length: usize,
        flags: u32,
        registry: *mut scaleview_registry,
        answer: *mut scaleview_answer,
    ) -> u32;

    /// Frees a registry and sets it to null; returns [`SCALEVIEW_LENT`] while a session of it is
    /// not freed.
    ///
    /// # Safety
    ///
    /// `registry` points to a handle that is null or open, of which no copy is used afterwards. No
    /// other call on the registry, or on a session of it, runs at the same time.
    pub fn scaleview_close(registry: *mut scaleview_registry) -> u32;

    /// Reports the number of types in `answer.length`.
    ///
    /// # Safety
    ///
    /// `registry` is null, or open and not closed before the call returns, by another thread too.
    /// `answer` can be written. What is written overlaps nothing else that the call is given.
    pub fn scaleview_types(registry: scaleview_registry, answer: *mut scaleview_answer) -> u32;

    /// Writes the type's line to `out`: its position, class, kind and path, and a line feed.
    ///
    /// # Safety
    ///
    /// `registry` is null, or open and not closed before the call returns, by another thread too.
    /// `out` can be written for `room` bytes. `answer` can be written. What is written overlaps
    /// nothing else that the call is given.
    pub fn scaleview_type_line(
        registry: scaleview_registry,
        id: u32,
        out: *mut u8,
        room: usize,
        answer: *mut scaleview_answer,
    ) -> u32;

    /// Reports what the type is, in `shape`.
    ///
    /// # Safety
    ///
    /// `registry` is null, or open and not closed before the call returns, by another thread too.
    /// `shape` and `answer` can be written. What is written overlaps nothing else that the call is
    /// given.
    pub fn scaleview_type(
        registry: scaleview_registry,
        id: u32,
        shape: *mut scaleview_type_shape,
        answer: *mut scaleview_answer,
    ) -> u32;

    /// Reports a composite's field or a tuple's member, and writes its name to `out`.
    ///
    /// # Safety
    ///
    /// `registry` is null, or open and not closed before the call returns, by another thread too.
    /// `out` can be written for `room` bytes. `answer` can be written. What is written overlaps
    /// nothing else that the call is given.
    pub fn scaleview_part(
        registry: scaleview_registry,
        id: u32,
        part: u32,
        out: *mut u8,
        room: usize,
        answer: *mut scaleview_answer,
    ) -> u32;

    /// Reports a variant's arm, and writes its name to `out`.
    ///
    /// # Safety
    ///
    /// `registry` is null, or open and not closed before the call returns, by another thread too.
    /// `out` can be written for `room` bytes. `answer` can be written. What is written overlaps
    /// nothing else that the call is given.
    pub fn scaleview_arm(
        registry: scaleview_registry,
        id: u32,
        arm: u32,
        out: *mut u8,
        room: usize,
        answer: *mut scaleview_answer,
    ) -> u32;

    /// Reports a field of a variant's arm, and writes its name to `out`.
    ///
    /// # Safety
    ///
    /// `registry` is null, or open and not closed before the call returns, by another thread too.
    /// `out` can be written for `room` bytes. `answer` can be written. What is written overlaps
    /// nothing else that the call is given.
    pub fn scaleview_arm_field(
        registry: scaleview_registry,
        id: u32,
        arm: u32,
        field: u32,
        out: *mut u8,
        room: usize,
        answer: *mut scaleview_answer,
    ) -> u32;

    /// Reports a type's parameter, and writes its name to `out`.
    ///
    /// # Safety
    ///
    /// `registry` is null, or open and not closed before the call returns, by another thread too.
    /// `out` can be written for `room` bytes. `answer` can be written. What is written overlaps
    /// nothing else that the call is given.
    pub fn scaleview_param(
        registry: scaleview_registry,
        id: u32,
        param: u32,
        out: *mut u8,
        room: usize,
        answer: *mut scaleview_answer,
    ) -> u32;

    /// Writes the name of a field's type to `out`. `arm` is `SCALEVIEW_NONE` for a composite's
    /// field.
    ///
    /// # Safety
    ///
    /// `registry` is null, or open and not closed before the call returns, by another thread too.
    /// `out` can be written for `room` bytes. `answer` can be written. What is written overlaps
    /// nothing else that the call is given.
    pub fn scaleview_type_name(
        registry: scaleview_registry,
        id: u32,
        arm: u32,
        field: u32,
        out: *mut u8,
        room: usize,
        answer: *mut scaleview_answer,
    ) -> u32;

    /// Writes a line of a documentation to `out`. `SCALEVIEW_NONE` stands for no arm and no field.
    ///
    /// # Safety
    ///
    /// `registry` is null, or open and not closed before the call returns, by another thread too.
    /// `out` can be written for `room` bytes. `answer` can be written. What is written overlaps
    /// nothing else that the call is given.
    pub fn scaleview_docs(
        registry: scaleview_registry,
        id: u32,
        arm: u32,
        field: u32,
        line: u32,
        out: *mut u8,
        room: usize,
        answer: *mut scaleview_answer,
    ) -> u32;

    /// Writes the type's path to `out`, its segments joined by `::`.
    ///
    /// # Safety
    ///
    /// `registry` is null, or open and not closed before the call returns, by another thread too.
    /// `out` can be written for `room` bytes. `answer` can be written. What is written overlaps
    /// nothing else that the call is given.
    pub fn scaleview_path(
        registry: scaleview_registry,
        id: u32,
        out: *mut u8,
        room: usize,
        answer: *mut scaleview_answer,
    ) -> u32;

    /// Finds the first type, from the position `from` on, whose path is these bytes; reports it in
    /// `answer.at`.
    ///
    /// # Safety
    ///
    /// `registry` is null, or open and not closed before the call returns, by another thread too.
    /// `path` can be read for `length` elements. `answer` can be written. What is written overlaps
    /// nothing else that the call is given.
    pub fn scaleview_find(
        registry: scaleview_registry,
        from: u32,
        path: *const u8,
        length: usize,
        answer: *mut scaleview_answer,
    ) -> u32;

    /// Finds the name that these bytes are; reports its type in `answer.from`, whether it has bytes
    /// in `answer.at`, and how many in `answer.length`.
    ///
    /// # Safety
    ///
    /// `registry` is null, or open and not closed before the call returns, by another thread too.
    /// `name` can be read for `length` elements. `answer` can be written. What is written overlaps
    /// nothing else that the call is given.
    pub fn scaleview_name(
        registry: scaleview_registry,
        name: *const u8,
        length: usize,
        answer: *mut scaleview_answer,
    ) -> u32;

    /// Writes the name at this index to `out`; reports its type in `answer.from`, and whether it
    /// has bytes in `answer.at`.
    ///
    /// # Safety
    ///
    /// `registry` is null, or open and not closed before the call returns, by another thread too.
    /// `out` can be written for `room` bytes. `answer` can be written. What is written overlaps
    /// nothing else that the call is given.
    pub fn scaleview_name_at(
        registry: scaleview_registry,
        index: u32,
        out: *mut u8,
        room: usize,
        answer: *mut scaleview_answer,
    ) -> u32;

    /// Writes the bytes that the metadata has for a name to `out`.
    ///
    /// # Safety
    ///
    /// `registry` is null, or open and not closed before the call returns, by another thread too.
    /// `name` can be read for `length` elements. `out` can be written for `room` bytes. `answer`
    /// can be written. What is written overlaps nothing else that the call is given.
    pub fn scaleview_name_bytes(
        registry: scaleview_registry,
        name: *const u8,
        length: usize,
        out: *mut u8,
        room: usize,
        answer: *mut scaleview_answer,
    ) -> u32;

    /// Reads the length in front of an opaque value; reports where the value begins in `answer.at`,
    /// and how many bytes it has in `answer.length`.
    ///
    /// # Safety
    ///
    /// `bytes` can be read for `length` elements. `answer` can be written. What is written overlaps
    /// nothing else that the call is given.
    pub fn scaleview_opaque(bytes: *const u8, length: usize, answer: *mut scaleview_answer) -> u32;

    /// Decodes the value that all the bytes spell, and writes its JSON to `out`.
    ///
    /// # Safety
    ///
    /// `registry` is null, or open and not closed before the call returns, by another thread too.
    /// `bytes` can be read for `length` elements. `out` can be written for `room` bytes. `answer`
    /// can be written. What is written overlaps nothing else that the call is given.
    pub fn scaleview_decode(
        registry: scaleview_registry,
        id: u32,
        depth: u16,
        limit: u64,
        memory: u64,
        bytes: *const u8,
        length: usize,
        out: *mut u8,
        room: usize,
        answer: *mut scaleview_answer,
    ) -> u32;

    /// Decodes the value that all the bytes spell, and writes its nodes and their bytes.
    ///
    /// # Safety
    ///
    /// `registry` is null, or open and not closed before the call returns, by another thread too.
    /// `bytes` can be read for `length` elements. `nodes` can be written for `node_room` elements.
    /// `pool` can be written for `pool_room` bytes. `answer` can be written. What is written
    /// overlaps nothing else that the call is given.
    pub fn scaleview_decode_nodes(
        registry: scaleview_registry,
        id: u32,
        depth: u16,
        limit: u64,
        memory: u64,
        bytes: *const u8,
        length: usize,
        nodes: *mut scaleview_node,
        node_room: usize,
        pool: *mut u8,
        pool_room: usize,
        answer: *mut scaleview_answer,
    ) -> u32;

    /// Reports where in a value its bytes are rejected or end, and writes the steps to there.
    ///
    /// # Safety
    ///
    /// `registry` is null, or open and not closed before the call returns, by another thread too.
    /// `bytes` can be read for `length` elements. `steps` can be written for `room` elements.
    /// `answer` can be written. What is written overlaps nothing else that the call is given.
    pub fn scaleview_path_of(
        registry: scaleview_registry,
        id: u32,
        depth: u16,
        limit: u64,
        memory: u64,
        bytes: *const u8,
        length: usize,
        steps: *mut scaleview_step,
        room: usize,
        answer: *mut scaleview_answer,
    ) -> u32;

    /// Encodes the value whose nodes these are, and writes its bytes to `out`.
    ///
    /// # Safety
    ///
    /// `registry` is null, or open and not closed before the call returns, by another thread too.
    /// `nodes` can be read for `count` elements. `pool` can be read for `pool_length` elements.
    /// `out` can be written for `room` bytes. `answer` can be written. What is written overlaps
    /// nothing else that the call is given.
    pub fn scaleview_encode_nodes(
        registry: scaleview_registry,
        id: u32,
        depth: u16,
        memory: u64,
        nodes: *const scaleview_node,
        count: usize,
        pool: *const u8,
        pool_length: usize,
        out: *mut u8,
        room: usize,
        answer: *mut scaleview_answer,
    ) -> u32;

    /// Starts a value whose bytes come in pieces.
    ///
    /// # Safety
    ///
    /// `registry` is null, or open and not closed before the call returns, by another thread too.
    /// `session` points to a handle that this call alone uses. `answer` can be written. What is
    /// written overlaps nothing else that the call is given.
    pub fn scaleview_start(
        registry: scaleview_registry,
        id: u32,
        depth: u16,
        limit: u64,
        memory: u64,
        session: *mut scaleview_session,
        answer: *mut scaleview_answer,
    ) -> u32;

    /// Feeds the next piece, which may be empty.
    ///
    /// # Safety
    ///
    /// `session` points to a handle that is null or was set by [`scaleview_start`], which this call
    /// alone uses. `piece` can be read for `length` elements. `answer` can be written. What is
    /// written overlaps nothing else that the call is given.
    pub fn scaleview_feed(
        session: *mut scaleview_session,
        piece: *const u8,
        length: usize,
        answer: *mut scaleview_answer,
    ) -> u32;

    /// Reports the number of bytes taken of all pieces.
    ///
    /// # Safety
    ///
    /// `session` points to a handle that is null or was set by [`scaleview_start`], which this call
    /// alone uses. `answer` can be written. What is written overlaps nothing else that the call is
    /// given.
    pub fn scaleview_taken(session: *mut scaleview_session, answer: *mut scaleview_answer) -> u32;

    /// Reports the number of nodes held.
    ///
    /// # Safety
    ///
    /// `session` points to a handle that is null or was set by [`scaleview_start`], which this call
    /// alone uses. `answer` can be written. What is written overlaps nothing else that the call is
    /// given.
    pub fn scaleview_nodes(session: *mut scaleview_session, answer: *mut scaleview_answer) -> u32;

    /// Reports the number of bytes of texts, byte runs and bit sequences held.
    ///
    /// # Safety
    ///
    /// `session` points to a handle that is null or was set by [`scaleview_start`], which this call
    /// alone uses. `answer` can be written. What is written overlaps nothing else that the call is
    /// given.
    pub fn scaleview_text_bytes(
        session: *mut scaleview_session,
        answer: *mut scaleview_answer,
    ) -> u32;

    /// Ends the value, and writes its JSON to `out`.
    ///
    /// # Safety
    ///
    /// `session` points to a handle that is null or was set by [`scaleview_start`], which this call
    /// alone uses. `out` can be written for `room` bytes. `answer` can be written. What is written
    /// overlaps nothing else that the call is given.
    pub fn scaleview_finish(
        session: *mut scaleview_session,
        out: *mut u8,
        room: usize,
        answer: *mut scaleview_answer,
    ) -> u32;

    /// Ends the value, and writes its nodes and their bytes.
    ///
    /// # Safety
    ///
    /// `session` points to a handle that is null or was set by [`scaleview_start`], which this call
    /// alone uses. `nodes` can be written for `node_room` elements. `pool` can be written for
    /// `pool_room` bytes. `answer` can be written. What is written overlaps nothing else that the
    /// call is given.
    pub fn scaleview_finish_nodes(
        session: *mut scaleview_session,
        nodes: *mut scaleview_node,
        node_room: usize,
        pool: *mut u8,
        pool_room: usize,
        answer: *mut scaleview_answer,
    ) -> u32;

    /// Frees a session and sets it to null.
    ///
    /// # Safety
    ///
    /// `session` points to a handle that is null or was set by [`scaleview_start`], which this call
    /// alone uses. The registry isn't closed before the call returns, by another thread too.
    pub fn scaleview_free(session: *mut scaleview_session) -> u32;

    /// Writes the name of a code to `out`, at most 18 bytes of ASCII.
    ///
    /// # Safety
    ///
    /// `out` can be written for `room` bytes. `answer` can be written. What is written overlaps
    /// nothing else that the call is given.
    pub fn scaleview_reason(
        code: u32,
        out: *mut u8,
        room: usize,
        answer: *mut scaleview_answer,
    ) -> u32;

    /// Returns the version of the library, which is [`SCALEVIEW_VERSION`] if these declarations are
    /// its own.
    pub safe fn scaleview_version() -> u32;
}
