//! Why there is no answer, and where.

use crate::buffer::{self, pad};
use crate::json::Quoted;
use crate::type_id::TypeId;
use scaleview_sys::{self as sys, scaleview_answer as Answer};
use std::fmt;

macro_rules! reasons {
    ($(#[$about:meta])* $name:ident: $($code:literal $reason:ident $what:literal,)+) => {
        $(#[$about])*
        #[derive(Clone, Copy, Debug, PartialEq, Eq, Hash)]
        #[non_exhaustive]
        pub enum $name {
            $(#[doc = $what] $reason,)+
        }

        impl $name {
            fn of(code: u32) -> Option<$name> {
                match code {
                    $($code => Some($name::$reason),)+
                    _ => None,
                }
            }

            /// Returns the library's number for it, which never changes.
            pub fn code(self) -> u32 {
                match self {
                    $($name::$reason => $code,)+
                }
            }
        }

        impl fmt::Display for $name {
            fn fmt(&self, f: &mut fmt::Formatter<'_>) -> fmt::Result {
                match self {
                    $($name::$reason => f.pad(stringify!($reason)),)+
                }
            }
        }
    };
}

reasons! {
    /// Why a registry's bytes are rejected, by the names that the command prints.
    RegistryReason:
    101 Truncated "The bytes end inside the registry.",
    102 BadUtf8 "A text is not UTF-8.",
    103 CompactNotShortest "A compact integer has a shorter form.",
    104 CompactTooLarge "A compact integer is out of range.",
    105 BadOption "The byte of an option is neither 0 nor 1.",
    106 BadDefinition "The byte of a definition is above 7.",
    107 BadPrimitive "The byte of a primitive is above 14.",
    108 IdOutOfPlace "The id of a type is not its position.",
    109 NotMetadata "The first four bytes are not those of metadata.",
    110 WrongVersion "The metadata is of another version than 14 and 15.",
    111 TrailingBytes "Bytes follow the registry.",
}

reasons! {
    /// Why a value's bytes are rejected, by the names that the command prints.
    ValueReason:
    301 Truncated "The bytes end inside the value.",
    302 BadBool "The byte of a boolean is neither 0 nor 1.",
    303 BadChar "Four bytes are no Unicode scalar value.",
    304 BadUtf8 "A text is not UTF-8.",
    305 CompactNotShortest "A compact integer has a shorter form.",
    306 CompactTooLarge "A compact integer is out of range.",
    307 NoSuchVariant "No variant has this index.",
    308 TooDeep "A part is deeper than the limit.",
    309 NoFiniteValue "The type has no finite value.",
    310 BitSequence "The type is a bit sequence that the registry doesn't read.",
    311 BadCompact "The type is a compact that wraps no unsigned integer.",
    312 TooLong "The value has more bytes than the limit.",
    313 TrailingBytes "Bytes follow the value.",
    314 UnusedBits "A bit that stands for none of a bit sequence is 1.",
}

reasons! {
    /// Why a node of a value that is encoded is rejected.
    NodeReason:
    401 TooDeep "It is deeper than the limit.",
    402 NoFiniteValue "Its type has no finite value.",
    403 BitSequence "Its type is a bit sequence that the registry doesn't read.",
    404 BadCompact "Its type is a compact that wraps no unsigned integer.",
    405 WrongKind "It is of another kind than its type.",
    406 OutOfRange "A number, a length or the number of its children is out of range.",
    407 NoSuchVariant "Its type has no such variant.",
    408 UnfinishedValue "A node is missing.",
    409 BadText "A text is not UTF-8.",
}

/// Why there is no answer. Places are in bytes from the start of the input, for a session in all
/// its pieces.
///
/// It is displayed as the command tells it.
///
/// # Examples
///
/// ```
/// # use scaleview::{Error, Registry, ValueReason};
/// # fn main() -> Result<(), Error> {
/// let registry = Registry::open(b"\x04\x00\x00\x00\x05\x05\x00")?;
/// let error = registry.decode(0, b"\x01\x02").unwrap_err();
/// assert_eq!(error, Error::Value { reason: ValueReason::Truncated, place: 2 });
/// assert_eq!(error.to_string(), "value: Truncated at 2");
/// # Ok(())
/// # }
/// ```
#[derive(Clone, Debug, PartialEq, Eq, Hash)]
#[non_exhaustive]
pub enum Error {
    /// The registry's bytes are rejected.
    Registry {
        /// Why.
        reason: RegistryReason,
        /// Where.
        place: u64,
    },
    /// The type `from` of the registry refers to the type `to`, which doesn't exist.
    UnknownReference {
        /// The type that refers.
        from: TypeId,
        /// The type that doesn't exist.
        to: TypeId,
    },
    /// What follows the registry in metadata is rejected, which
    /// [`Metadata::open`](crate::Metadata::open) reads.
    Metadata {
        /// Why.
        reason: ValueReason,
        /// Where, from the first byte of the metadata.
        place: u64,
    },
    /// What follows the registry in metadata refers to the type `to`, which doesn't exist.
    UnknownMetadataReference {
        /// The type that doesn't exist.
        to: TypeId,
        /// Where the reference is, from the first byte of the metadata.
        place: u64,
    },
    /// There are more types, references, names, fields or bytes of a name than numbers of 32 bits.
    TooLarge,
    /// The metadata has no such name.
    UnknownName {
        /// The name as a whole, such as `storage:System.Account`.
        name: String,
    },
    /// The metadata has no bytes for a name: see [`Named::has_bytes`](crate::Named::has_bytes).
    NoBytes {
        /// The name as a whole.
        name: String,
    },
    /// The registry has no type at this position.
    UnknownType {
        /// The position.
        id: TypeId,
    },
    /// The depth is above 1024, or the limit of bytes above 2^40.
    LimitOutOfRange,
    /// The value's bytes are rejected.
    Value {
        /// Why.
        reason: ValueReason,
        /// Where.
        place: u64,
    },
    /// A node of the value to be encoded is rejected.
    Node {
        /// Why.
        reason: NodeReason,
        /// Which: 0 is the value, and each node comes before its children, which are in the order
        /// of their type. An [`Item`](crate::Item) is one node, and so is, with all its parts, one
        /// whose type takes no bytes or is a sequence of elements that take none.
        index: u64,
    },
    /// An [`Item`](crate::Item) names a field that its type doesn't have, or names one twice. This
    /// is returned also if a field is missing.
    UnknownField {
        /// Which item: 0 is the value, and each item comes before its children, which are in the
        /// order of the item's list. All items count, also those whose types take no bytes.
        index: u64,
        /// The position of the first such name in the item's list.
        field: u32,
    },
    /// An [`Item`](crate::Item) doesn't name all fields of its type.
    MissingField {
        /// Which item, as in [`UnknownField`](Error::UnknownField).
        index: u64,
        /// The position of the first missing field in the type.
        field: u32,
    },
    /// An allocation failed, or would have exceeded the budget of [`Limits`](crate::Limits).
    Memory,
    /// The library that is linked is of another version than this crate, by
    /// [`scaleview_sys::scaleview_version`].
    Version {
        /// The library's version: 10000 times the major number, 100 times the minor one, and the
        /// patch number.
        found: u32,
    },
    /// The library returned what its header doesn't promise.
    Library {
        /// The code that it returned.
        code: u32,
    },
}

impl Error {
    pub(crate) fn of(answer: Answer) -> Error {
        if let Some(reason) = RegistryReason::of(answer.code) {
            return Error::Registry {
                reason,
                place: answer.at,
            };
        }
        if let Some(reason) = ValueReason::of(answer.code) {
            return Error::Value {
                reason,
                place: answer.at,
            };
        }
        if let Some(reason) = NodeReason::of(answer.code) {
            return Error::Node {
                reason,
                index: answer.at,
            };
        }
        match answer.code {
            sys::SCALEVIEW_MEMORY => Error::Memory,
            sys::SCALEVIEW_REGISTRY_UNKNOWN_REFERENCE => Error::UnknownReference {
                from: TypeId::new(answer.from),
                to: TypeId::new(answer.at as u32),
            },
            sys::SCALEVIEW_METADATA_UNKNOWN_REFERENCE => Error::UnknownMetadataReference {
                to: TypeId::new(answer.from),
                place: answer.at,
            },
            sys::SCALEVIEW_REGISTRY_TOO_LARGE => Error::TooLarge,
            sys::SCALEVIEW_LIMIT_OUT_OF_RANGE => Error::LimitOutOfRange,
            code => Error::Library { code },
        }
    }

    /// The error of a call that opens a registry, whose reasons of a value are about what follows
    /// the registry.
    pub(crate) fn of_opening(answer: Answer) -> Error {
        match Error::of(answer) {
            Error::Value { reason, place } => Error::Metadata { reason, place },
            error => error,
        }
    }

    /// The error of a name that the metadata doesn't have, of a word and what follows it.
    pub(crate) fn unknown_name(word: &str, path: &str) -> Error {
        match buffer::joined(word, path) {
            Ok(name) => Error::UnknownName { name },
            Err(error) => error,
        }
    }

    /// The error of a name for which the metadata has no bytes.
    pub(crate) fn no_bytes(name: &str) -> Error {
        match buffer::joined(name, "") {
            Ok(name) => Error::NoBytes { name },
            Err(error) => error,
        }
    }

    /// The error of a call that names a type.
    pub(crate) fn of_type(id: TypeId) -> impl Fn(Answer) -> Error {
        move |answer| match answer.code {
            sys::SCALEVIEW_UNKNOWN_TYPE => Error::UnknownType { id },
            _ => Error::of(answer),
        }
    }
}

impl fmt::Display for Error {
    fn fmt(&self, f: &mut fmt::Formatter<'_>) -> fmt::Result {
        match self {
            Error::Registry { reason, place } => {
                pad(f, format_args!("registry: {reason} at {place}"))
            }
            Error::UnknownReference { from, to } => {
                pad(f, format_args!("check: UnknownType {to} in type {from}"))
            }
            Error::Metadata { reason, place } => {
                pad(f, format_args!("registry: {reason} at {place}"))
            }
            Error::UnknownMetadataReference { to, place } => pad(
                f,
                format_args!("registry: UnknownReference to type {to} at {place}"),
            ),
            Error::UnknownName { name } => {
                pad(f, format_args!("type: UnknownName {}", Quoted(name)))
            }
            Error::NoBytes { name } => pad(f, format_args!("type: NoBytes {}", Quoted(name))),
            Error::UnknownType { id } => pad(f, format_args!("type: UnknownType {id}")),
            Error::TooLarge => f.pad("registry: TooLarge"),
            Error::LimitOutOfRange => f.pad("limits: LimitOutOfRange"),
            Error::Value { reason, place } => pad(f, format_args!("value: {reason} at {place}")),
            Error::Node { reason, index } => pad(f, format_args!("node: {reason} at {index}")),
            Error::UnknownField { index, field } => {
                pad(f, format_args!("node: UnknownField {field} at {index}"))
            }
            Error::MissingField { index, field } => {
                pad(f, format_args!("node: MissingField {field} at {index}"))
            }
            Error::Memory => f.pad("memory"),
            Error::Version { found } => pad(f, format_args!("library: version {found}")),
            Error::Library { code } => pad(f, format_args!("library: code {code}")),
        }
    }
}

impl std::error::Error for Error {}
