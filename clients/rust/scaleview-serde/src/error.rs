//! Why a value doesn't become a type of Rust.

use std::fmt;

/// Why bytes or a value don't become a type of Rust.
#[derive(Clone, Debug, PartialEq, Eq)]
#[non_exhaustive]
pub enum Error {
    /// The bytes are rejected.
    Decode(scaleview::Error),
    /// The value doesn't fit the type of Rust.
    Mismatch {
        /// What doesn't fit, in serde's words.
        message: String,
        /// The path of the part: names of fields and variants, and positions, with a dot between.
        path: String,
    },
}

impl Error {
    /// Puts a step in front of the path.
    pub(crate) fn within(self, step: &dyn fmt::Display) -> Error {
        match self {
            Error::Mismatch { message, path } if path.is_empty() => Error::Mismatch {
                message,
                path: step.to_string(),
            },
            Error::Mismatch { message, path } => Error::Mismatch {
                message,
                path: format!("{step}.{path}"),
            },
            error => error,
        }
    }
}

impl fmt::Display for Error {
    fn fmt(&self, f: &mut fmt::Formatter<'_>) -> fmt::Result {
        match self {
            Error::Decode(error) => fmt::Display::fmt(error, f),
            Error::Mismatch { message, path } if path.is_empty() => f.write_str(message),
            Error::Mismatch { message, path } => write!(f, "{message} at {path}"),
        }
    }
}

impl std::error::Error for Error {
    fn source(&self) -> Option<&(dyn std::error::Error + 'static)> {
        match self {
            Error::Decode(error) => Some(error),
            Error::Mismatch { .. } => None,
        }
    }
}

impl serde::de::Error for Error {
    fn custom<T: fmt::Display>(message: T) -> Error {
        Error::Mismatch {
            message: message.to_string(),
            path: String::new(),
        }
    }
}

impl From<scaleview::Error> for Error {
    fn from(error: scaleview::Error) -> Error {
        Error::Decode(error)
    }
}
