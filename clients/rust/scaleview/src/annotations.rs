//! What a registry says of types for their readers: parameters, names of fields' types,
//! documentation.

use crate::describe::{named, Reader};
use crate::error::Error;
use crate::type_id::TypeId;
use crate::types::Type;
use scaleview_sys::{self as sys, scaleview_answer as Answer};

/// A parameter of a generic type.
#[derive(Clone, Debug, PartialEq, Eq, Hash)]
pub struct Param {
    name: String,
    type_id: Option<TypeId>,
}

impl Param {
    /// Returns its name, such as `T`.
    pub fn name(&self) -> &str {
        &self.name
    }

    /// Returns the position of the type that stands for it, if there is one. It need not exist.
    pub fn type_id(&self) -> Option<TypeId> {
        self.type_id
    }
}

/// A part of a type, by positions that count from 0.
#[derive(Clone, Copy, Debug, PartialEq, Eq, Hash)]
#[non_exhaustive]
pub enum Part {
    /// A field of a composite.
    Field(u32),
    /// A variant of an enum, by its position and not by its index.
    Variant(u32),
    /// A field of a variant of an enum.
    VariantField {
        /// The position of the variant.
        variant: u32,
        /// The position of the field in it.
        field: u32,
    },
}

impl Part {
    /// Returns the positions of the arm and of the field, as the library takes them.
    fn positions(part: Option<Part>) -> (u32, u32) {
        match part {
            None => (sys::SCALEVIEW_NONE, sys::SCALEVIEW_NONE),
            Some(Part::Field(field)) => (sys::SCALEVIEW_NONE, field),
            Some(Part::Variant(variant)) => (variant, sys::SCALEVIEW_NONE),
            Some(Part::VariantField { variant, field }) => (variant, field),
        }
    }
}

/// Returns the texts that calls with the positions from 0 on write, until there is no such part.
fn texts(
    mut call: impl FnMut(u32, *mut u8, usize, &mut Answer) -> u32,
) -> Result<Vec<(String, Answer)>, Error> {
    let mut found = Vec::new();
    for position in 0.. {
        let mut code = sys::SCALEVIEW_OK;
        let text = named(|out, room, answer| {
            code = call(position, out, room, answer);
            code
        });
        if code == sys::SCALEVIEW_UNKNOWN_PART {
            break;
        }
        found.try_reserve(1).map_err(|_| Error::Memory)?;
        found.push(text?);
    }
    Ok(found)
}

impl Reader {
    fn params(self, id: TypeId) -> Result<Vec<Param>, Error> {
        let found = texts(|position, out, room, answer| {
            // SAFETY: the registry is open and only read; the place is `named`'s.
            unsafe { sys::scaleview_param(self.handle(), id.get(), position, out, room, answer) }
        })?;
        let params = found.into_iter().map(|(name, answer)| Param {
            name,
            type_id: (answer.at == 1).then_some(TypeId::new(answer.from)),
        });
        Ok(params.collect())
    }

    fn docs(self, id: TypeId, part: Option<Part>) -> Result<Vec<String>, Error> {
        let (arm, field) = Part::positions(part);
        let found = texts(|line, out, room, answer| {
            // SAFETY: as above.
            unsafe {
                sys::scaleview_docs(self.handle(), id.get(), arm, field, line, out, room, answer)
            }
        })?;
        Ok(found.into_iter().map(|(line, _)| line).collect())
    }

    fn type_name(self, id: TypeId, part: Part) -> Result<Option<String>, Error> {
        let (arm, field) = Part::positions(Some(part));
        let mut code = sys::SCALEVIEW_OK;
        let found = named(|out, room, answer| {
            // SAFETY: as above.
            code = unsafe {
                sys::scaleview_type_name(self.handle(), id.get(), arm, field, out, room, answer)
            };
            code
        });
        if code == sys::SCALEVIEW_UNKNOWN_PART {
            return Ok(None);
        }
        let (name, answer) = found?;
        Ok((answer.at == 1).then_some(name))
    }
}

/// # What the source said
///
/// These are read from the registry each time; nothing of them is kept.
impl Type<'_> {
    /// Returns the parameters of a generic type; other types have none.
    ///
    /// # Errors
    /// `Memory`.
    ///
    /// # Examples
    ///
    /// ```
    /// # use scaleview::{Error, Part, Registry};
    /// # fn main() -> Result<(), Error> {
    /// # let bytes = b"\x04\x00\x04\x04W\x04\x04T\x01\x00\x00\x04\x01\x04x\x00\x01\x04T\x04\x08of\x04\x04A";
    /// let registry = Registry::open(bytes)?;
    /// // /// A
    /// // struct W<T> {
    /// //     /// of
    /// //     x: T,
    /// // }
    /// let one = registry.get(0).unwrap();
    /// let params = one.params()?;
    /// assert_eq!((params[0].name(), params[0].type_id()), ("T", Some(0.into())));
    /// assert_eq!(one.docs()?, ["A"]);
    /// assert_eq!(one.docs_of(Part::Field(0))?, ["of"]);
    /// assert_eq!(one.type_name_of(Part::Field(0))?.as_deref(), Some("T"));
    /// # Ok(())
    /// # }
    /// ```
    pub fn params(self) -> Result<Vec<Param>, Error> {
        self.registry
            .reading(|handle| unsafe { Reader::new(handle) }.params(self.id))
    }

    /// Returns the lines of its documentation.
    ///
    /// # Errors
    /// As [`params`](Type::params).
    pub fn docs(self) -> Result<Vec<String>, Error> {
        self.registry
            .reading(|handle| unsafe { Reader::new(handle) }.docs(self.id, None))
    }

    /// Returns the lines of a part's documentation; none if the type has no such part.
    ///
    /// # Errors
    /// As [`params`](Type::params).
    pub fn docs_of(self, part: Part) -> Result<Vec<String>, Error> {
        self.registry
            .reading(|handle| unsafe { Reader::new(handle) }.docs(self.id, Some(part)))
    }

    /// Returns the name of a field's type as the source has it, or `None` if the registry doesn't
    /// have it, or the type has no such field.
    ///
    /// # Errors
    /// As [`params`](Type::params).
    pub fn type_name_of(self, part: Part) -> Result<Option<String>, Error> {
        self.registry
            .reading(|handle| unsafe { Reader::new(handle) }.type_name(self.id, part))
    }
}
