//! Where in a value its bytes are rejected.

use crate::buffer::{self, Text};
use crate::error::Error;
use crate::limits::Limits;
use crate::registry::Registry;
use crate::type_id::TypeId;
use crate::types::Field;
use scaleview_sys::{self as sys, scaleview_answer as Answer, scaleview_step as Step};
use std::fmt::Write;

/// The greatest depth that the library takes.
const MAX_DEPTH: u16 = 1024;

impl Registry {
    /// Returns the steps to where bytes are rejected or end, or `None` if they begin with a
    /// complete value.
    fn steps(&self, id: TypeId, bytes: &[u8], limits: Limits) -> Result<Option<Vec<Step>>, Error> {
        // There are at most as many steps as levels.
        let room = usize::from(limits.depth.min(MAX_DEPTH)) + 1;
        let (mut steps, mut answer) = (buffer::reserved(room)?, Answer::default());
        steps.resize(room, Step::default());
        let memory = limits.budget(bytes.len() as u64);
        // SAFETY: the registry is open; the slice and the places are this call's.
        let code = self.reading(|handle| unsafe {
            sys::scaleview_path_of(
                handle,
                id.get(),
                limits.depth,
                limits.bytes,
                memory,
                bytes.as_ptr(),
                bytes.len(),
                steps.as_mut_ptr(),
                room,
                &mut answer,
            )
        });
        if code != sys::SCALEVIEW_OK {
            return Err(Error::of_type(id)(answer));
        }
        steps.truncate(answer.length as usize);
        Ok((answer.at == 1).then_some(steps))
    }

    /// Appends a step to a path.
    fn write_step(&self, path: &mut Text, step: Step) -> Result<(), Error> {
        let details = self.details(TypeId::new(step.r#type))?;
        let variant = match details.shape.kind {
            sys::SCALEVIEW_VARIANT => details.variants.get(step.arm as usize),
            _ => None,
        };
        let list = variant.map_or(&details.list, |variant| &variant.list);
        let field = list.fields.get(step.part as usize);
        let names = [
            variant.map(|variant| variant.name()),
            field.and_then(Field::name),
        ];
        for name in names.into_iter().flatten() {
            let dot = if path.is_empty() { "" } else { "." };
            write!(path, "{dot}{name}").map_err(|_| Error::Memory)?;
        }
        if let [_, None] = names {
            write!(path, "[{}]", step.part).map_err(|_| Error::Memory)?;
        }
        Ok(())
    }

    /// Returns the path to where bytes are rejected or end, or `None` if they begin with a complete
    /// value.
    fn path_to_error(
        &self,
        id: TypeId,
        bytes: &[u8],
        limits: Limits,
    ) -> Result<Option<String>, Error> {
        let Some(steps) = self.steps(id, bytes, limits)? else {
            return Ok(None);
        };
        let mut path = Text::default();
        for step in steps {
            self.write_step(&mut path, step)?;
        }
        path.into_string().map(Some)
    }
}

impl Error {
    /// Returns where in a value its bytes are rejected or end: the names of variants and fields
    /// with a dot between, and in brackets the positions of fields without a name, members and
    /// elements. It is empty for the value itself.
    ///
    /// The arguments are those of the call that returned the error; a session doesn't keep its
    /// bytes. They are decoded again, up to the error.
    ///
    /// It is `None` unless the error is [`Value`](Error::Value), for `TrailingBytes`, and if there
    /// is no memory for it.
    ///
    /// # Examples
    ///
    /// ```
    /// # use std::{error::Error, fs};
    /// # use scaleview::{Limits, Metadata};
    /// # fn main() -> Result<(), Box<dyn Error>> {
    /// # std::env::set_current_dir(concat!(env!("CARGO_MANIFEST_DIR"), "/../../.."))?;
    /// # let metadata = Metadata::open(&fs::read("examples/chain/chain.metadata")?)?;
    /// let account = metadata.storage("System.Account")?.type_id();
    /// let error = metadata.decode(account, &[0; 20]).unwrap_err();
    /// assert_eq!(error.to_string(), "value: Truncated at 20");
    ///
    /// let path = error.path(&metadata, account, &[0; 20], Limits::new());
    /// assert_eq!(path.as_deref(), Some("data.free"));
    /// # Ok(())
    /// # }
    /// ```
    pub fn path(
        &self,
        registry: &Registry,
        id: impl Into<TypeId>,
        bytes: &[u8],
        limits: Limits,
    ) -> Option<String> {
        match self {
            Error::Value { .. } => registry.path_to_error(id.into(), bytes, limits).ok()?,
            _ => None,
        }
    }
}
