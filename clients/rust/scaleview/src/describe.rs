//! Reads what a registry says of a type.

use crate::bits::Form;
use crate::buffer;
use crate::error::Error;
use crate::type_id::TypeId;
use crate::types::{Field, FieldList, Keys, Primitive, Variant};
use scaleview_sys::{
    self as sys, scaleview_answer as Answer, scaleview_registry as Handle,
    scaleview_type_shape as Shape,
};

/// What is read of a type once, and kept.
#[derive(Debug)]
pub(crate) struct Details {
    pub shape: Shape,
    pub path: String,
    pub list: FieldList,
    pub variants: Vec<Variant>,
    /// How a bit sequence stores its bits.
    pub form: Option<Form>,
}

/// An open registry that nothing changes meanwhile.
#[derive(Clone, Copy)]
pub(crate) struct Reader {
    handle: Handle,
}

/// The room on the stack for a name, which most names have.
const NAME: usize = 128;

impl Reader {
    /// # Safety
    /// The registry is open, and only calls that read it run, while this value is used.
    pub unsafe fn new(handle: Handle) -> Reader {
        Reader { handle }
    }

    /// Returns the handle, for calls that only read the registry.
    pub fn handle(self) -> Handle {
        self.handle
    }

    /// Returns what the type is.
    pub fn shape(self, id: TypeId) -> Result<Shape, Answer> {
        let (mut shape, mut answer) = (Shape::default(), Answer::default());
        // SAFETY: the registry is open and only read, and both places are this call's.
        match unsafe { sys::scaleview_type(self.handle, id.get(), &mut shape, &mut answer) } {
            sys::SCALEVIEW_OK => Ok(shape),
            _ => Err(answer),
        }
    }

    /// Returns the type of the first field or member.
    pub fn first_part(self, id: TypeId) -> Option<TypeId> {
        let (mut nothing, mut answer) = ([0], Answer::default());
        // SAFETY: as above. There is room for no byte of a name.
        match unsafe {
            sys::scaleview_part(
                self.handle,
                id.get(),
                0,
                nothing.as_mut_ptr(),
                0,
                &mut answer,
            )
        } {
            sys::SCALEVIEW_OK | sys::SCALEVIEW_NO_ROOM => Some(TypeId::new(answer.from)),
            _ => None,
        }
    }

    fn path(self, id: TypeId) -> Result<String, Error> {
        let call = |out, room, answer: &mut Answer| {
            // SAFETY: as above; the place is `buffer::text`'s.
            unsafe { sys::scaleview_path(self.handle, id.get(), out, room, answer) }
        };
        // SAFETY: the header promises what `text` wants.
        unsafe { buffer::text(NAME, call) }.map_err(Error::of_type(id))
    }

    fn fields(
        self,
        count: u32,
        mut call: impl FnMut(u32, *mut u8, usize, &mut Answer) -> u32,
    ) -> Result<FieldList, Error> {
        let mut fields = buffer::reserved(count as usize)?;
        for position in 0..count {
            let (name, answer) = named(|out, room, answer| call(position, out, room, answer))?;
            fields.push(Field {
                name: (answer.at == 1).then_some(name),
                type_id: TypeId::new(answer.from),
            });
        }
        let keys = keys_of(&fields)?;
        Ok(FieldList { fields, keys })
    }

    fn variant(self, id: TypeId, arm: u32) -> Result<Variant, Error> {
        let (name, answer) = named(|out, room, answer| {
            // SAFETY: as above; the place is `named`'s.
            unsafe { sys::scaleview_arm(self.handle, id.get(), arm, out, room, answer) }
        })?;
        let count = u32::try_from(answer.at).map_err(|_| Error::Memory)?;
        let list = self.fields(count, |field, out, room, answer| {
            // SAFETY: as above.
            unsafe {
                sys::scaleview_arm_field(self.handle, id.get(), arm, field, out, room, answer)
            }
        })?;
        Ok(Variant {
            name,
            index: answer.from as u8,
            list,
        })
    }

    /// Returns how a bit sequence stores its bits. Its store and its order need not exist.
    fn form(self, shape: Shape) -> Result<Option<Form>, Error> {
        if shape.kind != sys::SCALEVIEW_BIT_SEQUENCE {
            return Ok(None);
        }
        let store = self.shape(TypeId::new(shape.element)).unwrap_or_default();
        if store.kind != sys::SCALEVIEW_PRIMITIVE {
            return Ok(None);
        }
        match self.path(TypeId::new(shape.order)) {
            Ok(order) => Ok(Form::of(Primitive::of(store.primitive), &order)),
            Err(Error::UnknownType { .. }) => Ok(None),
            Err(error) => Err(error),
        }
    }

    /// Returns all that the registry says of the type.
    pub fn details(self, id: TypeId) -> Result<Details, Error> {
        let shape = self.shape(id).map_err(Error::of_type(id))?;
        let path = self.path(id)?;
        let is_variant = shape.kind == sys::SCALEVIEW_VARIANT;
        let list = self.fields(
            if is_variant { 0 } else { shape.parts },
            |part, out, room, answer| {
                // SAFETY: as above.
                unsafe { sys::scaleview_part(self.handle, id.get(), part, out, room, answer) }
            },
        )?;
        let arms = if is_variant { shape.parts } else { 0 };
        let mut variants = buffer::reserved(arms as usize)?;
        for arm in 0..arms {
            variants.push(self.variant(id, arm)?);
        }
        Ok(Details {
            shape,
            path,
            list,
            variants,
            form: self.form(shape)?,
        })
    }
}

/// Returns the name that a call writes, and the call's answer.
pub(crate) fn named(
    mut call: impl FnMut(*mut u8, usize, &mut Answer) -> u32,
) -> Result<(String, Answer), Error> {
    let (mut room, mut answer) = ([0; NAME], Answer::default());
    let name = match call(room.as_mut_ptr(), NAME, &mut answer) {
        sys::SCALEVIEW_OK => {
            let bytes = usize::try_from(answer.length)
                .ok()
                .and_then(|length| room.get(..length));
            let mut name = Vec::new();
            buffer::extend(&mut name, bytes.ok_or(Error::of(answer))?)?;
            name
        }
        sys::SCALEVIEW_NO_ROOM => {
            let length = usize::try_from(answer.length).map_err(|_| Error::Memory)?;
            let mut name = buffer::reserved(length)?;
            name.resize(length, 0);
            match call(name.as_mut_ptr(), name.len(), &mut answer) {
                sys::SCALEVIEW_OK => name,
                _ => return Err(Error::of(answer)),
            }
        }
        _ => return Err(Error::of(answer)),
    };
    // The header promises UTF-8.
    let name = String::from_utf8(name).map_err(|_| Error::Library { code: answer.code })?;
    Ok((name, answer))
}

/// Returns the order of the names of fields.
fn keys_of(fields: &[Field]) -> Result<Keys, Error> {
    if fields.is_empty() || fields.iter().any(|field| field.name.is_none()) {
        return Ok(Keys::Array);
    }
    if fields
        .windows(2)
        .all(|pair| matches!(pair, [one, other] if one.name < other.name))
    {
        return Ok(Keys::InOrder);
    }
    let mut order: Vec<u32> = buffer::reserved(fields.len())?;
    order.extend((0..).take(fields.len()));
    let name = |position: &u32| fields.get(*position as usize).and_then(Field::name);
    order.sort_unstable_by(|one, other| name(one).cmp(&name(other)));
    let differ = order
        .windows(2)
        .all(|pair| matches!(pair, [one, other] if name(one) != name(other)));
    Ok(if differ {
        Keys::Sorted(order)
    } else {
        Keys::Array
    })
}
