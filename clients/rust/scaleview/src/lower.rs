//! Turns items into nodes, by the types that a registry says they have.

use crate::bits::Bits;
use crate::buffer;
use crate::describe::Details;
use crate::error::{Error, NodeReason};
use crate::item::Item;
use crate::registry::Registry;
use crate::type_id::TypeId;
use crate::types::{Field, Primitive, Variant};
use scaleview_sys::{self as sys, scaleview_node as Node, scaleview_type_shape as Shape};
use std::borrow::Cow;
use std::ptr;

/// An item and its name.
type Named<'a> = (Cow<'a, str>, Item<'a>);

/// Nodes that are made of items, and the items that are not taken yet, the next one last.
struct Lowering<'a> {
    registry: &'a Registry,
    root: &'a Item<'a>,
    nodes: Vec<Node>,
    pool: Vec<u8>,
    rest: Vec<(TypeId, &'a Item<'a>)>,
}

/// Returns the nodes of an item of the type at this position, and their bytes.
pub(crate) fn lower<'a>(
    registry: &'a Registry,
    id: TypeId,
    item: &'a Item<'a>,
) -> Result<(Vec<Node>, Vec<u8>), Error> {
    let mut lowering = Lowering {
        registry,
        root: item,
        nodes: Vec::new(),
        pool: Vec::new(),
        rest: Vec::new(),
    };
    buffer::push(&mut lowering.rest, (id, item))?;
    while let Some((id, item)) = lowering.rest.pop() {
        lowering.take(id, item)?;
    }
    Ok((lowering.nodes, lowering.pool))
}

fn has_fields(shape: Shape) -> bool {
    matches!(shape.kind, sys::SCALEVIEW_COMPOSITE | sys::SCALEVIEW_TUPLE)
}

fn is_empty(shape: Shape) -> bool {
    shape.value_class == sys::SCALEVIEW_EMPTY
}

impl<'a> Lowering<'a> {
    /// The error of the node that is being made.
    fn rejected(&self, reason: NodeReason) -> Error {
        Error::Node {
            reason,
            index: self.nodes.len() as u64,
        }
    }

    fn shape(&self, id: TypeId) -> Result<Shape, Error> {
        Ok(self.registry.details(id)?.shape)
    }

    fn put(&mut self, kind: u32, id: TypeId, low: u64, high: u64) -> Result<(), Error> {
        buffer::push(
            &mut self.nodes,
            Node {
                kind,
                r#type: id.get(),
                low,
                high,
                ..Node::default()
            },
        )
    }

    fn put_bytes(&mut self, kind: u32, id: TypeId, bytes: &[u8]) -> Result<(), Error> {
        let at = self.pool.len() as u64;
        buffer::extend(&mut self.pool, bytes)?;
        self.put(kind, id, at, bytes.len() as u64)
    }

    /// Puts the node of a bit sequence, whose words are those of its type.
    fn put_bits(&mut self, id: TypeId, bits: Bits<'_>) -> Result<(), Error> {
        // The library rejects the node of a type of no form.
        let Some(form) = self.registry.details(id)?.form else {
            return self.put(sys::SCALEVIEW_NODE_BITS, id, 0, 0);
        };
        let at = bits.append(form, &mut self.pool)?;
        self.put(sys::SCALEVIEW_NODE_BITS, id, at as u64, bits.len() as u64)
    }

    fn put_parent(
        &mut self,
        kind: u32,
        id: TypeId,
        arm: u32,
        children: usize,
    ) -> Result<(), Error> {
        let children =
            u32::try_from(children).map_err(|_| self.rejected(NodeReason::OutOfRange))?;
        buffer::push(
            &mut self.nodes,
            Node {
                kind,
                r#type: id.get(),
                children,
                arm,
                ..Node::default()
            },
        )
    }

    /// Puts an integer as its type has it.
    fn put_number(&mut self, id: TypeId, number: u128, is_negative: bool) -> Result<(), Error> {
        use Primitive::{I8, I16, I32, I64, I128, I256, U256};
        let (low, high) = (number as u64, (number >> 64) as u64);
        let shape = self.shape(id)?;
        let is_above_signed = !is_negative && high >> 63 != 0;
        let primitive = if shape.kind == sys::SCALEVIEW_PRIMITIVE {
            Primitive::of(shape.primitive)
        } else {
            None
        };
        match primitive {
            Some(U256) if is_negative => Err(self.rejected(NodeReason::OutOfRange)),
            Some(U256 | I256) => {
                let sign = if is_negative { [0xff; 16] } else { [0; 16] };
                let at = self.pool.len() as u64;
                buffer::extend(&mut self.pool, &number.to_le_bytes())?;
                buffer::extend(&mut self.pool, &sign)?;
                self.put(sys::SCALEVIEW_NODE_WIDE, id, at, 32)
            }
            Some(I8 | I16 | I32 | I64 | I128) if is_above_signed => {
                Err(self.rejected(NodeReason::OutOfRange))
            }
            Some(I8 | I16 | I32 | I64 | I128) => {
                self.put(sys::SCALEVIEW_NODE_SIGNED, id, low, high)
            }
            _ if is_negative => Err(self.rejected(NodeReason::OutOfRange)),
            _ if shape.kind == sys::SCALEVIEW_COMPACT => {
                self.put(sys::SCALEVIEW_NODE_COMPACT, id, low, high)
            }
            _ => self.put(sys::SCALEVIEW_NODE_UNSIGNED, id, low, high),
        }
    }

    /// Leaves the items of fields to be taken.
    fn leave(&mut self, fields: &[Field], items: &'a [Item<'a>]) -> Result<(), Error> {
        if items.len() != fields.len() {
            return Err(self.rejected(NodeReason::OutOfRange));
        }
        for (field, item) in fields.iter().zip(items).rev() {
            buffer::push(&mut self.rest, (field.type_id, item))?;
        }
        Ok(())
    }

    /// Leaves the items of the fields of `owner` to be taken, in the order of the fields.
    fn leave_named(
        &mut self,
        fields: &[Field],
        owner: &Item<'a>,
        items: &'a [Named<'a>],
    ) -> Result<(), Error> {
        let names = fields.iter().map(Field::name);
        if names.eq(items.iter().map(|(name, _)| Some(name.as_ref()))) {
            for (field, (_, item)) in fields.iter().zip(items).rev() {
                buffer::push(&mut self.rest, (field.type_id, item))?;
            }
            return Ok(());
        }
        let found = Found::by_name(fields, items)?;
        if let Some(field) = found.unknown {
            let index = self.position_of(owner)?;
            return Err(Error::UnknownField { index, field });
        }
        if let Some(field) = found.items.iter().position(Option::is_none) {
            return Err(Error::MissingField {
                index: self.position_of(owner)?,
                field: field as u32,
            });
        }
        let found = fields.iter().zip(found.items).rev();
        for (field, item) in found.filter_map(|(field, item)| Some((field, item?))) {
            buffer::push(&mut self.rest, (field.type_id, item))?;
        }
        Ok(())
    }

    /// Leaves the elements of a list to be taken.
    fn leave_elements(&mut self, element: TypeId, items: &'a [Item<'a>]) -> Result<(), Error> {
        self.rest
            .try_reserve(items.len())
            .map_err(|_| Error::Memory)?;
        self.rest
            .extend(items.iter().rev().map(|item| (element, item)));
        Ok(())
    }

    /// Returns the position of an item among those of the root, each before its children.
    // Only an error needs it, so nothing else counts items.
    fn position_of(&self, wanted: &Item<'a>) -> Result<u64, Error> {
        let mut rest = Vec::new();
        buffer::push(&mut rest, self.root)?;
        let mut position = 0;
        while let Some(item) = rest.pop() {
            if ptr::eq(item, wanted) {
                break;
            }
            position += 1;
            match item {
                Item::Fields(items)
                | Item::Variant(_, items)
                | Item::IndexedVariant(_, items)
                | Item::List(items) => {
                    for item in items.iter().rev() {
                        buffer::push(&mut rest, item)?;
                    }
                }
                Item::Named(items) | Item::NamedVariant(_, items) => {
                    for (_, item) in items.iter().rev() {
                        buffer::push(&mut rest, item)?;
                    }
                }
                _ => {}
            }
        }
        Ok(position)
    }

    /// Leaves the parts of an item whose type takes no bytes to be checked.
    fn check_empty(&mut self, id: TypeId, item: &'a Item<'a>) -> Result<(), Error> {
        let Details { shape, list, .. } = self.registry.details(id)?;
        let is_array = shape.kind == sys::SCALEVIEW_ARRAY;
        match item {
            Item::Unit => Ok(()),
            Item::Fields(items) if has_fields(*shape) => self.leave(&list.fields, items),
            Item::Named(items) if has_fields(*shape) => self.leave_named(&list.fields, item, items),
            Item::List(items) if is_array => {
                if items.len() as u64 != u64::from(shape.length) {
                    return Err(self.rejected(NodeReason::OutOfRange));
                }
                self.leave_elements(TypeId::new(shape.element), items)
            }
            // An array of u8 that takes no bytes has none.
            Item::Bytes(bytes) if is_array && self.is_u8(TypeId::new(shape.element))? => {
                if bytes.is_empty() {
                    Ok(())
                } else {
                    Err(self.rejected(NodeReason::OutOfRange))
                }
            }
            _ => Err(self.rejected(NodeReason::WrongKind)),
        }
    }

    fn is_u8(&self, id: TypeId) -> Result<bool, Error> {
        let shape = self.shape(id)?;
        Ok(shape.kind == sys::SCALEVIEW_PRIMITIVE && shape.primitive == sys::SCALEVIEW_U8)
    }

    /// Checks the items that were left after the first `kept`, whose types take no bytes. They have
    /// no nodes of their own.
    fn check_left(&mut self, kept: usize) -> Result<(), Error> {
        while self.rest.len() > kept {
            if let Some((id, item)) = self.rest.pop() {
                self.check_empty(id, item)?;
            }
        }
        Ok(())
    }

    /// Puts the one node of an item whose type takes no bytes.
    fn take_empty(&mut self, id: TypeId, item: &'a Item<'a>) -> Result<(), Error> {
        let kept = self.rest.len();
        self.check_empty(id, item)?;
        self.check_left(kept)?;
        self.put(sys::SCALEVIEW_NODE_EMPTY, id, 0, 0)
    }

    /// Puts the node of a list, and leaves its elements to be taken.
    fn take_list(&mut self, id: TypeId, items: &'a [Item<'a>]) -> Result<(), Error> {
        let shape = self.shape(id)?;
        if !matches!(shape.kind, sys::SCALEVIEW_SEQUENCE | sys::SCALEVIEW_ARRAY) {
            return Err(self.rejected(NodeReason::WrongKind));
        }
        // An array of such elements takes no bytes itself, so this is a sequence.
        if is_empty(self.shape(TypeId::new(shape.element))?) {
            let kept = self.rest.len();
            self.leave_elements(TypeId::new(shape.element), items)?;
            self.check_left(kept)?;
            return self.put(sys::SCALEVIEW_NODE_COUNT, id, items.len() as u64, 0);
        }
        self.put_parent(sys::SCALEVIEW_NODE_LIST, id, 0, items.len())?;
        self.leave_elements(TypeId::new(shape.element), items)
    }

    /// Puts the node of a variant, and leaves its fields to be taken.
    fn take_variant(&mut self, id: TypeId, item: &'a Item<'a>) -> Result<(), Error> {
        let details = self.registry.details(id)?;
        if details.shape.kind != sys::SCALEVIEW_VARIANT {
            return Err(self.rejected(NodeReason::WrongKind));
        }
        let is_wanted = |variant: &Variant| match item {
            Item::Variant(name, _) | Item::NamedVariant(name, _) => variant.name() == name,
            Item::IndexedVariant(index, _) => variant.index() == *index,
            _ => false,
        };
        let mut variants = (0..).zip(&details.variants);
        let found = variants.find(|(_, variant)| is_wanted(variant));
        let (arm, variant) = found.ok_or_else(|| self.rejected(NodeReason::NoSuchVariant))?;
        match item {
            Item::NamedVariant(_, items) => self.leave_named(variant.fields(), item, items)?,
            Item::Variant(_, items) | Item::IndexedVariant(_, items) => {
                self.leave(variant.fields(), items)?
            }
            _ => {}
        }
        self.put_parent(sys::SCALEVIEW_NODE_ARM, id, arm, variant.fields().len())
    }

    /// Puts the node of an item, and leaves its parts to be taken.
    fn take(&mut self, id: TypeId, item: &'a Item<'a>) -> Result<(), Error> {
        let Details { shape, list, .. } = self.registry.details(id)?;
        if is_empty(*shape) {
            return self.take_empty(id, item);
        }
        match item {
            Item::Unit => self.put(sys::SCALEVIEW_NODE_EMPTY, id, 0, 0),
            Item::Bool(is) => self.put(sys::SCALEVIEW_NODE_BOOL, id, u64::from(*is), 0),
            Item::Char(c) => self.put(sys::SCALEVIEW_NODE_CHAR, id, u64::from(*c), 0),
            Item::Text(text) => self.put_bytes(sys::SCALEVIEW_NODE_TEXT, id, text.as_bytes()),
            Item::Bytes(bytes) => self.put_bytes(sys::SCALEVIEW_NODE_BYTES, id, bytes),
            Item::Bits(bits) => self.put_bits(id, *bits),
            Item::Unsigned(number) => self.put_number(id, *number, false),
            Item::Signed(number) => self.put_number(id, *number as u128, *number < 0),
            Item::Wide(bytes) => self.put_bytes(sys::SCALEVIEW_NODE_WIDE, id, bytes),
            Item::Empties(count) => self.put(sys::SCALEVIEW_NODE_COUNT, id, u64::from(*count), 0),
            Item::List(items) => self.take_list(id, items),
            Item::Fields(items) if has_fields(*shape) => {
                self.leave(&list.fields, items)?;
                self.put_parent(sys::SCALEVIEW_NODE_FIELDS, id, 0, items.len())
            }
            Item::Named(items) if has_fields(*shape) => {
                self.leave_named(&list.fields, item, items)?;
                self.put_parent(sys::SCALEVIEW_NODE_FIELDS, id, 0, items.len())
            }
            Item::Fields(_) | Item::Named(_) => Err(self.rejected(NodeReason::WrongKind)),
            Item::Variant(..) | Item::NamedVariant(..) | Item::IndexedVariant(..) => {
                self.take_variant(id, item)
            }
        }
    }
}

/// The items that were found for fields.
struct Found<'a> {
    /// The item of each field.
    items: Vec<Option<&'a Item<'a>>>,
    /// The position of the first item that is no field's.
    unknown: Option<u32>,
}

impl<'a> Found<'a> {
    /// Finds the items of fields by their names. Of several fields with one name, each has the next
    /// item of that name.
    fn by_name(fields: &[Field], named: &'a [Named<'a>]) -> Result<Found<'a>, Error> {
        let mut items = buffer::reserved(fields.len())?;
        items.resize(fields.len(), None);
        let mut unknown = None;
        let wanted = sorted(fields.iter().map(Field::name))?;
        let mut wanted = wanted.iter().peekable();
        for (name, position) in sorted(named.iter().map(|(name, _)| Some(name.as_ref())))? {
            while wanted.next_if(|field| field.0 < name).is_some() {}
            let slot = wanted
                .next_if(|field| field.0 == name)
                .and_then(|field| items.get_mut(field.1 as usize));
            match slot {
                Some(slot) => *slot = named.get(position as usize).map(|(_, item)| item),
                None => unknown = Some(unknown.map_or(position, |first: u32| first.min(position))),
            }
        }
        Ok(Found { items, unknown })
    }
}

/// Returns names with their positions, in the order of the names. None is before all others.
fn sorted<'n>(
    names: impl ExactSizeIterator<Item = Option<&'n str>>,
) -> Result<Vec<(Option<&'n str>, u32)>, Error> {
    let mut sorted = buffer::reserved(names.len())?;
    sorted.extend(names.zip(0..));
    sorted.sort_unstable();
    Ok(sorted)
}
