//! The parts of a value.

use crate::registry_ref::RegistryRef;
use crate::types::Field;
use crate::value::AnyValue;
use crate::view::ValueRef;
use scaleview_sys::{self as sys, scaleview_node as Node};
use std::iter::FusedIterator;
use std::{fmt, slice};

/// The parts of a value, by [`ValueRef::children`].
#[derive(Clone)]
pub struct Children<'a> {
    pub(crate) rest: ValueRef<'a>,
    pub(crate) left: u32,
}

/// Returns how many nodes the subtree of this node has.
fn size_of(node: &Node) -> usize {
    match node.kind {
        sys::SCALEVIEW_NODE_FIELDS | sys::SCALEVIEW_NODE_ARM | sys::SCALEVIEW_NODE_LIST => {
            usize::try_from(node.low).unwrap_or(usize::MAX)
        }
        _ => 1,
    }
}

impl<'a> Iterator for Children<'a> {
    type Item = ValueRef<'a>;

    fn next(&mut self) -> Option<ValueRef<'a>> {
        self.left = self.left.checked_sub(1)?;
        let (nodes, rest) = self
            .rest
            .nodes
            .split_at_checked(size_of(self.rest.nodes.first()?))?;
        self.rest.nodes = rest;
        Some(ValueRef { nodes, ..self.rest })
    }

    fn size_hint(&self) -> (usize, Option<usize>) {
        (self.left as usize, Some(self.left as usize))
    }
}

impl ExactSizeIterator for Children<'_> {}

/// Iterates over the parts, as [`ValueRef::children`] does.
impl<'a> IntoIterator for ValueRef<'a> {
    type Item = ValueRef<'a>;
    type IntoIter = Children<'a>;

    fn into_iter(self) -> Children<'a> {
        self.children()
    }
}

/// Iterates over the parts, as [`ValueRef::children`] does.
impl<'a, R: RegistryRef> IntoIterator for &'a AnyValue<R> {
    type Item = ValueRef<'a>;
    type IntoIter = Children<'a>;

    fn into_iter(self) -> Children<'a> {
        self.children()
    }
}

impl FusedIterator for Children<'_> {}

impl fmt::Debug for Children<'_> {
    fn fmt(&self, f: &mut fmt::Formatter<'_>) -> fmt::Result {
        f.debug_list().entries(self.clone()).finish()
    }
}

/// The fields of a value with their names, by [`ValueRef::fields`].
#[derive(Clone)]
pub struct Fields<'a> {
    pub(crate) names: slice::Iter<'a, Field>,
    pub(crate) children: Children<'a>,
}

impl<'a> Iterator for Fields<'a> {
    type Item = (Option<&'a str>, ValueRef<'a>);

    fn next(&mut self) -> Option<Self::Item> {
        let child = self.children.next()?;
        Some((self.names.next().and_then(Field::name), child))
    }

    fn size_hint(&self) -> (usize, Option<usize>) {
        self.children.size_hint()
    }
}

impl ExactSizeIterator for Fields<'_> {}

impl FusedIterator for Fields<'_> {}

impl fmt::Debug for Fields<'_> {
    fn fmt(&self, f: &mut fmt::Formatter<'_>) -> fmt::Result {
        f.debug_list().entries(self.clone()).finish()
    }
}
