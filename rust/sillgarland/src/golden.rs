//! One value as it was read: the input and the used part of the stores, lent together.
use crate::{Code, Value};

/// A node's numbers: letter, place, size, first entry, count, end, the input's number.
pub(crate) type Record = [u32; 7];

/// A value that was read. It is a view: the input and the [`Reader`](crate::Reader)'s stores hold everything.
#[derive(Clone, Copy)]
pub struct Golden<'a> {
    pub(crate) input: &'a [u8],
    pub(crate) nodes: &'a [Record],
    pub(crate) entries: &'a [[u32; 2]],
    pub(crate) consumed: usize,
    /// Whether the stores hold a [`Session`](crate::Session)'s other values too, or a value that was moved.
    pub(crate) in_session: bool,
}

impl<'a> Golden<'a> {
    /// How many bytes the value takes from the start of the input.
    pub fn consumed(self) -> usize {
        self.consumed
    }

    /// The value itself.
    pub fn root(self) -> Value<'a> {
        self.value(0)
    }

    /// The value itself and everything in it, each once, in the order in which their headers stand in the input.
    pub fn values(self) -> impl ExactSizeIterator<Item = Value<'a>> {
        (0..self.used_nodes()).map(move |node| self.value(node))
    }

    /// The bytes of a [`span`](Value::span), as they stand in the input.
    pub fn bytes_of(self, span: std::ops::Range<usize>) -> Vec<u8> {
        self.input[span].to_vec()
    }

    /// Every code object, each once, in the order of the input. However values are shared, this takes time in proportion
    /// to the nodes.
    pub fn code_objects(self) -> impl Iterator<Item = Code<'a>> {
        self.values().filter_map(Value::as_code)
    }

    pub(crate) fn value(self, node: u32) -> Value<'a> {
        Value { golden: self, node }
    }

    pub(crate) fn used_nodes(self) -> u32 {
        self.nodes.len() as u32
    }
}

impl std::fmt::Debug for Golden<'_> {
    fn fmt(&self, f: &mut std::fmt::Formatter) -> std::fmt::Result {
        write!(f, "Golden of {} bytes and {} nodes", self.consumed, self.nodes.len())
    }
}
