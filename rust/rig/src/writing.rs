//! A writing by the port: input and stores as it is lent them, the answer, and the output it was lent.
use crate::lent::{Lent, Part};
use crate::reading::{NODE_WIDTH, Reading};
use crate::text::{hex, numbers};
use crate::write_model::{Refused, Store};
use sillgarland_sys::{self as sys, Written, refusals};

/// Input and stores to write from.
pub struct Source {
    part: Part,
    nodes: Lent<u32>,
    entries: Lent<u32>,
    used: [u32; 2],
}

impl Source {
    pub fn new(store: &Store) -> Self {
        let Store { input, nodes, entries, used } = *store;
        Self { part: Part::new(input), nodes: Lent::of(nodes), entries: Lent::of(entries), used }
    }

    /// What a reading used of its stores, and no more.
    pub fn of_reading(input: &[u8], reading: &Reading) -> Self {
        let used = [reading.answer.nodes, reading.answer.entries];
        let [nodes, entries, _] = reading.stores.each_ref().map(|store| store.cells());
        let (nodes, entries) = (&nodes[..NODE_WIDTH * used[0] as usize], &entries[..2 * used[1] as usize]);
        Self::new(&Store { input, nodes, entries, used })
    }

    pub fn store(&self) -> Store<'_> {
        let Self { part, nodes, entries, used } = self;
        Store { input: part.bytes(), nodes: nodes.cells(), entries: entries.cells(), used: *used }
    }

    pub fn write(&self, root: u32, nesting: u32, capacity: usize) -> (Written, Lent<u8>) {
        let Store { input, nodes, entries, used } = self.store();
        let mut out = Lent::new(capacity);
        // SAFETY: input, stores and output are lent for their lengths.
        let answer = unsafe {
            sys::sill_write(
                input.as_ptr(),
                input.len(),
                nodes.as_ptr(),
                nodes.len(),
                entries.as_ptr(),
                entries.len(),
                used[0],
                used[1],
                root,
                nesting,
                out.pointer(),
                capacity,
            )
        };
        (answer, out)
    }

    /// The port answers so: these bytes and then zeros, or this refusal and zeros alone.
    pub fn hold(
        &self,
        (root, nesting, capacity): (u32, u32, usize),
        expected: Result<&[u8], Refused>,
    ) -> Result<(), String> {
        let (answered, out) = self.write(root, nesting, capacity);
        let (answer, bytes) = match expected {
            Ok(bytes) => (Written { refusal: refusals::ACCEPTED, place: 0, written: bytes.len() as u32 }, bytes),
            Err(Refused { number, place }) => (Written { refusal: number, place, written: 0 }, &[][..]),
        };
        if answered != answer {
            return Err(format!(
                "from node {root}, nesting {nesting}, {capacity} bytes: {answered:?} and not {answer:?}"
            ));
        }
        out.holds("output", bytes)
    }
}

pub fn no_room(capacity: usize) -> Refused {
    Refused { number: refusals::NO_ROOM, place: capacity as u32 }
}

/// Stores and the question put to them.
pub struct Case {
    pub input: Vec<u8>,
    pub nodes: Vec<u32>,
    pub entries: Vec<u32>,
    pub used: [u32; 2],
    pub root: u32,
    pub nesting: u32,
}

impl Case {
    pub fn store(&self) -> Store<'_> {
        Store { input: &self.input, nodes: &self.nodes, entries: &self.entries, used: self.used }
    }

    /// As a line of tests/vectors/write.txt begins.
    pub fn row(&self, capacity: usize) -> String {
        let Self { input, nodes, entries, used, root, nesting } = self;
        let stores = [hex(input), numbers(nodes), numbers(entries), numbers(used)].join(" ");
        format!("write {stores} {root} {nesting} {capacity}")
    }
}
