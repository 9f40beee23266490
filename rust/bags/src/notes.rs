//! What a reading meets that lies outside document 01's domain of comparison, noted beside the tree.
use carried::bytecode::CodeUnits;
use carried::marshal::linetable_to_locations;
use std::cell::Cell;
use std::panic::{AssertUnwindSafe, catch_unwind};

#[derive(Default)]
pub struct Notes {
    /// Code bytes that are no instructions to the crate.
    pub opcodes: Cell<bool>,
    /// A surrogate in a code's string.
    pub surrogates: Cell<bool>,
    /// A line table over which the checked Rust panics.
    pub lines: Cell<bool>,
    /// Whether a code's part was looked at since this was last cleared.
    pub at_part: Cell<bool>,
    /// How many code objects were made since this was last cleared.
    pub finished: Cell<usize>,
}

impl Notes {
    pub fn none(&self) -> bool {
        !self.opcodes.get() && !self.surrogates.get() && !self.lines.get()
    }

    pub(crate) fn note_code_bytes(&self, bytes: &[u8]) {
        if CodeUnits::try_from(bytes).is_err() {
            self.opcodes.set(true);
        }
    }

    pub(crate) fn note_line_table(&self, table: &[u8], first_line: i32, instructions: usize) {
        let read = || linetable_to_locations(table, first_line, instructions);
        if catch_unwind(AssertUnwindSafe(read)).is_err() {
            self.lines.set(true);
        }
    }
}
