//! What CPython marshals, read by the port to the value that CPython has: compared by length and CRC-32 of the value's
//! text. Of a module, each code object's line table is then asked for by its node.
use crate::lent::{Lent, Part};
use crate::read::{self, hold_rooms};
use crate::reading::{Held, Reading, Shown, ample, read};
use crate::text::of_hex;
use sillgarland_sys::{self as sys, Located, Location, refusals};

/// Some bytes, and the length and the CRC-32 of the text of the value they stand for.
pub struct Marshalled {
    bytes: Vec<u8>,
    len: usize,
    crc: u32,
}

/// A reading that the lines of its code objects are yet to be asked of, and their nodes.
pub struct Module {
    part: Part,
    reading: Reading,
    codes: std::vec::IntoIter<u32>,
}

impl Marshalled {
    /// Of a row `module`, `body` or `value`.
    pub fn of_row(row: &str) -> Option<Self> {
        let [sort, bytes, len, crc] = row.split(' ').collect::<Vec<_>>()[..] else {
            return None;
        };
        let bytes = if sort == "body" { std::fs::read(bytes).ok()?.get(16..)?.to_vec() } else { of_hex(bytes)? };
        Some(Self { bytes, len: len.parse().ok()?, crc: crc.parse().ok()? })
    }

    pub fn bytes(&self) -> &[u8] {
        &self.bytes
    }

    /// The whole of the bytes is read, to CPython's value; in stores just long enough too, and refused in shorter ones.
    pub fn hold(self) -> Result<Module, String> {
        let ask = read::Ask { input: self.bytes, nesting: refusals::MOST_NESTING };
        let part = Part::new(&ask.input);
        let reading = read(&part, ask.nesting, ample(&ask.input));
        let answer = reading.answer;
        if answer.refusal != refusals::ACCEPTED || answer.consumed as usize != ask.input.len() {
            return Err(format!("{:02x?}: {answer:?}", start(&ask.input)));
        }
        let text = Held { input: part.bytes(), reading: &reading }.text(Shown::AsStored, usize::MAX)?;
        if text.len() != self.len || crc_32(text.as_bytes()) != self.crc {
            let (input, text) = (start(&ask.input), start(text.as_bytes()));
            return Err(format!("{input:02x?}: the port holds {}..", String::from_utf8_lossy(text)));
        }
        hold_rooms(&ask, &part, &reading)?;
        let mut codes = Vec::new();
        Held { input: part.bytes(), reading: &reading }.codes(0, &mut codes)?;
        Ok(Module { part, reading, codes: codes.into_iter() })
    }
}

fn start(bytes: &[u8]) -> &[u8] {
    &bytes[..bytes.len().min(1000)]
}

impl Held<'_> {
    /// The code objects: this node, and those among its constants.
    fn codes(&self, number: u32, codes: &mut Vec<u32>) -> Result<(), String> {
        let node = self.node(number)?;
        if node.letter != b'c' {
            return Ok(());
        }
        codes.push(number);
        let constants = self.children(&node)?[1];
        self.children(&self.node(constants)?)?.into_iter().try_for_each(|constant| self.codes(constant, codes))
    }
}

impl Module {
    /// The locations of the next code object's instructions, by its line table's node.
    pub fn hold_lines(&mut self, first_line: i32, count: u32, records: &[Location]) -> Result<(), String> {
        let code = self.codes.next().ok_or("fewer code objects than CPython has")?;
        let held = Held { input: self.part.bytes(), reading: &self.reading };
        let table = held.children(&held.node(code)?)?[8];
        let (input, nodes) = (held.input, self.reading.stores[0].cells());
        let mut out = Lent::new(4 * count as usize);
        // SAFETY: input and stores are lent for their lengths.
        let answered = unsafe {
            sys::sill_locate_node(
                input.as_ptr(),
                input.len(),
                nodes.as_ptr(),
                nodes.len(),
                self.reading.answer.nodes,
                table,
                first_line,
                count,
                out.pointer(),
                out.len(),
            )
        };
        if answered != (Located { refusal: refusals::ACCEPTED, place: 0, from_entries: count, whole: 1 }) {
            return Err(format!("line table of node {code}: {answered:?}"));
        }
        let written: Vec<u32> =
            records.iter().flat_map(|at| [at.line, at.column, at.end_line, at.end_column]).collect();
        out.holds("records", &written)
    }
}

/// CRC-32 as zlib has it.
fn crc_32(bytes: &[u8]) -> u32 {
    const TABLE: [u32; 256] = table();
    !bytes.iter().fold(u32::MAX, |crc, byte| crc >> 8 ^ TABLE[usize::from(crc as u8 ^ byte)])
}

const fn table() -> [u32; 256] {
    let (mut table, mut i) = ([0; 256], 0);
    while i < 256 {
        let (mut crc, mut bit) = (i as u32, 0);
        while bit < 8 {
            crc = crc >> 1 ^ if crc & 1 == 1 { 0xEDB8_8320 } else { 0 };
            bit += 1;
        }
        table[i] = crc;
        i += 1;
    }
    table
}
