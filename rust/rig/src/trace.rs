//! The bytes as the carried Rust is given them: a reader that remembers what was asked of it. The Rust's errors have no
//! places, and one of them stands for two refusals; what was read last, and in which code, tells both.
use crate::reading::KNOWN_FLAGS;
use bags::{Notes, Tree, TreeBag};
use carried::marshal::{MarshalError, Read, deserialize_value_within};
use std::rc::Rc;

/// One read: where it began, how many bytes were asked for, and whether they are a number's.
#[derive(Clone, Copy, Default)]
struct Asked {
    start: usize,
    size: usize,
    number: bool,
}

/// A code object that is being read: its header, and where its present part begins.
struct Code {
    header: usize,
    part: usize,
}

pub struct Trace<'a> {
    data: &'a [u8],
    pub position: usize,
    /// The last three reads, the latest first.
    asked: [Asked; 3],
    /// A header that may be a code's, and how many 32-bit numbers came since.
    header: Option<(usize, u32)>,
    codes: Vec<Code>,
    pub other_flags: bool,
    /// Single bytes read that are the letter of a decimal float, or a length that looks like one.
    pub like_decimal: Vec<usize>,
    notes: &'a Notes,
}

impl<'a> Trace<'a> {
    pub fn new(data: &'a [u8], notes: &'a Notes) -> Self {
        let (asked, codes, like_decimal) = Default::default();
        Self { data, position: 0, asked, header: None, codes, other_flags: false, like_decimal, notes }
    }

    pub fn value(&mut self, allowance: usize) -> Result<Rc<Tree>, MarshalError> {
        deserialize_value_within(self, TreeBag::noting(self.notes), allowance)
    }

    fn take(&mut self, size: usize, number: bool) -> Result<&'a [u8], MarshalError> {
        let start = self.position;
        self.asked = [Asked { start, size, number }, self.asked[0], self.asked[1]];
        self.close_finished();
        if self.notes.at_part.take() {
            self.begin_part(start, number && size == 4);
        }
        let taken = self.data[start..].get(..size).ok_or(MarshalError::DataTooShort)?;
        self.position += size;
        Ok(taken)
    }

    fn close_finished(&mut self) {
        let open = self.codes.len().saturating_sub(self.notes.finished.take());
        self.codes.truncate(open);
    }

    /// After a part comes the next, or the first line and then the next.
    fn begin_part(&mut self, start: usize, first_line: bool) {
        if let Some(code) = self.codes.last_mut() {
            code.part = if first_line { start + 4 } else { start };
        }
    }

    fn note_number(&mut self, bytes: &[u8]) {
        if let [byte] = bytes
            && matches!(byte & 0x7F, b'f' | b'x')
        {
            self.like_decimal.push(self.last());
        }
        self.header = match (bytes, self.header) {
            ([byte], _) if byte & 0x7F == b'c' => Some((self.last(), 0)),
            ([_, _, _, _], Some((header, count))) => Some((header, count + 1)),
            _ => None,
        };
        if let ([a, b, c, d], Some((header, 5))) = (bytes, self.header) {
            self.codes.push(Code { header, part: self.position });
            self.other_flags |= u32::from_le_bytes([*a, *b, *c, *d]) & !KNOWN_FLAGS != 0;
            self.header = None;
        }
    }

    pub fn last(&self) -> usize {
        self.asked[0].start
    }

    pub fn last_is_digit(&self) -> bool {
        self.asked[0].number && self.asked[0].size == 2
    }

    /// Where the field begins that the last read was to complete: `I` is one field, though the Rust reads two halves.
    pub fn field(&self) -> usize {
        let [last, before, first] = self.asked;
        let header = first.number && first.size == 1 && self.data.get(first.start).is_some_and(|b| b & 0x7F == b'I');
        let halves = last.number && last.size == 4 && before.number && before.size == 4;
        if header && halves { before.start } else { last.start }
    }

    /// The header of the code that is being read.
    pub fn code(&mut self) -> usize {
        self.close_finished();
        self.codes.last().map_or(0, |code| code.header)
    }

    /// Where the present part of that code begins.
    pub fn part(&mut self) -> usize {
        self.close_finished();
        self.codes.last().map_or(0, |code| code.part)
    }
}

impl Read for Trace<'_> {
    fn read_slice(&mut self, n: u32) -> Result<&[u8], MarshalError> {
        self.header = None;
        self.take(n as usize, false)
    }

    fn read_array<const N: usize>(&mut self) -> Result<&[u8; N], MarshalError> {
        let taken = self.take(N, true)?;
        self.note_number(taken);
        Ok(taken.try_into().unwrap())
    }
}
