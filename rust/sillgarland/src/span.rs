//! The bytes of a value: where they stand in the input, and whether they can stand alone.
use crate::{Golden, NUMBERS, Reader, Value};
use std::fmt;
use std::ops::Range;

/// A code object's first line stands before this part.
const LINE_TABLE: usize = 8;
const FIRST_LINE: usize = 4;
/// A reference's header and its index.
const REFERENCE: usize = 5;

/// The bytes of a value, and whether they can stand alone.
#[derive(Clone, Debug, PartialEq, Eq)]
pub struct Span {
    /// From its header to its last byte, counted from the start of the value that was read.
    pub bytes: Range<usize>,
    /// Whether every reference in these bytes names a value in them.
    pub closed: bool,
    /// How many values before it can be referred to.
    pub slots_before: usize,
}

/// Why the bytes of a value do not read alone: the first reference in them that names a value outside.
#[derive(Clone, Debug, PartialEq, Eq)]
pub struct NotAlone {
    /// The byte at which the reference stands.
    pub reference: usize,
    /// The bytes of the value that it names.
    pub names: Range<usize>,
}

impl fmt::Display for NotAlone {
    fn fmt(&self, f: &mut fmt::Formatter) -> fmt::Result {
        let Self { reference, names } = self;
        write!(f, "the reference at byte {reference} names the value at byte {}, outside", names.start)
    }
}

impl std::error::Error for NotAlone {}

impl<'a> Value<'a> {
    /// Its bytes, from its header to its last, counted from the start of the value that was read. Of a value that is shared by
    /// reference they are those where it stands itself.
    ///
    /// ```
    /// let mut reader = sillgarland::Reader::new();
    /// let golden = reader.read(b")\x02z\x01a[\x01\0\0\0N")?;
    /// let spans: Vec<_> = golden.values().map(|value| value.span()).collect();
    /// assert_eq!(spans, [0..11, 2..5, 5..11, 10..11]);
    /// # Ok::<(), sillgarland::Refused>(())
    /// ```
    pub fn span(self) -> Range<usize> {
        let [.., end, _] = self.record();
        self.header()..end as usize
    }

    /// Its bytes, and whether every reference in them names a value in them. This looks at every node of the reading.
    pub fn standing(self) -> Span {
        if self.golden.in_session {
            return self.read_anew(|value| value.standing());
        }
        let Golden { input, nodes, entries, .. } = self.golden;
        let [nodes, entries] = [nodes.as_flattened(), entries.as_flattened()];
        let [used_nodes, used_entries] = [self.golden.nodes.len() as u32, self.golden.entries.len() as u32];
        // SAFETY: three slices, each handed on by its pointer and its length.
        let span = unsafe {
            sillgarland_sys::sill_span(
                input.as_ptr(),
                input.len(),
                nodes.as_ptr(),
                nodes.len(),
                entries.as_ptr(),
                entries.len(),
                used_nodes,
                used_entries,
                self.node,
            )
        };
        assert_eq!(span.refusal, 0, "a node of an accepted reading has its bytes");
        let [start, end, slots_before] = [span.start, span.end, span.slots_before].map(|number| number as usize);
        Span { bytes: start..end, closed: span.closed == 1, slots_before }
    }

    /// Its bytes as a value of their own: each index of a reference in them is lowered by the slots reserved before. They read as
    /// the same value.
    ///
    /// ```
    /// let mut reader = sillgarland::Reader::new();
    /// let golden = reader.read(b")\x02\xE9\x05\0\0\0)\x02\xCEr\x01\0\0\0")?;
    /// let pair = golden.root().children().last().unwrap();
    /// assert_eq!(pair.alone().unwrap(), b")\x02\xCEr\0\0\0\0");
    /// # Ok::<(), sillgarland::Refused>(())
    /// ```
    ///
    /// Where a reference in them names a value outside, there are no such bytes, and the first of them is the error.
    pub fn alone(self) -> Result<Vec<u8>, NotAlone> {
        if self.golden.in_session {
            return self.read_anew(|value| value.alone());
        }
        let Span { bytes, closed, slots_before } = self.standing();
        let within = || self.golden.values().skip(self.node as usize).take_while(|value| value.header() < bytes.end);
        if !closed {
            let leaves = |(_, named): &(usize, Value)| !bytes.contains(&named.header());
            let left = within().flat_map(Value::references).filter(leaves).min_by_key(|(at, _)| *at);
            let (reference, named) = left.expect("a span that is not closed has a reference that leaves it");
            return Err(NotAlone { reference, names: named.span() });
        }
        let mut alone = self.golden.input[bytes.clone()].to_vec();
        for (reference, _) in within().flat_map(Value::references) {
            let index = &mut alone[reference - bytes.start..][1..REFERENCE];
            let lowered = u32::from_le_bytes([index[0], index[1], index[2], index[3]]) - slots_before as u32;
            index.copy_from_slice(&lowered.to_le_bytes());
        }
        Ok(alone)
    }

    /// Asks of this value what is asked over all nodes of a reading, where the stores hold other values or moved ones: its input is
    /// read once more, alone.
    pub(crate) fn read_anew<T>(self, ask: impl FnOnce(Value) -> T) -> T {
        let mut reader = Reader::new();
        let golden = reader.read(self.golden.input).expect("what was read is read again");
        let own = golden.values().find(|value| value.header() == self.header());
        ask(own.expect("a value's header is where it was"))
    }

    /// Where its header stands: before its place, and before a string's length.
    fn header(self) -> usize {
        let length = match self.letter() {
            's' | 'u' | 't' | 'a' | 'A' => 4,
            'z' | 'Z' => 1,
            _ => 0,
        };
        self.place() - length - 1
    }

    /// The children that are references: where each stands, and what it names. A child that does not begin where the one before
    /// it ends is one.
    fn references(self) -> impl Iterator<Item = (usize, Value<'a>)> {
        let is_code = self.as_code().is_some();
        let own = if is_code { 4 * NUMBERS.len() } else { self.size() };
        let mut at = self.place() + own;
        self.children().enumerate().filter_map(move |(part, child)| {
            at += if is_code && part == LINE_TABLE { FIRST_LINE } else { 0 };
            let (begins, span) = (at, child.span());
            at = if span.start == begins { span.end } else { begins + REFERENCE };
            (span.start != begins).then_some((begins, child))
        })
    }
}

#[cfg(test)]
mod tests {
    use super::*;
    use crate::first_difference;

    fn spans(input: &[u8]) -> Vec<(usize, usize)> {
        let mut reader = Reader::new();
        let golden = reader.read(input).unwrap();
        golden.values().map(|value| value.span()).map(|span| (span.start, span.end)).collect()
    }

    #[test]
    fn from_header_to_last_byte() {
        assert_eq!(spans(b")\x02z\x01a[\x01\0\0\0N"), [(0, 11), (2, 5), (5, 11), (10, 11)]);
        assert_eq!(spans(b"{TF0"), [(0, 4), (1, 2), (2, 3)]);
    }

    /// A reference is five bytes of what it stands in, and the value it names is where it stands itself.
    #[test]
    fn references_are_no_nodes() {
        assert_eq!(spans(b")\x03\xCEr\0\0\0\0)\x01r\0\0\0\0"), [(0, 15), (2, 3), (8, 15)]);
    }

    #[test]
    fn what_names_nothing_outside_stands_alone() {
        let input = b")\x03\xE9\x05\0\0\0\xA9\x02\xCEr\x02\0\0\0r\x01\0\0\0";
        let mut reader = Reader::new();
        let golden = reader.read(input).unwrap();
        let pair = golden.root().children().nth(1).unwrap();
        assert_eq!(pair.standing(), Span { bytes: 7..15, closed: true, slots_before: 1 });
        assert_eq!(pair.alone().unwrap(), b"\xA9\x02\xCEr\x01\0\0\0");
        let alone = golden.root().alone().unwrap();
        assert_eq!(alone, input);
    }

    #[test]
    fn the_first_reference_that_leaves_is_told() {
        let input = b")\x02\xE9\x05\0\0\0)\x02)\x01r\0\0\0\0r\0\0\0\0";
        let mut reader = Reader::new();
        let golden = reader.read(input).unwrap();
        let pair = golden.root().children().last().unwrap();
        let not = pair.alone().unwrap_err();
        assert_eq!(not, NotAlone { reference: 11, names: 2..7 });
        assert_eq!(not.to_string(), "the reference at byte 11 names the value at byte 2, outside");
    }

    #[test]
    fn every_value_that_stands_alone_reads_as_itself() {
        let shared =
            b"[\x04\0\0\0\xFA\x01a{\xE9\x07\0\0\0r\0\0\0\0r\x01\0\0\0N0\xA9\x02\xDA\x02bcr\x03\0\0\0r\x02\0\0\0";
        let mut reader = Reader::new();
        let golden = reader.read(shared).unwrap();
        let mut alone = 0;
        for value in golden.values() {
            let Ok(bytes) = value.alone() else { continue };
            let mut again = Reader::new();
            let read = again.read(&bytes).unwrap();
            assert_eq!(read.consumed(), bytes.len());
            assert!(first_difference(value, read.root()).is_none(), "{value:?}");
            alone += 1;
        }
        assert_eq!((alone, golden.values().len()), (6, 7));
    }
}
