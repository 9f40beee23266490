//! A node of a reading: its letter and place, its children, and what it holds.
use crate::golden::Record;
use crate::{Code, Golden};
use std::fmt;

/// One value of a [`Golden`]. It is a node's number beside the view, and copies nothing.
#[derive(Clone, Copy)]
pub struct Value<'a> {
    pub(crate) golden: Golden<'a>,
    pub(crate) node: u32,
}

/// What a value holds. Integers, strings and tuples have several letters; the same contents are the same here.
#[derive(Clone, Copy, Debug)]
pub enum Content<'a> {
    /// `None`.
    None,
    /// `StopIteration`.
    Stop,
    /// `...`.
    Ellipsis,
    /// `False` or `True`.
    Truth(bool),
    /// A whole number within signed 64 bits.
    Whole(i64),
    /// A whole number outside signed 64 bits.
    Wide(Wide<'a>),
    /// A float, with the bits that are stored.
    Float(f64),
    /// A complex number: real and imaginary part, with the bits that are stored.
    Complex(f64, f64),
    /// Bytes.
    Bytes(&'a [u8]),
    /// A string.
    Text(Text<'a>),
    /// A tuple's children.
    Tuple(Children<'a>),
    /// A list's children.
    List(Children<'a>),
    /// A set's children, in stored order.
    Set(Children<'a>),
    /// A frozenset's children, in stored order.
    FrozenSet(Children<'a>),
    /// A slice's start, stop and step.
    Slice(Children<'a>),
    /// A dict's keys and values, in turn.
    Dict(Children<'a>),
    /// A code object.
    Code(Code<'a>),
}

impl<'a> Value<'a> {
    /// The node's number: its header's turn in the reading, or in a [`Session`](crate::Session) where it stands now. The same number is
    /// the same value, shared.
    pub fn node(self) -> u32 {
        self.node
    }

    /// The type letter, without the reference flag.
    pub fn letter(self) -> char {
        self.letter_byte() as char
    }

    /// Where its contents begin: the byte after the header, or after a string's length.
    pub fn place(self) -> usize {
        self.record()[1] as usize
    }

    /// How many bytes of its own stand at that place, children aside.
    pub fn size(self) -> usize {
        self.record()[2] as usize
    }

    /// Its children in order: a container's members, a dict's keys and values in turn, a code object's ten parts.
    ///
    /// Values may share children, so a recursion over them may never end: forty tuples, each of the one before twice, are reached
    /// 2^40 times. [`walk`](Self::walk) meets each value once.
    pub fn children(self) -> Children<'a> {
        let [_, _, _, first, count, ..] = self.record();
        Children { golden: self.golden, entry: first, left: count }
    }

    /// What it holds.
    pub fn content(self) -> Content<'a> {
        match self.letter_byte() {
            b's' => Content::Bytes(self.bytes()),
            b'u' | b't' | b'a' | b'A' | b'z' | b'Z' => Content::Text(Text(self.bytes())),
            b'(' | b')' => Content::Tuple(self.children()),
            b'[' => Content::List(self.children()),
            b'<' => Content::Set(self.children()),
            b'>' => Content::FrozenSet(self.children()),
            b':' => Content::Slice(self.children()),
            b'{' => Content::Dict(self.children()),
            b'c' => Content::Code(Code::new(self)),
            _ => self.leaf(),
        }
    }

    /// The code object, if it is one.
    pub fn as_code(self) -> Option<Code<'a>> {
        (self.letter_byte() == b'c').then(|| Code::new(self))
    }

    pub(crate) fn bytes(self) -> &'a [u8] {
        &self.golden.input[self.place()..][..self.size()]
    }

    pub(crate) fn record(self) -> Record {
        self.golden.nodes[self.node as usize]
    }

    fn letter_byte(self) -> u8 {
        self.record()[0] as u8
    }

    /// The port's own answer for a leaf. Every node of an accepted reading is sound, so there is no refusal here.
    fn leaf(self) -> Content<'a> {
        let Golden { input, nodes, .. } = self.golden;
        let nodes = nodes.as_flattened();
        let used = self.golden.used_nodes();
        // SAFETY: two slices, each handed on by its pointer and its length.
        let leaf = unsafe {
            sillgarland_sys::sill_leaf(input.as_ptr(), input.len(), nodes.as_ptr(), nodes.len(), used, self.node)
        };
        match leaf.kind {
            1 => Content::None,
            2 => Content::Truth(leaf.first == 1),
            3 => Content::Ellipsis,
            4 => Content::Stop,
            5 => Content::Whole(leaf.first as i64),
            6 => Content::Float(f64::from_bits(leaf.first)),
            7 => Content::Complex(f64::from_bits(leaf.first), f64::from_bits(leaf.second)),
            8 => Content::Wide(Wide(self.bytes())),
            _ => unreachable!("node {} of an accepted reading is no leaf: {leaf:?}", self.node),
        }
    }
}

impl fmt::Debug for Value<'_> {
    fn fmt(&self, f: &mut fmt::Formatter) -> fmt::Result {
        write!(f, "{:?} at {}", self.letter(), self.place())
    }
}

/// The children of a value, in order.
#[derive(Clone, Copy)]
pub struct Children<'a> {
    golden: Golden<'a>,
    entry: u32,
    left: u32,
}

impl<'a> Iterator for Children<'a> {
    type Item = Value<'a>;

    fn next(&mut self) -> Option<Value<'a>> {
        self.left = self.left.checked_sub(1)?;
        let [node, next] = self.golden.entries[self.entry as usize];
        self.entry = next;
        Some(self.golden.value(node))
    }

    fn size_hint(&self) -> (usize, Option<usize>) {
        (self.left as usize, Some(self.left as usize))
    }
}

impl ExactSizeIterator for Children<'_> {}

impl fmt::Debug for Children<'_> {
    fn fmt(&self, f: &mut fmt::Formatter) -> fmt::Result {
        write!(f, "{} children", self.left)
    }
}

/// A string: UTF-8 in which surrogate code points may stand, as in Python's `surrogatepass`.
#[derive(Clone, Copy, Debug, PartialEq, Eq, PartialOrd, Ord, Hash)]
pub struct Text<'a>(pub(crate) &'a [u8]);

impl<'a> Text<'a> {
    /// The bytes as they are stored.
    pub fn bytes(self) -> &'a [u8] {
        self.0
    }

    /// The string, if no surrogate stands in it.
    pub fn as_str(self) -> Option<&'a str> {
        std::str::from_utf8(self.0).ok()
    }

    /// Its code points, surrogates among them.
    pub fn code_points(self) -> impl Iterator<Item = u32> {
        let mut left = self.0;
        std::iter::from_fn(move || {
            let (&lead, rest) = left.split_first()?;
            let (more, bits) = match lead {
                0..=0x7F => (0, lead),
                0x80..=0xDF => (1, lead & 0x1F),
                0xE0..=0xEF => (2, lead & 0x0F),
                _ => (3, lead & 0x07),
            };
            let (tail, rest) = rest.split_at(more);
            left = rest;
            Some(tail.iter().fold(u32::from(bits), |point, byte| point << 6 | u32::from(byte & 0x3F)))
        })
    }
}

/// The string itself; a surrogate shows as `\udc80`.
impl fmt::Display for Text<'_> {
    fn fmt(&self, f: &mut fmt::Formatter) -> fmt::Result {
        if let Some(text) = self.as_str() {
            return f.write_str(text);
        }
        self.code_points().try_for_each(|point| match char::from_u32(point) {
            Some(char) => write!(f, "{char}"),
            None => write!(f, "\\u{point:04x}"),
        })
    }
}

/// A whole number outside signed 64 bits: its sign, and its digits of 15 bits where they stand in the input.
#[derive(Clone, Copy, PartialEq, Eq, Hash)]
pub struct Wide<'a>(&'a [u8]);

/// The most digits that are shown in decimal, which takes time in proportion to their square.
const MOST_SHOWN_IN_DECIMAL: usize = 256;

impl<'a> Wide<'a> {
    /// Whether it is below 0.
    pub fn is_negative(self) -> bool {
        self.0[3] & 0x80 != 0
    }

    /// Its digits of 15 bits, the lowest first.
    pub fn digits(self) -> impl DoubleEndedIterator<Item = u16> + ExactSizeIterator {
        self.0[4..].as_chunks().0.iter().map(|digit| u16::from_le_bytes(*digit))
    }

    fn decimal(self) -> String {
        let mut groups = vec![0_u64]; // of nine decimal digits, the lowest first
        for digit in self.digits().rev() {
            let mut carry = u64::from(digit);
            for group in &mut groups {
                carry += *group << 15;
                *group = carry % 1_000_000_000;
                carry /= 1_000_000_000;
            }
            if carry > 0 {
                groups.push(carry);
            }
        }
        let highest = groups.pop().unwrap_or(0);
        groups.iter().rev().fold(highest.to_string(), |shown, group| shown + &format!("{group:09}"))
    }

    fn hexadecimal(self) -> String {
        let bits: Vec<bool> = self.digits().flat_map(|digit| (0..15).map(move |bit| digit >> bit & 1 == 1)).collect();
        let nibble = |bits: &[bool]| bits.iter().rev().fold(0, |nibble, bit| nibble << 1 | u32::from(*bit));
        let shown: String = bits.chunks(4).rev().filter_map(|bits| char::from_digit(nibble(bits), 16)).collect();
        format!("0x{}", shown.trim_start_matches('0'))
    }
}

/// In decimal up to 256 digits of 15 bits, and in hexadecimal, marked `0x`, above.
impl fmt::Display for Wide<'_> {
    fn fmt(&self, f: &mut fmt::Formatter) -> fmt::Result {
        let sign = if self.is_negative() { "-" } else { "" };
        let decimal = self.digits().len() <= MOST_SHOWN_IN_DECIMAL;
        write!(f, "{sign}{}", if decimal { self.decimal() } else { self.hexadecimal() })
    }
}

impl fmt::Debug for Wide<'_> {
    fn fmt(&self, f: &mut fmt::Formatter) -> fmt::Result {
        write!(f, "{self}")
    }
}

#[cfg(test)]
mod tests {
    use super::*;
    use crate::Reader;

    fn shown(input: &[u8]) -> String {
        match Reader::new().read(input).unwrap().root().content() {
            Content::Text(text) => text.to_string(),
            Content::Wide(wide) => wide.to_string(),
            other => format!("{other:?}"),
        }
    }

    fn long(negative: bool, digits: &[u16]) -> Vec<u8> {
        let count = digits.len() as i32;
        let mut input = vec![b'l'];
        input.extend(if negative { -count } else { count }.to_le_bytes());
        input.extend(digits.iter().flat_map(|digit| digit.to_le_bytes()));
        input
    }

    #[test]
    fn leaves() {
        assert_eq!(shown(b"N"), "None");
        assert_eq!(shown(b"F"), "Truth(false)");
        assert_eq!(shown(b"S"), "Stop");
        assert_eq!(shown(b"."), "Ellipsis");
        assert_eq!(shown(b"i\xFE\xFF\xFF\xFF"), "Whole(-2)");
        assert_eq!(shown(b"I\0\0\0\0\0\0\0\x80"), "Whole(-9223372036854775808)");
        assert_eq!(shown(b"g\0\0\0\0\0\0\xF8\x3F"), "Float(1.5)");
        assert_eq!(shown(b"s\x02\0\0\0ab"), "Bytes([97, 98])");
    }

    #[test]
    fn a_nans_payload_is_kept() {
        let input = *b"y\x01\0\0\0\0\0\xF0\x7F\x02\0\0\0\0\0\xF8\xFF";
        let mut reader = Reader::new();
        let Content::Complex(real, imaginary) = reader.read(&input).unwrap().root().content() else { panic!() };
        assert_eq!(real.to_bits(), 0x7FF0_0000_0000_0001);
        assert_eq!(imaginary.to_bits(), 0xFFF8_0000_0000_0002);
    }

    #[test]
    fn numbers_wider_than_64_bits() {
        assert_eq!(shown(&long(false, &[0, 0, 0, 0, 8])), "9223372036854775808");
        assert_eq!(shown(&long(true, &[0, 0, 0, 0, 8])), "Whole(-9223372036854775808)");
        assert_eq!(shown(&long(true, &[0, 0, 0, 0, 1024])), "-1180591620717411303424");
        let mut digits = [0; 300];
        digits[299] = 2;
        assert_eq!(shown(&long(true, &digits)), format!("-0x4{}", "0".repeat(1121)));
    }

    #[test]
    fn text_with_surrogates() {
        assert_eq!(shown("u\x0B\0\0\0aé€😀\u{0}".as_bytes()), "aé€😀\0");
        assert_eq!(shown(b"z\x05a\xED\xB2\x80b"), "a\\udc80b");
    }

    #[test]
    fn shared_children_are_the_same_node() {
        let mut reader = Reader::new();
        let golden = reader.read(b")\x02\xE9\x05\0\0\0r\0\0\0\0").unwrap();
        let nodes: Vec<u32> = golden.root().children().map(Value::node).collect();
        assert_eq!(nodes, [1, 1]);
        assert_eq!(golden.values().len(), 2);
    }
}
