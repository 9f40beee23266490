//! A reading by the port: the answer and the three stores it was lent, and the value they hold, as text.
use crate::lent::{Lent, Part};
use crate::value::Text;
use sillgarland_sys::{self as sys, Leaf, Read, refusals};

pub const STORES: [&str; 3] = ["nodes", "entries", "slots"];
/// How many numbers a node is.
pub const NODE_WIDTH: usize = 7;
pub const WIDTHS: [usize; 3] = [NODE_WIDTH, 2, 1];

pub struct Reading {
    pub answer: Read,
    pub stores: [Lent<u32>; 3],
}

/// Reads with stores of these lengths, full of marks before the call.
pub fn read(part: &Part, nesting: u32, lens: [usize; 3]) -> Reading {
    let input = part.bytes();
    let mut stores = lens.map(Lent::new);
    let [nodes, entries, slots] = stores.each_mut().map(|store| store.pointer());
    // SAFETY: input and stores are lent for the lengths given.
    let answer = unsafe {
        sys::sill_read(input.as_ptr(), input.len(), nodes, lens[0], entries, lens[1], slots, lens[2], nesting)
    };
    Reading { answer, stores }
}

/// Lengths with room for whatever the input holds, and a remainder: every node, child and slot has a header of its own.
pub fn ample(input: &[u8]) -> [usize; 3] {
    let most = input.len().min(refusals::MOST_RECORDS as usize);
    [NODE_WIDTH * most + 3, 2 * most + 1, most]
}

pub fn counts(answer: &Read) -> [usize; 3] {
    [answer.nodes as usize, answer.entries as usize, answer.slots as usize]
}

/// How a value is shown: as it stands, sets sorted; or a code's flags and strings as the Rust keeps them.
#[derive(Clone, Copy)]
pub enum Shown {
    AsStored,
    AsTheRust,
}

/// The flags that the Rust keeps.
pub const KNOWN_FLAGS: u32 = 0x0DFE_03BF;

#[derive(Clone, Copy, Debug, PartialEq)]
pub struct Node {
    pub letter: u8,
    pub place: usize,
    pub size: usize,
    pub first: u32,
    pub count: u32,
    pub end: usize,
}

/// An accepted reading, to be asked what it holds.
pub struct Held<'a> {
    pub input: &'a [u8],
    pub reading: &'a Reading,
}

type Fault = String;

impl Held<'_> {
    pub fn text(&self, shown: Shown, limit: usize) -> Result<String, Fault> {
        self.text_of(0, shown, limit)
    }

    pub fn text_of(&self, node: u32, shown: Shown, limit: usize) -> Result<String, Fault> {
        let mut text = Text::new(limit);
        self.show(&mut text, node, shown)?;
        Ok(text.text)
    }

    pub fn node(&self, number: u32) -> Result<Node, Fault> {
        if number >= self.reading.answer.nodes {
            return Err(format!("node {number} is beyond those used"));
        }
        let at = NODE_WIDTH * number as usize;
        let [letter, place, size, first, count, end, _] = self.reading.stores[0].cells()[at..at + NODE_WIDTH] else {
            unreachable!()
        };
        let [place, size, end] = [place, size, end].map(|number| number as usize);
        let node = Node { letter: letter as u8, place, size, first, count, end };
        if letter > 0x7F || node.place + node.size > node.end || node.end > self.input.len() {
            return Err(format!("node {number} is {node:?}"));
        }
        Ok(node)
    }

    pub fn contents(&self, node: &Node) -> &[u8] {
        &self.input[node.place..node.place + node.size]
    }

    /// The children of a node: its chain is as long as its count, and ends there.
    pub fn children(&self, node: &Node) -> Result<Vec<u32>, Fault> {
        let (mut children, mut entry) = (Vec::new(), node.first);
        for _ in 0..node.count {
            if entry >= self.reading.answer.entries {
                return Err(format!("a chain ends before its count: {node:?}"));
            }
            let at = 2 * entry as usize;
            children.push(self.reading.stores[1].cells()[at]);
            entry = self.reading.stores[1].cells()[at + 1];
        }
        if entry != refusals::NOTHING {
            return Err(format!("a chain goes on past its count: {node:?}"));
        }
        Ok(children)
    }

    pub fn leaf(&self, node: u32) -> Leaf {
        let nodes = self.reading.stores[0].cells();
        // SAFETY: input and store are lent for their lengths.
        unsafe {
            let (input, len) = (self.input.as_ptr(), self.input.len());
            sys::sill_leaf(input, len, nodes.as_ptr(), nodes.len(), self.reading.answer.nodes, node)
        }
    }

    fn show(&self, text: &mut Text, number: u32, shown: Shown) -> Result<(), Fault> {
        if text.is_full() {
            return Ok(());
        }
        let (node, leaf) = (self.node(number)?, self.leaf(number));
        if leaf.refusal != refusals::ACCEPTED || leaf.place != 0 || leaf.pad != 0 {
            return Err(format!("sill_leaf at node {number}: {leaf:?}"));
        }
        self.hold_kind(&node, &leaf)?;
        match leaf.kind {
            0 => return self.show_other(text, &node, shown),
            1 => text.word("N"),
            2 => text.truth(leaf.first == 1),
            3 => text.word("."),
            4 => text.word("S"),
            5 => text.whole((leaf.first as i64) < 0, &(leaf.first as i64).unsigned_abs().to_le_bytes()),
            6 => text.float(leaf.first),
            7 => text.complex(leaf.first, leaf.second),
            _ => self.show_wide(text, &node),
        }
        Ok(())
    }

    /// The kind belongs to the letter, the size to the letter, and a leaf has no children.
    fn hold_kind(&self, node: &Node, leaf: &Leaf) -> Result<(), Fault> {
        let digits = node.size == 4 + 2 * self.long_count(node).unsigned_abs() as usize;
        let held = match node.letter {
            b'N' => leaf.kind == 1 && node.size == 0,
            b'F' | b'T' => leaf.kind == 2 && leaf.first == u64::from(node.letter == b'T') && node.size == 0,
            b'.' => leaf.kind == 3 && node.size == 0,
            b'S' => leaf.kind == 4 && node.size == 0,
            b'i' => leaf.kind == 5 && node.size == 4,
            b'I' => leaf.kind == 5 && node.size == 8,
            b'l' => matches!(leaf.kind, 5 | 8) && digits,
            b'g' => leaf.kind == 6 && node.size == 8,
            b'y' => leaf.kind == 7 && node.size == 16,
            b'(' | b'[' | b'<' | b'>' => leaf.kind == 0 && node.size == 4,
            b')' => leaf.kind == 0 && node.size == 1,
            b'{' => leaf.kind == 0 && node.size == 0 && node.count % 2 == 0,
            b':' => leaf.kind == 0 && node.size == 0 && node.count == 3,
            b'c' => leaf.kind == 0 && node.size >= 20 && node.count == 10,
            b'u' | b't' | b'a' | b'A' | b'z' | b'Z' | b's' => leaf.kind == 0,
            _ => false,
        };
        let no_children = node.count == 0 && node.first == refusals::NOTHING;
        let childless = !matches!(node.letter, b'(' | b')' | b'[' | b'<' | b'>' | b'{' | b':' | b'c');
        let empty = leaf.kind == 5 || leaf.kind == 2 || leaf.kind == 6 || leaf.kind == 7 || leaf.first == 0;
        let single = leaf.kind == 7 || leaf.second == 0;
        if !held || childless && !no_children || node.count == 0 && !no_children || !empty || !single {
            return Err(format!("{node:?} with {leaf:?}"));
        }
        Ok(())
    }

    fn long_count(&self, node: &Node) -> i32 {
        self.number(node.place) as i32
    }

    fn number(&self, at: usize) -> u32 {
        self.input.get(at..at + 4).map_or(0, |four| u32::from_le_bytes(four.try_into().unwrap()))
    }

    /// A long beyond 64 bits: its digits lie in the input.
    fn show_wide(&self, text: &mut Text, node: &Node) {
        text.whole(self.long_count(node) < 0, &of_digits(&self.contents(node)[4..]));
    }

    fn show_other(&self, text: &mut Text, node: &Node, shown: Shown) -> Result<(), Fault> {
        let word = match node.letter {
            b's' => return Ok(text.bytes('s', self.contents(node))),
            b'(' | b')' => "t(",
            b'[' => "l(",
            b'<' => "e(",
            b'>' => "f(",
            b'{' => "d(",
            b':' => ":(",
            b'c' => return self.show_code(text, node, shown),
            _ => return Ok(text.bytes('u', self.contents(node))),
        };
        if let (b'<' | b'>', Shown::AsStored) = (node.letter, shown) {
            return self.show_set(text, word, node);
        }
        let mut held = Ok(());
        text.group(word, self.children(node)?, |text, child| held = held.clone().and(self.show(text, child, shown)));
        held
    }

    /// The members in the order of their texts: a set has no order of its own.
    fn show_set(&self, text: &mut Text, word: &str, node: &Node) -> Result<(), Fault> {
        let mut members = Vec::new();
        for child in self.children(node)? {
            let mut member = Text::new(usize::MAX);
            self.show(&mut member, child, Shown::AsStored)?;
            members.push(member.text);
        }
        members.sort();
        text.group(word, members, |text, member| text.word(&member));
        Ok(())
    }

    fn show_code(&self, text: &mut Text, node: &Node, shown: Shown) -> Result<(), Fault> {
        let parts = self.children(node)?;
        let [args, posonly, kwonly, stack, flags] = [0, 4, 8, 12, 16].map(|at| self.number(node.place + at));
        let flags = match shown {
            Shown::AsStored => flags,
            Shown::AsTheRust => flags & KNOWN_FLAGS,
        };
        text.word(&format!("c({args},{posonly},{kwonly},{stack},{flags:x},"));
        self.show(text, parts[0], shown)?;
        text.word(",");
        self.show(text, parts[1], shown)?;
        let (names, locals) = (self.strings(parts[2], shown)?, self.strings(parts[3], shown)?);
        let kinds = self.contents(&self.node(parts[4])?).to_vec();
        text.names(&names);
        for bit in [0x20, 0x40, 0x80] {
            text.names(locals.iter().zip(&kinds).filter(|(_, kind)| *kind & bit != 0).map(|(name, _)| name));
        }
        text.word(",");
        self.show(text, parts[4], shown)?;
        for part in &parts[5..8] {
            text.word(",");
            text.bytes('u', &self.string(*part, shown)?);
        }
        text.word(&format!(",{},", (self.number(node.place + node.size) as i32).max(0)));
        self.show(text, parts[8], shown)?;
        text.word(",");
        self.show(text, parts[9], shown)?;
        text.word(")");
        Ok(())
    }

    fn strings(&self, tuple: u32, shown: Shown) -> Result<Vec<Vec<u8>>, Fault> {
        self.children(&self.node(tuple)?)?.into_iter().map(|name| self.string(name, shown)).collect()
    }

    fn string(&self, node: u32, shown: Shown) -> Result<Vec<u8>, Fault> {
        let node = self.node(node)?;
        Ok(match shown {
            Shown::AsStored => self.contents(&node).to_vec(),
            Shown::AsTheRust => String::from_utf8_lossy(self.contents(&node)).into_owned().into_bytes(),
        })
    }

    /// Where the header of a node stands.
    pub fn header(&self, node: u32) -> Result<usize, Fault> {
        let Node { letter, place, .. } = self.node(node)?;
        let field = match letter {
            b'u' | b't' | b'a' | b'A' | b's' => 4,
            b'z' | b'Z' => 1,
            _ => 0,
        };
        Ok(place - field - 1)
    }
}

/// The magnitude of a long's digits of 15 bits, as bytes, the least first.
pub fn of_digits(digits: &[u8]) -> Vec<u8> {
    let (mut magnitude, mut held, mut bits) = (Vec::new(), 0u32, 0);
    for digit in digits.chunks(2) {
        held |= u32::from(u16::from_le_bytes([digit[0], digit[1]])) << bits;
        bits += 15;
        while bits >= 8 {
            magnitude.push(held as u8);
            held >>= 8;
            bits -= 8;
        }
    }
    magnitude.push(held as u8);
    magnitude
}
