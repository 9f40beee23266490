//! Values by the grammar, made by chance: leaves and containers.
use crate::random::Random;

/// What a slot's value can serve as.
#[derive(Clone, Copy, PartialEq)]
pub(super) enum Sort {
    Bytes,
    Text,
    Tuple,
    Names,
    Other,
}

pub(super) struct Maker<'a> {
    pub(super) random: &'a mut Random,
    out: Vec<u8>,
    slots: Vec<Sort>,
}

impl<'a> Maker<'a> {
    pub(super) fn new(random: &'a mut Random) -> Self {
        Self { random, out: Vec::new(), slots: Vec::new() }
    }

    pub(super) fn made(self) -> Vec<u8> {
        self.out
    }

    pub(super) fn push(&mut self, byte: u8) {
        self.out.push(byte);
    }

    /// The header, now and then with the flag; the slot it reserves, for when the value's sort is known.
    pub(super) fn header(&mut self, letter: u8) -> Option<usize> {
        let flagged = self.random.below(4) == 0;
        self.out.push(letter | if flagged { 0x80 } else { 0 });
        flagged.then(|| {
            self.slots.push(Sort::Other);
            self.slots.len() - 1
        })
    }

    pub(super) fn number(&mut self, number: u32) {
        self.out.extend_from_slice(&number.to_le_bytes());
    }

    pub(super) fn filled(&mut self, slot: Option<usize>, sort: Sort) {
        if let Some(slot) = slot {
            self.slots[slot] = sort;
        }
    }

    /// A reference to a value of this sort, if there is one and chance will have it.
    pub(super) fn by_reference(&mut self, sort: Sort) -> bool {
        let fitting: Vec<usize> = (0..self.slots.len()).filter(|slot| self.slots[*slot] == sort).collect();
        if fitting.is_empty() || self.random.below(3) != 0 {
            return false;
        }
        let index = self.random.one_of(&fitting);
        self.out.push(self.random.one_of(&[b'r', 0xF2]));
        self.number(index as u32);
        true
    }

    pub(super) fn value(&mut self, levels: usize) {
        let containers = if levels > 1 { 9 } else { 0 };
        match self.random.below(14 + containers) {
            0..=2 => drop({
                let letter = self.random.one_of(b"NFTS.");
                self.header(letter)
            }),
            3 => self.fixed(b'i', 4),
            4 => self.fixed(b'I', 8),
            5 => self.fixed(b'g', 8),
            6 => self.fixed(b'y', 16),
            7 | 8 => self.long(),
            9 => self.bytes(),
            10 | 11 => self.text(),
            12 => self.reference(),
            13 if self.random.below(12) == 0 => self.decimal(),
            13 => self.text(),
            14 => self.pairs(levels),
            15 => self.children(b':', levels, 3),
            16 if levels > 2 => self.code(levels),
            _ => self.sequence(levels),
        }
    }

    fn fixed(&mut self, letter: u8, size: usize) {
        self.header(letter);
        let spread = self.random.one_of(&[0x00, 0xFF, 0x7F, 0x80]);
        for _ in 0..size {
            let byte = if self.random.below(3) == 0 { spread } else { self.random.byte() };
            self.out.push(byte);
        }
    }

    /// Of 0 to 7 digits, many of them at an end of the range; the last is rarely 0, a digit is rarely too great.
    fn long(&mut self) {
        self.header(b'l');
        let count: u32 = self.random.one_of(&[0, 1, 2, 4, 5, 5, 5, 6, 7]);
        let signed = if self.random.below(2) == 0 { count } else { count.wrapping_neg() };
        self.number(signed);
        for i in 0..count {
            let digit = match self.random.below(6) {
                0 => 0,
                1 => 0x7FFF,
                2 => 8,
                3 if self.random.below(20) == 0 => 0x8000,
                _ => self.random.word() as u16 & 0x7FFF,
            };
            let last = i + 1 == count && self.random.below(10) != 0;
            self.out.extend_from_slice(&(if last { digit.max(1) } else { digit }).to_le_bytes());
        }
    }

    pub(super) fn bytes(&mut self) {
        if self.by_reference(Sort::Bytes) {
            return;
        }
        let len = self.random.one_of(&[0, 1, 2, 4, 6, 9]);
        let contents: Vec<u8> = (0..len).map(|_| self.random.byte()).collect();
        self.bytes_of(&contents);
    }

    pub(super) fn bytes_of(&mut self, contents: &[u8]) {
        let slot = self.header(b's');
        self.number(contents.len() as u32);
        self.out.extend_from_slice(contents);
        self.filled(slot, Sort::Bytes);
    }

    /// Any of the string letters; code points of every length, seldom a surrogate, seldom no text at all.
    pub(super) fn text(&mut self) {
        if self.by_reference(Sort::Text) {
            return;
        }
        let contents = self.contents();
        let letter = self.random.one_of(b"utaAzZz");
        let slot = self.header(letter);
        match letter {
            b'z' | b'Z' => self.out.push(contents.len() as u8),
            _ => self.number(contents.len() as u32),
        }
        self.out.extend_from_slice(&contents);
        self.filled(slot, Sort::Text);
    }

    fn contents(&mut self) -> Vec<u8> {
        let pieces: [&[u8]; 12] = [
            b"a",
            b"b",
            b"sheet",
            b"",
            b"x",
            "\u{e9}".as_bytes(),
            "\u{20ac}".as_bytes(),
            "\u{1f33f}".as_bytes(),
            b"longer than eight bytes",
            b"_1",
            b"name",
            b"\xED\x9F\xBF",
        ];
        let mut contents = Vec::new();
        for _ in 0..self.random.below(4) {
            contents.extend_from_slice(match self.random.below(60) {
                0 => b"\xED\xA0\x80",
                1 => b"\x80",
                2 => b"\xF4\x90\x80\x80",
                3 => b"\xC1\x81",
                other => pieces[other % pieces.len()],
            });
        }
        contents
    }

    /// Mostly a slot that is there; it may be open still.
    fn reference(&mut self) {
        self.out.push(self.random.one_of(&[b'r', b'r', 0xF2]));
        let beyond = if self.random.below(6) == 0 { 2 } else { 0 };
        let index = self.random.below(self.slots.len() + beyond + 1).saturating_sub(1);
        self.number(index as u32);
    }

    fn decimal(&mut self) {
        let letter = self.random.one_of(b"fx");
        self.header(letter);
        for _ in 0..if letter == b'f' { 1 } else { 2 } {
            self.out.extend_from_slice(b"\x031.5");
        }
    }

    fn pairs(&mut self, levels: usize) {
        self.header(b'{');
        for _ in 0..self.random.below(4) {
            self.value(levels - 1);
            self.value(levels - 1);
        }
        let end = self.random.one_of(&[b'0', 0xB0]);
        self.out.push(end);
    }

    fn sequence(&mut self, levels: usize) {
        let letter = self.random.one_of(b"()[<>)");
        let count = self.random.below(5);
        self.children(letter, levels, count);
    }

    pub(super) fn children(&mut self, letter: u8, levels: usize, count: usize) {
        let slot = self.header(letter);
        match letter {
            b':' => {}
            b')' => self.out.push(count as u8),
            _ => self.number(count as u32),
        }
        (0..count).for_each(|_| self.value(levels - 1));
        let sort = if matches!(letter, b'(' | b')') { Sort::Tuple } else { Sort::Other };
        self.filled(slot, sort);
    }
}
