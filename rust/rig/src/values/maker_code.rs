//! Code objects by the grammar, made by chance, part by part.
use super::maker::{Maker, Sort};

impl Maker<'_> {
    fn constants(&mut self, levels: usize) {
        if self.by_reference(Sort::Tuple) {
            return;
        }
        let (letter, count) = (self.random.one_of(b"()"), self.random.below(4));
        self.children(letter, levels.max(2), count);
    }

    fn names(&mut self, count: usize) {
        if self.by_reference(Sort::Names) {
            return;
        }
        let letter = self.random.one_of(b"()");
        let slot = self.header(letter);
        if letter == b')' {
            self.push(count as u8)
        } else {
            self.number(count as u32)
        }
        (0..count).for_each(|_| self.text());
        self.filled(slot, Sort::Names);
    }

    /// A code object, with one thing in eight of every sort gone wrong.
    pub(super) fn code(&mut self, levels: usize) {
        self.header(b'c');
        let wrong = self.random.below(100);
        let args = if wrong == 0 { u32::MAX - self.random.below(3) as u32 } else { self.random.below(4) as u32 };
        let flags = self.random.one_of(&[0, 3, 0x0F, 0x2F, 0x83, 0x0100_0003]);
        let flags = if wrong == 1 { self.random.of_any_width() } else { flags };
        let [posonly, kwonly] = [3, 4].map(|limit| self.random.below(limit) as u32);
        let stack = self.random.of_any_width();
        [args, posonly, kwonly, stack, flags].into_iter().for_each(|number| self.number(number));
        self.part(wrong == 2, levels, Self::instructions);
        self.part(wrong == 3, levels, |maker| maker.constants(levels.saturating_sub(1)));
        let count = self.random.below(4);
        self.part(wrong == 4, levels, |maker| maker.names(count));
        let count = self.random.below(5);
        self.part(wrong == 5, levels, |maker| maker.names(count));
        self.part(wrong == 6, levels, |maker| maker.kinds(count));
        for part in 7..10 {
            self.part(wrong == part, levels, Self::text);
        }
        let first_line = self.random.one_of(&[1, 10, 700, 0, u32::MAX, 0x7FFF_FFFF]);
        self.number(first_line);
        self.part(wrong == 10, levels, Self::lines);
        self.part(wrong == 11, levels, Self::bytes);
    }

    fn part(&mut self, wrong: bool, levels: usize, make: impl FnOnce(&mut Self)) {
        if wrong { self.value(levels.saturating_sub(1).max(1)) } else { make(self) }
    }

    /// Opcodes that the crate keeps as they are; now and then any bytes, or an odd number of them.
    fn instructions(&mut self) {
        let mut contents = Vec::new();
        for _ in 0..self.random.below(5) {
            let opcode =
                if self.random.below(30) == 0 { self.random.byte() } else { self.random.one_of(&[9, 30, 82, 100]) };
            contents.extend_from_slice(&[opcode, self.random.byte()]);
        }
        if self.random.below(40) == 0 {
            contents.push(9);
        }
        self.bytes_of(&contents);
    }

    fn kinds(&mut self, count: usize) {
        let count = if self.random.below(30) == 0 { count + 1 } else { count };
        let contents: Vec<u8> =
            (0..count).map(|_| self.random.one_of(&[0x20, 0x40, 0x60, 0x80, 0x20, 0x00, 0xFF])).collect();
        self.bytes_of(&contents);
    }

    fn lines(&mut self) {
        let entries: [&[u8]; 5] = [b"\x80\x00", b"\xE9\x02", b"\xF9", b"\xDA\x04\x08", b"\xE8\x7E\x7F\x7F\x7F\x7F\x03"];
        let mut contents = Vec::new();
        for _ in 0..self.random.below(4) {
            let most = if self.random.below(30) == 0 { 5 } else { 4 };
            contents.extend_from_slice(entries[self.random.below(most)]);
        }
        self.bytes_of(&contents);
    }
}
