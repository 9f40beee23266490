//! The shape of a line table: where its entries begin and end and how many instructions each has, without what they mean.
//! It tells what the Rust does not show: how many instructions come from entries, whether the table is whole, and at
//! which entry a table is refused.

pub struct Entry {
    pub start: usize,
    pub end: usize,
    pub instructions: u32,
    missing: bool,
    /// One of its numbers is 2^32 or more in its first six bytes, of which the Rust drops the high bits.
    pub drops_bits: bool,
}

/// The entries up to the one that places the last of `count` instructions, to a stop, or to the table's end.
pub fn entries(table: &[u8], count: u32) -> Vec<Entry> {
    let (mut entries, mut at, mut placed) = (Vec::new(), 0, 0);
    while placed < count && table.get(at).is_some_and(|byte| byte & 0x80 != 0) {
        let entry = entry(table, at);
        at = entry.end;
        placed += entry.instructions;
        entries.push(entry);
    }
    entries
}

/// "every byte used, none missing, no stop, lengths summing to the instruction count"
pub fn is_whole(table: &[u8], count: u32) -> bool {
    let entries = entries(table, count);
    let used = entries.last().map_or(0, |entry| entry.end);
    placed(&entries) == count && used == table.len() && !entries.iter().any(|entry| entry.missing)
}

pub fn placed(entries: &[Entry]) -> u32 {
    entries.iter().map(|entry| entry.instructions).sum()
}

fn entry(table: &[u8], start: usize) -> Entry {
    let instructions = u32::from(table[start] & 7) + 1;
    let mut entry = Entry { start, end: start + 1, instructions, missing: false, drops_bits: false };
    match table[start] >> 3 & 15 {
        0..=9 => entry.pass_byte(table),
        10..=12 => (0..2).for_each(|_| entry.pass_byte(table)),
        13 => entry.pass_varint(table),
        14 => (0..4).for_each(|_| entry.pass_varint(table)),
        _ => {}
    }
    entry
}

impl Entry {
    fn pass_byte(&mut self, table: &[u8]) {
        if self.end < table.len() {
            self.end += 1;
        } else {
            self.missing = true;
        }
    }

    fn pass_varint(&mut self, table: &[u8]) {
        let start = self.end;
        while table.get(self.end).is_some_and(|byte| byte & 0x40 != 0) {
            self.end += 1;
        }
        self.pass_byte(table);
        let six = table[start..self.end].iter().take(6).enumerate();
        let sum: u64 = six.map(|(i, byte)| u64::from(byte & 0x3F) << (6 * i)).sum();
        self.drops_bits |= sum >> 32 != 0;
    }
}
