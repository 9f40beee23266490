//! A value as text, the same for every side: what the port left in its stores, the Rust's tree, CPython's objects.
//!
//!   N T F . S          none, true, false, ellipsis, stop
//!   i-1f               a whole number, in hexadecimal
//!   g3ff0..  y..:..    the bits of one float, of two
//!   u6162  s6162       a string, bytes
//!   t(..) l(..) e(..) f(..) d(..) :(..)   tuple, list, set, frozenset, dict, slice, with commas
//!   c(..)              code: its five numbers, bytes, constants, names; Local, Cell and Free names; kinds, file, name,
//!                      qualified name, first line (0 or less as 0), line table, exception table

/// Text that stops growing at a limit: shared parts may make a value's text far longer than its bytes.
pub struct Text {
    pub text: String,
    limit: usize,
}

impl Text {
    pub fn new(limit: usize) -> Self {
        Self { text: String::new(), limit }
    }

    pub fn is_full(&self) -> bool {
        self.text.len() > self.limit
    }

    pub fn word(&mut self, word: &str) {
        self.text.push_str(word);
    }

    pub fn truth(&mut self, value: bool) {
        self.word(if value { "T" } else { "F" });
    }

    pub fn bytes(&mut self, letter: char, bytes: &[u8]) {
        const DIGITS: &[u8; 16] = b"0123456789abcdef";
        self.text.push(letter);
        for byte in bytes {
            self.text.push(DIGITS[usize::from(byte >> 4)] as char);
            self.text.push(DIGITS[usize::from(byte & 15)] as char);
        }
    }

    /// Sign and magnitude, whose bytes come least first.
    pub fn whole(&mut self, negative: bool, magnitude: &[u8]) {
        let most_first: Vec<u8> = magnitude.iter().rev().copied().skip_while(|byte| *byte == 0).collect();
        let mut hex = Self::new(usize::MAX);
        hex.bytes('0', &most_first);
        let digits = hex.text.trim_start_matches('0');
        self.word(if negative && !digits.is_empty() { "i-" } else { "i" });
        self.word(if digits.is_empty() { "0" } else { digits });
    }

    pub fn float(&mut self, bits: u64) {
        self.text += &format!("g{bits:016x}");
    }

    pub fn complex(&mut self, re: u64, im: u64) {
        self.text += &format!("y{re:016x}:{im:016x}");
    }

    /// The items with commas, between the word and a closing bracket.
    pub fn group<T>(&mut self, word: &str, items: impl IntoIterator<Item = T>, mut each: impl FnMut(&mut Self, T)) {
        self.word(word);
        for (i, item) in items.into_iter().enumerate() {
            if self.is_full() {
                return;
            }
            self.word(if i == 0 { "" } else { "," });
            each(self, item);
        }
        self.word(")");
    }

    pub fn names<N: AsRef<[u8]>>(&mut self, names: impl IntoIterator<Item = N>) {
        self.group(",t(", names, |text, name| text.bytes('u', name.as_ref()));
    }
}
