//! Every short input, and longer ones over small alphabets.
use crate::read::Ask;
use sillgarland_sys::refusals::MOST_NESTING;
use std::ops::Range;

pub const LETTERS: &[u8] = b"0NFTS.iIlgfxystr()[{cu<>:aAzZ";

/// Every input of up to three bytes with the crate's own nesting, and those of up to two, and short containers, with
/// little nesting too.
#[cfg(carried)]
pub fn short_inputs() -> impl Iterator<Item = Ask> {
    let two = (0..=2).flat_map(|len| (0..1usize << (8 * len)).map(move |number| bytes_of(number, len)));
    let little = two.clone().flat_map(|input| (0..4).map(move |nesting| Ask { input: input.clone(), nesting }));
    let three = (0..1usize << 24).map(|number| bytes_of(number, 3));
    let containers = (0..1usize << 24)
        .filter(|number| b")[{:c".contains(&(*number as u8)) && (number >> 8 & 0xFF < 3 || number >> 8 & 0x7F > 0x6F))
        .flat_map(|number| (1..3).map(move |nesting| Ask { input: bytes_of(number, 3), nesting }));
    two.chain(three).map(|input| Ask { input, nesting: MOST_NESTING }).chain(little).chain(containers)
}

pub fn bytes_of(number: usize, len: u32) -> Vec<u8> {
    (0..len).map(|i| (number >> (8 * i)) as u8).collect()
}

/// Each letter, with the flag and without; small counts, which are indices too; a byte that no UTF-8 has.
pub const WIDE: [u8; 2 * LETTERS.len() + 5] = {
    let mut wide = [0; 2 * LETTERS.len() + 5];
    let mut i = 0;
    while i < LETTERS.len() {
        wide[2 * i] = LETTERS[i];
        wide[2 * i + 1] = LETTERS[i] | 0x80;
        i += 1;
    }
    i *= 2;
    let counts = [0, 1, 2, 3, 0xFF];
    while i < wide.len() {
        wide[i] = counts[i - 2 * LETTERS.len()];
        i += 1;
    }
    wide
};

/// Twenty symbols, the first sixteen of which serve the short form.
pub const NARROW: [u8; 20] = [
    b'N', 0xCE, b'0', 0xB0, b')', 0xA9, b'[', b'{', b':', b'r', b'z', b'l', 0x00, 0x01, 0x02, 0xFF, b'(', 0xFB, b'u',
    b'f',
];

pub fn all_over(alphabet: &'static [u8], len: u32) -> impl Iterator<Item = Ask> {
    over(alphabet, len, 0..alphabet.len().pow(len))
}

/// One of ROUNDS shares of them; past the last round, none.
#[cfg(carried)]
pub fn share_over(alphabet: &'static [u8], len: u32, round: u64) -> impl Iterator<Item = Ask> {
    let all = alphabet.len().pow(len);
    let from = |round: u64| (all as u128 * u128::from(round.min(ROUNDS)) / u128::from(ROUNDS)) as usize;
    over(alphabet, len, from(round)..from(round + 1))
}

/// The inputs of this length over the alphabet, by number.
fn over(alphabet: &'static [u8], len: u32, numbers: Range<usize>) -> impl Iterator<Item = Ask> {
    numbers.map(move |mut number| {
        let mut digit = || {
            let symbol = alphabet[number % alphabet.len()];
            number /= alphabet.len();
            symbol
        };
        Ask { input: (0..len).map(|_| digit()).collect(), nesting: MOST_NESTING }
    })
}

/// How many rounds of the long form come by every input of five bytes over the wide alphabet and of six over twenty symbols.
#[cfg(carried)]
pub const ROUNDS: u64 = 64;
