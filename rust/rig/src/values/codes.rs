//! A small code object with one thing wrong, and code objects with strings of every length that matters.
use crate::read::Ask;
use sillgarland_sys::refusals::MOST_NESTING;

/// The parts of a small code object.
const PARTS: [&[u8]; 10] = [
    b"s\x02\0\0\0\x09\0",
    b")\x01N",
    b")\x01z\x01a",
    b")\x01z\x01b",
    b"s\x01\0\0\0\x20",
    b"z\x01f",
    b"z\x01g",
    b"z\x01h",
    b"s\x02\0\0\0\x80\0",
    b"s\0\0\0\0",
];

fn code_of(numbers: [u32; 5], parts: [&[u8]; 10]) -> Vec<u8> {
    let numbers = numbers.map(u32::to_le_bytes).concat();
    [b"c".as_slice(), &numbers, &parts[..8].concat(), b"\x01\0\0\0", &parts[8..].concat()].concat()
}

/// A code object with one thing wrong: each part of another kind, as it stands and by reference; a name that is none; the
/// three checks at its end, alone and together.
pub fn code_faults() -> impl Iterator<Item = Ask> {
    let with = |i: usize, part: &'static [u8]| {
        let mut parts = PARTS;
        parts[i] = part;
        parts
    };
    let (zero, full) = ([0; 5], u32::MAX);
    let (odd, unequal) = (with(0, b"s\x01\0\0\0\x09"), with(4, b"s\0\0\0\0"));
    let others: [&'static [u8]; 4] = [b"N", b"r\0\0\0\0", b"\xA9\x01T", b"r\x01\0\0\0"];
    let mut codes: Vec<_> = (0..10).flat_map(|i| others.map(|other| code_of(zero, with(i, other)))).collect();
    codes.extend([2, 3].map(|i| code_of(zero, with(i, b")\x02z\0T"))));
    codes.extend(
        [zero, [full, 0, 1, 0, 0], [full, 0, 0, 0, 4], [full - 1, 9, 0, 0, 0x0C], [full, 0, 0, 0, 0x40]]
            .iter()
            .flat_map(|numbers| [PARTS, odd, unequal].map(|parts| code_of(*numbers, parts))),
    );
    // Before the code stands a value with a slot, so that a part may refer to it; before others nothing.
    let referring = codes.clone().into_iter().map(|code| [b")\x02\xCE".as_slice(), &code].concat());
    let inputs: Vec<_> = referring.chain(codes).collect();
    inputs.into_iter().map(|input| Ask { input, nesting: MOST_NESTING })
}

/// Codes with strings about as long as the short letter holds, ASCII to the end or not, as names, as a local name, as file,
/// name and qualified name.
#[cfg(carried)]
pub fn code_strings() -> impl Iterator<Item = Ask> {
    let string = |len: usize, last: &str| {
        let text = "n".repeat(len - last.len()) + last;
        [b"u", &(len as u32).to_le_bytes()[..], text.as_bytes()].concat()
    };
    let lengths = [1, 2, 127, 128, 253, 254, 255, 256, 257, 258, 511, 512];
    let strings = lengths.into_iter().flat_map(move |len| ["", "m", "\x7f", "\u{80}"].map(|last| (len, last)));
    let fitting = strings.filter(|(len, last)| *len >= last.len()).map(move |(len, last)| string(len, last));
    fitting.flat_map(|string| {
        [2, 3, 5, 6, 7].map(|i| {
            let tuple = [b")\x01", &string[..]].concat();
            let mut parts = PARTS;
            parts[i] = if i < 5 { &tuple } else { &string };
            Ask { input: code_of([0; 5], parts), nesting: MOST_NESTING }
        })
    })
}
