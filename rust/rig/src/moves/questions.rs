//! The questions of golden files: document 02's order of refusals, every short file, random and damaged goldens of both forms, and
//! values at and above the longest that a field holds.
use super::{Ask, Way};
use crate::random::Random;
use crate::settings::field;
use crate::values::random_pair;
use sillgarland_sys::refusals::MOST_NESTING;

const AMPLE: [u32; 3] = [3_000, 3_000, 3_000];

/// A code object of no arguments, instructions or names.
pub fn small_code() -> Vec<u8> {
    let empty = [b"s\0\0\0\0".as_slice(), b")\0", b")\0", b")\0", b"s\0\0\0\0", b"z\0", b"z\0", b"z\0"].concat();
    [b"c".as_slice(), &[0; 20], &empty, &[1, 0, 0, 0], b"s\0\0\0\0", b"s\0\0\0\0"].concat()
}

fn ask(way: Way, golden: Vec<u8>) -> Ask {
    Ask { way, nesting: MOST_NESTING, rooms: AMPLE, room: golden.len() + 10, golden }
}

fn in_fields(code: &[u8], result: &[u8]) -> Vec<u8> {
    [field(1, &[1]), field(2, code), field(3, result)].concat()
}

/// Two faults at a time, of which the first in document 02's order is told.
pub fn sheets() -> Vec<Ask> {
    let code = small_code();
    let old = |parts: &[&[u8]]| ask(Way::ToFields, parts.concat());
    let new = |fields: &[Vec<u8>]| ask(Way::FromFields, fields.concat());
    let (edition, c, r) = (field(1, &[1]), field(2, &code), field(3, b"N"));
    let with = |byte: &[u8]| [&code[..], byte].concat();
    vec![
        old(&[b"N"]),
        old(&[b"NN"]),
        old(&[b"NNN"]),
        old(&[b"N0"]),
        old(&[b"0", b"N"]),
        old(&[&code]),
        old(&[&code, b"N"]),
        old(&[&code, &code]),
        old(&[&code, b"NN"]),
        old(&[&code, b"r\0\0\0\0"]),
        ask(Way::ToFields, in_fields(&code, b"N")),
        new(&[edition.clone(), c.clone(), r.clone()]),
        new(&[c.clone(), edition.clone(), r.clone()]),
        new(&[edition.clone(), r.clone(), c.clone()]),
        new(&[edition.clone(), c.clone()]),
        new(&[edition.clone(), c.clone(), r.clone(), field(4, b"")]),
        new(&[edition.clone(), c.clone(), r.clone(), field(1, b"")]),
        new(&[field(1, &[2]), c.clone(), r.clone()]),
        new(&[field(1, &[1, 1]), c.clone(), r.clone()]),
        new(&[field(1, b""), c.clone(), r.clone()]),
        new(&[edition.clone(), field(2, &with(b"N")), field(3, b"NN")]),
        new(&[edition.clone(), c.clone(), field(3, b"NN")]),
        new(&[edition.clone(), field(2, b"NN"), field(3, b"")]),
        new(&[edition.clone(), field(2, b"NN"), field(3, b"NN")]),
        new(&[edition.clone(), field(2, b""), field(3, b"0")]),
        new(&[edition, field(2, &code), field(3, b"r\0\0\0\0")]),
        ask(Way::FromFields, with(b"N")),
    ]
}

/// Every file of up to four bytes of these, alone and behind a code, in each form.
pub fn short_asks() -> impl Iterator<Item = Ask> {
    const FEW: [u8; 8] = [0, 1, 2, 3, b'N', b'c', b')', 0xA9];
    let mut all: Vec<Vec<u8>> = vec![Vec::new()];
    let mut last = all.clone();
    for _ in 0..4 {
        last = last.iter().flat_map(|file| FEW.map(|byte| [&file[..], &[byte]].concat())).collect();
        all.extend(last.iter().cloned());
    }
    let code = small_code();
    all.into_iter().flat_map(move |file| {
        let behind = [&code[..], &file].concat();
        let result = [&field(1, &[1])[..], &field(2, &code), &file].concat();
        [
            ask(Way::ToFields, file.clone()),
            ask(Way::FromFields, file.clone()),
            ask(Way::ToFields, behind),
            ask(Way::FromFields, result),
            ask(Way::FromFields, in_fields(&code, &file)),
            ask(Way::FromFields, in_fields(&file, b"N")),
        ]
    })
}

fn damaged(random: &mut Random, mut bytes: Vec<u8>) -> Vec<u8> {
    let at = random.below(bytes.len() + 1);
    match random.below(9) {
        0 => bytes.truncate(at),
        1 if at < bytes.len() => bytes[at] = random.byte(),
        2 => bytes.push(random.byte()),
        3 => bytes.insert(at, random.byte()),
        _ => {}
    }
    bytes
}

/// Fields as they are to be, or a field left out, doubled, added or moved, another edition, bytes behind a value.
fn random_fields(random: &mut Random, [mut code, mut result]: [Vec<u8>; 2]) -> Vec<u8> {
    match random.below(12) {
        0 => code.push(random.byte()),
        1 => result.push(random.byte()),
        _ => {}
    }
    let edition = random.one_of(&[&[1][..], &[1], &[1], &[1], &[1], &[1], &[1], &[2], &[], &[1, 1]]);
    let mut fields = vec![field(1, edition), field(2, &code), field(3, &result)];
    let at = random.below(fields.len());
    match random.below(14) {
        0 => drop(fields.remove(at)),
        1 => fields.swap(at, (at + 1) % 3),
        2 => fields.push(fields[at].clone()),
        3 => fields.insert(at, field(random.byte(), &[])),
        _ => {}
    }
    damaged(random, fields.concat())
}

fn random_ask(random: &mut Random) -> Ask {
    let pair = random_pair(random);
    let way = random.one_of(&[Way::ToFields, Way::FromFields]);
    let golden = match way {
        Way::ToFields => {
            let plain = pair.concat();
            damaged(random, plain)
        }
        Way::FromFields => random_fields(random, pair),
    };
    let nesting = if random.below(4) == 0 { random.below(7) as u32 } else { MOST_NESTING };
    let rooms = AMPLE.map(|ample| if random.below(6) == 0 { random.below(24) as u32 } else { ample });
    let room = (golden.len() + 11).saturating_sub(random.one_of(&[0, 1, 1, 1, 5, 12]));
    Ask { way, golden, nesting, rooms, room }
}

pub fn random_asks(seed: u64, count: usize) -> impl Iterator<Item = Ask> {
    let mut random = Random::new(seed);
    (0..count).map(move |_| random_ask(&mut random))
}

/// Values of the most bytes that a field holds, and of one more; 16 MiB, and one byte more.
pub fn extremes() -> Vec<Ask> {
    let code = small_code();
    let bytes = |size: u32| [&b"s"[..], &(size - 5).to_le_bytes(), &vec![7; size as usize - 5]].concat();
    let long_code = |size: usize| {
        let more = size - code.len();
        [&code[..code.len() - 5], b"s", &(more as u32).to_le_bytes(), &vec![7; more]].concat()
    };
    let old = |parts: [&[u8]; 2]| ask(Way::ToFields, parts.concat());
    vec![
        old([&code, &bytes(65_535)]),
        old([&code, &bytes(65_536)]),
        old([&long_code(65_535), &bytes(65_535)]),
        old([&long_code(65_536), b"N"]),
        old([&long_code(65_536), &bytes(65_536)]),
        old([&bytes(65_536), b"N"]),
        old([&long_code(70_000), b"NN"]),
        ask(Way::FromFields, in_fields(&long_code(65_535), &bytes(65_535))),
        old([&code, &bytes(16_777_216 - code.len() as u32)]),
        old([&code, &bytes(16_777_217 - code.len() as u32)]),
    ]
}
