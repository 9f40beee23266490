//! Writing values: the port into an output just long enough, which it clears itself, beside the Rust's serialize_value into
//! bytes that are kept from one time to the next and so never grow, and into new ones each time; and, for strings, beside the least that 01's rules ask
//! for: each string checked and copied, with and without the output cleared first. Where there is more than strings, beside the Rust's
//! serialize_value with each string that it writes checked.
use crate::read::{NESTING, NODE, Stores, sharing, small_integers, strings, text_of, with_plain_instructions};
use crate::timing::{Way, side_by_side, timed};
use carried::bytecode::{BasicBag, Constant, ConstantData};
use carried::marshal::{Dumpable, DumpableValue, deserialize_value, serialize_value};
use malachite_bigint::BigInt;
use sillgarland_sys::{Written, sill_write};
use std::convert::Infallible;
use std::hint::black_box;

pub fn run(modules: Vec<Vec<u8>>) {
    for (kind, alphabet) in [("ASCII", "sheet name 12"), ("mixed", "na\u{ef}ve \u{20ac}5 \u{1f33f}")] {
        for (letter, size) in [(b'z', 4), (b'z', 16), (b'z', 64), (b'u', 4), (b'u', 16), (b'u', 64), (b'u', 1024)] {
            let input = strings(letter, &text_of(alphabet, size));
            compare(&format!("1 MiB of {kind} strings of {size} bytes, letter {}", letter as char), &[input]);
        }
    }
    for size in [16, 1024] {
        compare(&format!("1 MiB of bytes objects of {size} bytes"), &[strings(b's', &"b".repeat(size))]);
    }
    compare("a list of a million small integers", &[small_integers(b'[')]);
    compare("a tuple of a million small integers", &[small_integers(b'(')]);
    for names in [1, 100, 1_000] {
        compare(&format!("1,000 code objects that share a tuple of {names} names"), &[sharing(names)]);
    }
    for names in [100, 1_000, 4_000] {
        compare(&format!("a code of {names} Local and {names} Cell names"), &[cells_and_locals(names)]);
    }
    if !modules.is_empty() {
        let modules: Vec<_> = modules.into_iter().map(with_plain_instructions).collect();
        compare(&format!("CPython's standard library ({} modules)", modules.len()), &modules);
    }
    for entries in [1_000, 10_000, 100_000] {
        rings(entries);
    }
}

/// A code whose Cell names, all alone, are each compared with every Local name; they differ in their last bytes only.
fn cells_and_locals(names: u32) -> Vec<u8> {
    let named = |kind: char| {
        (0..names).flat_map(move |i| [b"z\x0c".as_slice(), format!("name{kind}{i:07}").as_bytes()].concat())
    };
    let all: Vec<u8> = named('c').chain(named('l')).collect();
    let kinds: Vec<u8> = [0x20, 0x40].iter().flat_map(|kind| vec![*kind; names as usize]).collect();
    let count = (2 * names).to_le_bytes();
    let before = b"c\0\0\0\0\0\0\0\0\0\0\0\0\0\0\0\0\0\0\0\0s\0\0\0\0)\0)\0(";
    let after = b"z\0z\0z\0\x01\0\0\0s\0\0\0\0s\0\0\0\0";
    [before, &count[..], &all, b"s", &count[..], &kinds, after].concat()
}

struct Source<'a> {
    input: &'a [u8],
    stores: Stores,
    out: Vec<u8>,
}

impl<'a> Source<'a> {
    fn new(input: &'a [u8]) -> Self {
        let mut source = Self { input, stores: Stores::just_enough(input), out: vec![0; 2 * input.len()] };
        let written = loop {
            let answer = source.write();
            match answer.refusal {
                0 => break answer.written as usize,
                _ => source.out.resize(2 * source.out.len(), 0),
            }
        };
        source.out.truncate(written);
        source
    }

    fn write(&mut self) -> Written {
        let Self { input, stores: Stores { nodes, entries, .. }, out } = self;
        written(input, nodes, entries, out)
    }
}

/// The strings of a written value, which has no references, in the order of writing.
fn strings_of(written: &[u8]) -> Vec<&[u8]> {
    let is_string = |node: &&[u32]| b"uz".contains(&(node[0] as u8));
    let contents = |node: &[u32]| &written[node[1] as usize..][..node[2] as usize];
    Stores::just_enough(written).nodes.chunks(NODE).filter(is_string).map(contents).collect()
}

fn written(input: &[u8], nodes: &[u32], entries: &[u32], out: &mut [u8]) -> Written {
    // SAFETY: input, stores and output are lent for their lengths.
    unsafe {
        sill_write(
            input.as_ptr(),
            input.len(),
            nodes.as_ptr(),
            nodes.len(),
            entries.as_ptr(),
            entries.len(),
            (nodes.len() / NODE) as u32,
            (entries.len() / 2) as u32,
            0,
            NESTING,
            out.as_mut_ptr(),
            out.len(),
        )
    }
}

/// What the Rust writes from: the crate's own constants; of lists, which these cannot hold, integers.
enum Rust {
    Constant(ConstantData),
    List(Vec<Integer>),
}

struct Integer(BigInt);

impl Dumpable for Integer {
    type Error = Infallible;
    type Constant = ConstantData;

    fn with_dump<R>(&self, f: impl FnOnce(DumpableValue<'_, Self>) -> R) -> Result<R, Infallible> {
        Ok(f(DumpableValue::Integer(&self.0)))
    }
}

impl Rust {
    fn of(input: &[u8]) -> Self {
        let mut rest = input;
        match deserialize_value(&mut rest, BasicBag) {
            Ok(value) => Self::Constant(value),
            Err(_) => Self::List((0..1_000_000).map(|i| Integer(BigInt::from(i % 1000))).collect()),
        }
    }

    fn write(&self, out: &mut Vec<u8>) {
        out.clear();
        let Ok(()) = match self {
            Self::Constant(value) => serialize_value::<_, ConstantData>(out, value.borrow_constant().into()),
            Self::List(items) => serialize_value(out, DumpableValue::List(items)),
        };
    }
}

fn compare(title: &str, inputs: &[Vec<u8>]) {
    let mut sources: Vec<_> = inputs.iter().map(|input| Source::new(input)).collect();
    let values: Vec<_> = inputs.iter().map(|input| Rust::of(input)).collect();
    let mut outs: Vec<Vec<u8>> = vec![Vec::new(); inputs.len()];
    for ((value, out), source) in values.iter().zip(&mut outs).zip(&sources) {
        value.write(out);
        assert!(*out == source.out, "{title}: the two do not write the same");
    }
    let bytes: usize = outs.iter().map(Vec::len).sum();
    let plain = outs.clone();
    let strings: Vec<Vec<&[u8]>> = plain.iter().map(|written| strings_of(written)).collect();
    let mut copies = outs.clone();
    let mut cleared = outs.clone();
    let mut checked = outs.clone();
    let only_strings = strings.iter().flatten().map(|string| 5 + string.len()).sum::<usize>() + 5 == bytes;
    let mut ways = vec![
        Way {
            name: "the Rust",
            work: timed(|| {
                for (value, out) in values.iter().zip(&mut outs) {
                    value.write(black_box(out));
                }
            }),
        },
        Way {
            name: "the Rust, growing",
            work: timed(|| {
                for value in &values {
                    let mut out = Vec::new();
                    value.write(&mut out);
                    black_box(out);
                }
            }),
        },
        Way {
            name: "the port",
            work: timed(|| {
                for source in &mut sources {
                    assert_eq!(black_box(source.write()).refusal, 0);
                }
            }),
        },
    ];
    if only_strings {
        ways.push(Way { name: "check, copy", work: timed(|| check_and_copy(&strings[0], &mut copies[0])) });
        ways.push(Way {
            name: "clear, check, copy",
            work: timed(|| {
                cleared[0].fill(0);
                check_and_copy(&strings[0], black_box(&mut cleared[0]));
            }),
        });
    }
    if !only_strings && strings.iter().any(|strings| !strings.is_empty()) {
        ways.push(Way {
            name: "the Rust, checking",
            work: timed(|| {
                for ((value, out), strings) in values.iter().zip(&mut checked).zip(&strings) {
                    value.write(black_box(out));
                    strings.iter().for_each(|string| _ = black_box(std::str::from_utf8(black_box(string))));
                }
            }),
        });
    }
    side_by_side(&format!("written: {title}: {bytes} bytes"), (bytes.div_ceil(1024), "a KiB"), ways);
}

/// Each string checked, and put with its letter and length behind the one before.
fn check_and_copy(strings: &[&[u8]], out: &mut [u8]) {
    let mut rest = &mut out[5..];
    for string in black_box(strings) {
        assert!(std::str::from_utf8(string).is_ok());
        let (header, after) = rest.split_at_mut(5);
        header[0] = b'u';
        header[1..].copy_from_slice(&(string.len() as u32).to_le_bytes());
        let (contents, after) = after.split_at_mut(string.len());
        contents.copy_from_slice(string);
        rest = after;
    }
    black_box(rest);
}

/// A list of so many entries that begins with itself: at each level its chain is walked, and five bytes are written.
fn rings(count: u32) {
    let input = count.to_le_bytes();
    let nodes = [u32::from(b'['), 0, 4, 0, count];
    let entries: Vec<u32> = (1..=count).flat_map(|next| [0, if next < count { next } else { u32::MAX }]).collect();
    let mut out = vec![0; 16 << 10];
    let port = || assert_eq!(written(black_box(&input), &nodes, &entries, &mut out).refusal, 10);
    side_by_side(
        &format!("refused: a list of {count} entries that begins with itself, {NESTING} levels"),
        (NESTING as usize, "a level"),
        vec![Way { name: "the port", work: timed(port) }],
    );
}
