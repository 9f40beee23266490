//! Reading values: the port into stores just large enough, which it clears itself, beside the Rust's reader with three
//! bags (the crate's own BasicBag, one that builds a tree, one that keeps nothing) and CPython's marshal.loads. What the
//! Rust and CPython make is thrown away within the time. Rows of plain values have a floor beside them: the same records
//! without any check.
use crate::floor;
use crate::python::Python;
use crate::timing::{Way, side_by_side, timed};
use bags::{NothingBag, TreeBag};
use carried::bytecode::BasicBag;
use carried::marshal::{MarshalBag, deserialize_value};
use sillgarland_sys::{Read, sill_read};
use std::hint::black_box;

pub const MEBIBYTE: usize = 1 << 20;
pub const NESTING: u32 = 2000;

pub fn run(modules: Vec<Vec<u8>>) {
    for (kind, alphabet) in [("ASCII", "sheet name 12"), ("mixed", "na\u{ef}ve \u{20ac}5 \u{1f33f}")] {
        for (letter, size) in [(b'z', 4), (b'z', 16), (b'z', 64), (b'u', 4), (b'u', 16), (b'u', 64), (b'u', 1024)] {
            let input = strings(letter, &text_of(alphabet, size));
            compare(&format!("1 MiB of {kind} strings of {size} bytes, letter {}", letter as char), &[input]);
        }
    }
    for (letter, name) in [(b'[', "list"), (b'(', "tuple")] {
        compare(&format!("a {name} of a million small integers"), &[small_integers(letter)]);
    }
    for names in [1, 100, 10_000] {
        compare(&format!("1,000 code objects that share a tuple of {names} names"), &[sharing(names)]);
    }
    if !modules.is_empty() {
        let modules: Vec<_> = modules.into_iter().map(with_plain_instructions).collect();
        compare(&format!("CPython's standard library ({} modules)", modules.len()), &modules);
    }
}

/// Text of so many bytes: the alphabet's characters in turn, then as many `a` as are missing.
pub fn text_of(alphabet: &str, size: usize) -> String {
    let mut text = String::new();
    for character in alphabet.chars().cycle().take(size) {
        if text.len() + character.len_utf8() > size {
            break;
        }
        text.push(character);
    }
    let missing = size - text.len();
    text + &"a".repeat(missing)
}

/// A tuple of the same string again and again, 1 MiB in all.
pub fn strings(letter: u8, text: &str) -> Vec<u8> {
    let mut string = vec![letter];
    match letter {
        b'z' => string.push(text.len() as u8),
        _ => string.extend_from_slice(&(text.len() as u32).to_le_bytes()),
    }
    string.extend_from_slice(text.as_bytes());
    let count = MEBIBYTE / string.len();
    [b"(", &(count as u32).to_le_bytes()[..], &string.repeat(count)].concat()
}

pub fn small_integers(letter: u8) -> Vec<u8> {
    let ints: Vec<u8> = (0..1_000_000u32).flat_map(|i| [&[b'i'][..], &(i % 1000).to_le_bytes()].concat()).collect();
    [&[letter][..], &1_000_000u32.to_le_bytes(), &ints].concat()
}

/// A tuple of a tuple of names and 1,000 code objects that refer to it: at each of them every name is checked again.
pub fn sharing(names: u32) -> Vec<u8> {
    let before = b"c\0\0\0\0\0\0\0\0\0\0\0\0\0\0\0\0\0\0\0\0s\0\0\0\0)\0r\0\0\0\0)\0s\0\0\0\0";
    let after = b"z\0z\0z\0\x01\0\0\0s\0\0\0\0s\0\0\0\0";
    let codes = [before.as_slice(), after].concat().repeat(1000);
    let shared = [b"\xA8", &names.to_le_bytes()[..], &b"z\x04name".repeat(names as usize)].concat();
    [b"(", &1001u32.to_le_bytes()[..], &shared, &codes].concat()
}

/// CPython 3.11 has opcodes that the Rust refuses: in place of every instruction stands one that it takes.
pub fn with_plain_instructions(mut module: Vec<u8>) -> Vec<u8> {
    let stores = Stores::just_enough(&module);
    let node = |number: u32| &stores.nodes[NODE * number as usize..][..NODE];
    for code in stores.nodes.chunks(NODE).filter(|node| node[0] == u32::from(b'c')) {
        let bytes = node(stores.entries[2 * code[3] as usize]);
        let (place, size) = (bytes[1] as usize, bytes[2] as usize);
        module[place..place + size].chunks_mut(2).for_each(|unit| unit.copy_from_slice(&[PLAIN, 0]));
    }
    module
}

/// An opcode that the Rust keeps as it is.
const PLAIN: u8 = 30;

/// How many numbers a node is.
pub const NODE: usize = 7;

pub struct Stores {
    pub nodes: Vec<u32>,
    pub entries: Vec<u32>,
    pub slots: Vec<u32>,
}

impl Stores {
    /// Lengths that fit the value exactly, filled with its reading.
    pub fn just_enough(input: &[u8]) -> Self {
        let most = input.len().min(MEBIBYTE);
        let mut stores = Self { nodes: vec![0; NODE * most], entries: vec![0; 2 * most], slots: vec![0; most] };
        let counts = stores.read(input);
        stores.nodes.truncate(NODE * counts.nodes as usize);
        stores.entries.truncate(2 * counts.entries as usize);
        stores.slots.truncate(counts.slots as usize);
        stores
    }

    pub fn copied(&self) -> Self {
        Self { nodes: self.nodes.clone(), entries: self.entries.clone(), slots: self.slots.clone() }
    }

    /// As long as these and a node more, and empty.
    pub fn with_one_more(&self) -> Self {
        let [nodes, entries, slots] = [self.nodes.len() + NODE, self.entries.len(), self.slots.len()];
        Self { nodes: vec![0; nodes], entries: vec![0; entries], slots: vec![0; slots] }
    }

    pub fn read_again(&mut self, input: &[u8]) {
        black_box(self.read(input));
    }

    fn read(&mut self, input: &[u8]) -> Read {
        let Self { nodes, entries, slots } = self;
        let (n, e, s) = (nodes.len(), entries.len(), slots.len());
        let (nodes, entries, slots) = (nodes.as_mut_ptr(), entries.as_mut_ptr(), slots.as_mut_ptr());
        // SAFETY: input and stores are lent for their lengths.
        let answer = unsafe { sill_read(input.as_ptr(), input.len(), nodes, n, entries, e, slots, s, NESTING) };
        assert_eq!(answer.refusal, 0, "the port refuses: {answer:?}");
        answer
    }
}

fn compare(title: &str, inputs: &[Vec<u8>]) {
    let bytes: usize = inputs.iter().map(Vec::len).sum();
    let mut stores: Vec<_> = inputs.iter().map(|input| Stores::just_enough(input)).collect();
    let nodes: usize = stores.iter().map(|stores| stores.nodes.len() / NODE).sum();
    let mut python = Python::loading(inputs);
    let mut floors: Vec<_> = if inputs.iter().all(|input| floor::is_flat(input)) {
        inputs.iter().map(|input| on_the_floor(input)).collect()
    } else {
        Vec::new()
    };
    let port = || {
        for (input, stores) in inputs.iter().zip(&mut stores) {
            black_box(stores.read(black_box(input)));
        }
    };
    let mut ways = Vec::new();
    // The crate's own bag makes no lists.
    if by_the_rust(&inputs[..1], BasicBag) {
        ways.push(Way { name: "the Rust, BasicBag", work: timed(|| assert!(by_the_rust(inputs, BasicBag))) });
    }
    ways.push(Way { name: "the Rust, a tree", work: timed(|| assert!(by_the_rust(inputs, TreeBag::default()))) });
    ways.push(Way { name: "the Rust, nothing", work: timed(|| assert!(by_the_rust(inputs, NothingBag))) });
    ways.push(Way { name: "the port", work: timed(port) });
    if !floors.is_empty() {
        let fill = || {
            for (input, stores) in inputs.iter().zip(&mut floors) {
                floor::fill(black_box(input), stores);
                black_box(&stores.nodes);
            }
        };
        ways.push(Way { name: "the floor", work: timed(fill) });
    }
    if let Some(python) = &mut python {
        ways.push(Way { name: "CPython's loads", work: Box::new(|| python.do_all()) });
    }
    side_by_side(&format!("{title}: {bytes} bytes, {nodes} nodes"), (nodes, "a node"), ways);
}

/// Stores as the floor fills them, which are those that the port fills.
fn on_the_floor(input: &[u8]) -> Stores {
    let port = Stores::just_enough(input);
    let mut stores = Stores::just_enough(input);
    floor::fill(input, &mut stores);
    assert!(
        stores.nodes == port.nodes && stores.entries == port.entries && stores.slots == port.slots,
        "the floor differs"
    );
    stores
}

/// Reads every input, each to its end; false if one is refused.
fn by_the_rust<Bag: MarshalBag>(inputs: &[Vec<u8>], bag: Bag) -> bool {
    inputs.iter().all(|input| {
        let mut rest = black_box(input).as_slice();
        let value = deserialize_value(&mut rest, bag);
        black_box(value).is_ok() && rest.is_empty()
    })
}
