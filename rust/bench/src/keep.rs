//! Keeping and reading more: the move of a value to the front of the stores, and the same value read behind one node, beside reading it.
//! The stores are just long enough, and what clears them is within the time. The goal is a move in at most twice the time of reading.
use crate::read::{NESTING, NODE, Stores, small_integers, strings, text_of};
use crate::timing::{Way, side_by_side, timed, timed_after};
use sillgarland_sys::{sill_keep, sill_keep_need, sill_read_more};
use std::cell::RefCell;
use std::hint::black_box;

pub fn run(modules: Vec<Vec<u8>>) {
    compare("a list of a million small integers", &[small_integers(b'[')]);
    compare("a tuple of 250,000 tuples of three", &[tuples_of_three(250_000)]);
    compare("a list of 500,000 references to 500,000 texts, from the last on", &[references(500_000)]);
    compare("1 MiB of ASCII strings of 16 bytes, letter z", &[strings(b'z', &text_of("sheet name 12", 16))]);
    if !modules.is_empty() {
        compare(&format!("CPython's standard library ({} modules)", modules.len()), &modules);
    }
}

fn tuples_of_three(count: u32) -> Vec<u8> {
    [b"(", &count.to_le_bytes()[..], &b")\x03NTF".repeat(count as usize)].concat()
}

/// A pair of a list and of one that refers to its members in the opposite order, which is the part that is kept first.
fn references(count: u32) -> Vec<u8> {
    let size = count.to_le_bytes();
    let texts = b"\xFA\x02ab".repeat(count as usize);
    let named: Vec<u8> = (0..count).rev().flat_map(|slot| [&b"r"[..], &slot.to_le_bytes()].concat()).collect();
    [b")\x02[", &size[..], &texts, b"[", &size[..], &named].concat()
}

impl Stores {
    /// Moves a node to the front.
    fn keep(&mut self, node: u32, used: [u32; 2], stack: &mut [u32]) {
        let Self { nodes, entries, slots } = self;
        let (n, e, s) = (nodes.len(), entries.len(), slots.len());
        let (nodes, entries, slots) = (nodes.as_mut_ptr(), entries.as_mut_ptr(), slots.as_mut_ptr());
        // SAFETY: stores and stack are lent for their lengths.
        let answer = unsafe {
            let (stack, room) = (stack.as_mut_ptr(), stack.len());
            sill_keep(nodes, n, entries, e, slots, s, used[0], used[1], node, stack, room)
        };
        assert_eq!(answer.refusal, 0, "the port refuses: {answer:?}");
        black_box(answer);
    }

    /// Behind the first node, in room for one more.
    fn read_more(&mut self, input: &[u8]) {
        let Self { nodes, entries, slots } = self;
        let (n, e, s) = (nodes.len(), entries.len(), slots.len());
        let (nodes, entries, slots) = (nodes.as_mut_ptr(), entries.as_mut_ptr(), slots.as_mut_ptr());
        // SAFETY: input and stores are lent for their lengths.
        let answer =
            unsafe { sill_read_more(input.as_ptr(), input.len(), nodes, n, entries, e, slots, s, NESTING, 1, 0, 1) };
        assert_eq!(answer.refusal, 0, "the port refuses: {answer:?}");
        black_box(answer);
    }

    fn used(&self) -> [u32; 2] {
        [self.nodes.len() / NODE, self.entries.len() / 2].map(|used| used as u32)
    }

    /// The root's last child, where it has children itself.
    fn last_container(&self) -> Option<u32> {
        let last = (1..self.nodes.len() / NODE).rev().find(|node| self.nodes[NODE * node + 4] > 0)?;
        (self.nodes[4] == 2).then_some(last as u32)
    }
}

fn compare(title: &str, inputs: &[Vec<u8>]) {
    let bytes: usize = inputs.iter().map(Vec::len).sum();
    let read: Vec<Stores> = inputs.iter().map(|input| Stores::just_enough(input)).collect();
    let nodes: usize = read.iter().map(|stores| stores.nodes.len() / NODE).sum();
    let mut again: Vec<Stores> = read.iter().map(Stores::copied).collect();
    let mut behind: Vec<Stores> = read.iter().map(Stores::with_one_more).collect();
    let most = read.iter().map(|stores| sill_keep_need(stores.used()[0], stores.used()[1])).max().unwrap_or(0);
    let stack = RefCell::new(vec![0; most as usize]);
    let (whole, part) = (RefCell::new(Vec::new()), RefCell::new(Vec::new()));
    let copy = |to: &RefCell<Vec<Stores>>| *to.borrow_mut() = read.iter().map(Stores::copied).collect();
    let move_all = |to: &RefCell<Vec<Stores>>, node: fn(&Stores) -> u32| {
        for (stores, was) in to.borrow_mut().iter_mut().zip(&read) {
            let need = sill_keep_need(was.used()[0], was.used()[1]) as usize;
            stores.keep(node(was), was.used(), &mut stack.borrow_mut()[..need]);
        }
    };
    let reading = || inputs.iter().zip(&mut again).for_each(|(input, stores)| stores.read_again(black_box(input)));
    let more = || inputs.iter().zip(&mut behind).for_each(|(input, stores)| stores.read_more(black_box(input)));
    let mut ways = vec![
        Way { name: "reading", work: timed(reading) },
        Way { name: "the move of all", work: timed_after(|| copy(&whole), || move_all(&whole, |_| 0)) },
        Way { name: "read behind a node", work: timed(more) },
    ];
    if read.iter().all(|stores| stores.last_container().is_some()) {
        let of_part = || move_all(&part, |stores| stores.last_container().unwrap_or(0));
        ways.push(Way { name: "the move of a part", work: timed_after(|| copy(&part), of_part) });
    }
    side_by_side(&format!("{title}: {bytes} bytes, {nodes} nodes"), (nodes, "a node"), ways);
}
