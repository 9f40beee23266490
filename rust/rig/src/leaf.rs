//! The leaf question on stores that no reading made: records with a letter, place, size or count changed, and counts that
//! do not fit the store. The Rust has no such question, so the answer is told here, from document 01's list of what a
//! record must be.
use crate::lent::{Lent, Part};
use crate::random::Random;
use crate::read::Ask;
use crate::reading::{NODE_WIDTH, ample, read};
use crate::record::kind_of;
use crate::stores::leaf;
use crate::tally::Tally;
use crate::text::{hex, numbers};
use sillgarland_sys::{Leaf, Located, refusals, sill_locate_node};

/// A store to ask about, and how many of its nodes are said to be used.
struct Store<'a> {
    input: &'a [u8],
    nodes: Vec<u32>,
    used: u32,
}

pub fn hold(seed: u64, asks: impl Iterator<Item = Ask>) -> bool {
    let mut tally = Tally::new("leaf");
    ask(&mut tally, |class| class, seed, asks);
    tally.finish()
}

/// Every case is counted as `counted` says of its class.
pub fn ask(tally: &mut Tally, counted: fn(&'static str) -> &'static str, seed: u64, asks: impl Iterator<Item = Ask>) {
    let mut random = Random::new(seed);
    for ask in asks {
        let part = Part::new(&ask.input);
        let reading = read(&part, ask.nesting, ample(&ask.input));
        if reading.answer.refusal != refusals::ACCEPTED {
            continue;
        }
        let used = reading.answer.nodes;
        let nodes = reading.stores[0].cells()[..NODE_WIDTH * used as usize].to_vec();
        let mut store = Store { input: part.bytes(), nodes, used };
        for _ in 0..random.below(4) {
            damage(&mut random, &mut store);
        }
        for node in 0..used.min(20) + 2 {
            let (class, held) = hold_node(&part, &store, node);
            tally.count(counted(class), held);
        }
    }
}

fn hold_node(part: &Part, store: &Store, node: u32) -> (&'static str, Result<(), String>) {
    let expected = expected(store, node);
    let lent = Lent::of(&store.nodes);
    let answered = leaf(part, &lent, store.used, node);
    let mut held = Ok(());
    if answered != expected {
        let (input, nodes) = (hex(store.input), numbers(&store.nodes));
        held = Err(format!("leaf {input} {nodes} {} {node}: {answered:?} and not {expected:?}", store.used));
    } else if expected.refusal != refusals::ACCEPTED || store.nodes[NODE_WIDTH * node as usize] != u32::from(b's') {
        held = hold_no_table(part, &lent, store.used, node);
    }
    (if expected.refusal == refusals::ACCEPTED { "nodes answered" } else { "nodes refused 16" }, held)
}

/// What is no bytes node has no line table.
fn hold_no_table(part: &Part, store: &Lent<u32>, used: u32, node: u32) -> Result<(), String> {
    let (input, nodes, mut records) = (part.bytes(), store.cells(), Lent::new(4));
    // SAFETY: input and stores are lent for their lengths.
    let located = unsafe {
        let (nodes, len) = (nodes.as_ptr(), nodes.len());
        sill_locate_node(input.as_ptr(), input.len(), nodes, len, used, node, 1, 1, records.pointer(), records.len())
    };
    let expected = Located { refusal: refusals::BAD_TABLE, place: node, from_entries: 0, whole: 0 };
    if located != expected {
        return Err(format!("sill_locate_node {node}: {located:?}"));
    }
    records.holds("records", &[])
}

fn damage(random: &mut Random, store: &mut Store) {
    let count = store.nodes.len();
    let near = [0, 1, 2, 3, 4, 5, 10, 20, 255, 256, u32::MAX, u32::MAX - 3, store.input.len() as u32];
    let letters = b"NFTS.iIlgyutaAzZs([<>):{c0rfx\x01";
    match random.below(12) {
        0 => store.used = random.one_of(&near),
        1 => store.nodes.truncate(random.below(count + 1)),
        2 => store.nodes.push(7),
        sort => {
            let at = NODE_WIDTH * random.below(count.max(NODE_WIDTH) / NODE_WIDTH);
            let cell = if sort < 6 { 0 } else { random.below(NODE_WIDTH) };
            let Some(old) = store.nodes.get(at + cell).copied() else { return };
            store.nodes[at + cell] = match random.below(4) {
                _ if cell == 0 => u32::from(random.one_of(letters)) + 256 * u32::from(random.below(30) == 0),
                0 => old.wrapping_add(1),
                1 => old.wrapping_sub(1),
                2 => random.one_of(&near),
                _ => random.below(store.input.len() + 2) as u32,
            };
        }
    }
}

/// The answer by document 01.
fn expected(store: &Store, node: u32) -> Leaf {
    let none = Leaf { refusal: refusals::ACCEPTED, place: 0, kind: 0, pad: 0, first: 0, second: 0 };
    let within = (store.nodes.len() / NODE_WIDTH).min(store.used as usize).min(refusals::MOST_RECORDS as usize);
    let record = store.nodes.chunks(NODE_WIDTH).take(within).nth(node as usize);
    match record.and_then(|record| kind_of(store.input, record)) {
        None => Leaf { refusal: refusals::BAD_TABLE, place: node, ..none },
        Some((kind, first, second)) => Leaf { kind, first, second, ..none },
    }
}
