//! The questions of a move: every store of two nodes and two entries, rings and chains that share entries, stacks about their need, stores of
//! readings one behind another, damaged or not, and stores of random numbers.
use super::{Ask, need};
use crate::hostile;
use crate::more;
use crate::random::Random;
use crate::reading::NODE_WIDTH;
use crate::values::random_inputs;
use sillgarland_sys::refusals::{MOST_RECORDS, NOTHING};

/// A record of which a move looks at the first entry and the count alone.
fn node(first: u32, count: u32) -> [u32; NODE_WIDTH] {
    [u32::from(b'('), 1, 4, first, count, 5, 3]
}

fn ask(nodes: &[[u32; NODE_WIDTH]], entries: &[[u32; 2]], node: u32) -> Ask {
    let used = [nodes.len() as u32, entries.len() as u32];
    Ask { stores: [nodes.concat(), entries.concat(), vec![1]], used, node, stack: need(used) }
}

/// Every store of two nodes and two entries with numbers of up to two, and one of three and three in many.
pub fn few_records() -> impl Iterator<Item = Ask> {
    let digits = |mut number: usize, base: u32, count: usize| -> Vec<u32> {
        let digit = |_| {
            let digit = number % base as usize;
            number /= base as usize;
            digit as u32
        };
        (0..count).map(digit).collect()
    };
    let of = move |number: usize, base: u32, records: usize| {
        let all = digits(number, base, 4 * records + 1);
        let pairs = |from: usize| (0..records).map(|i| [all[from + 2 * i], all[from + 2 * i + 1]]).collect::<Vec<_>>();
        let nodes: Vec<[u32; NODE_WIDTH]> = pairs(0).into_iter().map(|[first, count]| node(first, count)).collect();
        ask(&nodes, &pairs(2 * records), all[4 * records])
    };
    let two = (0..3usize.pow(9)).map(move |number| of(number, 3, 2));
    let three = (0..4usize.pow(13)).step_by(677).map(move |number| of(number, 4, 3));
    two.chain(three)
}

/// A node that is its own child, nodes that are each other's, a chain that comes back, one that runs into another's, an entry that two
/// chains begin with, a child beyond the nodes before and behind a bad chain, and links past the count.
pub fn rings() -> Vec<Ask> {
    let (none, leaf) = (NOTHING, node(NOTHING, 0));
    vec![
        ask(&[node(0, 1)], &[[0, none]], 0),
        ask(&[node(0, 1), node(1, 1)], &[[1, none], [0, none]], 1),
        ask(&[node(0, 2), leaf], &[[1, 0]], 0),
        ask(&[node(0, 3), leaf], &[[1, 1], [1, 0]], 0),
        ask(&[node(0, 2), node(1, 1)], &[[1, 1], [1, none]], 0),
        ask(&[node(0, 1), node(0, 1)], &[[1, none]], 0),
        ask(&[node(0, 2), node(2, 1), leaf], &[[1, 1], [2, none], [2, none]], 0),
        ask(&[node(0, 2), node(7, 1)], &[[9, 1], [1, none]], 0),
        ask(&[node(0, 2), node(7, 1)], &[[1, 1], [9, none]], 0),
        ask(&[node(0, 1), leaf], &[[1, 0]], 0),
        ask(&[node(5, 0)], &[], 0),
        ask(&[node(0, NOTHING)], &[[0, 0]], 0),
        ask(&[leaf], &[], NOTHING),
        ask(&[], &[], 0),
    ]
}

/// Counts used that no store holds, of which the need is a definition all the same.
pub fn stacks() -> impl Iterator<Item = Ask> {
    const USED: [u32; 6] = [0, 1, 2, MOST_RECORDS - 1, MOST_RECORDS, u32::MAX];
    let pairs = USED.into_iter().flat_map(|nodes| USED.into_iter().map(move |entries| [nodes, entries]));
    pairs.flat_map(|used| {
        let all = need(used);
        [all, all + 1, all.saturating_sub(1), 0].into_iter().map(move |stack| Ask {
            used,
            stack,
            ..ask(&[node(0, 1), node(NOTHING, 0)], &[[1, NOTHING]], 0)
        })
    })
}

/// The most that counts: nodes each in the one before, one deeper than counts, and as many as count in one.
pub fn long() -> Vec<Ask> {
    let line = |many: u32| {
        let nodes: Vec<[u32; NODE_WIDTH]> = (0..many).map(|at| node(at, u32::from(at + 1 < many))).collect();
        let entries: Vec<[u32; 2]> = (1..many).map(|child| [child, 0]).collect();
        ask(&nodes, &entries, 0)
    };
    let mut nodes = vec![node(NOTHING, 0); MOST_RECORDS as usize];
    nodes[7] = node(0, MOST_RECORDS);
    let entries: Vec<[u32; 2]> = (1..=MOST_RECORDS).map(|next| [next % 1_000 + 1, next]).collect();
    vec![line(MOST_RECORDS), line(MOST_RECORDS + 1), ask(&nodes, &entries, 7)]
}

/// Some values one behind another, as a session has them.
fn of_readings(random: &mut Random, inputs: &mut impl Iterator<Item = crate::read::Ask>) -> Ask {
    let (mut stores, mut used) = ([Vec::new(), Vec::new(), Vec::new()], [0, 0]);
    for number in 0..2 + random.below(8) as u32 {
        let Some(read) = inputs.next() else { break };
        let [nodes, entries, slots] = stores;
        let (n, e) = (nodes.len() + NODE_WIDTH * read.input.len(), entries.len() + 2 * read.input.len());
        let widened = |mut store: Vec<u32>, len: usize| {
            store.resize(len, 7);
            store
        };
        let asked = more::Ask {
            slots: slots.len().max(read.input.len()),
            stores: [widened(nodes, n), widened(entries, e)],
            kept: used,
            number,
            nesting: read.nesting,
            input: read.input,
        };
        let answer = more::by_the_model(&asked);
        stores = answer.stores;
        if answer.read.refusal == 0 {
            used = [answer.read.nodes, answer.read.entries];
        }
        stores[0].truncate(NODE_WIDTH * used[0] as usize);
        stores[1].truncate(2 * used[1] as usize);
    }
    let beyond = usize::from(used[0] == 0 || random.below(20) == 0);
    let node = random.below(used[0] as usize + beyond) as u32;
    Ask { stores, used, node, stack: need(used) }
}

/// Random numbers alone: small ones mostly.
fn of_numbers(random: &mut Random) -> Ask {
    let [nodes, entries] = [6, 8].map(|most| random.below(most + 1));
    let any = |random: &mut Random, most: usize| {
        if random.below(40) == 0 { random.of_any_width() } else { random.below(most + 1) as u32 }
    };
    let records: Vec<[u32; NODE_WIDTH]> = (0..nodes)
        .map(|_| {
            let mut record = [0; NODE_WIDTH].map(|_| random.of_any_width());
            record[3] = any(random, entries);
            record[4] = any(random, 3);
            record
        })
        .collect();
    let links: Vec<[u32; 2]> = (0..entries).map(|_| [any(random, nodes), any(random, entries)]).collect();
    let root = any(random, nodes);
    ask(&records, &links, root)
}

/// Counts, lengths and remainders changed, and stacks about their need.
fn changed(random: &mut Random, mut ask: Ask) -> Ask {
    match random.below(24) {
        0 => ask.used[0] = ask.used[0].wrapping_add(random.one_of(&[1, 2, u32::MAX, u32::MAX - 1])),
        1 => ask.used[1] = ask.used[1].wrapping_add(random.one_of(&[1, 2, u32::MAX, u32::MAX - 1])),
        2 => ask.stores[0].extend([7; NODE_WIDTH][..random.below(NODE_WIDTH + 1)].iter()),
        3 => ask.stores[1].extend([7; 5][..random.below(6)].iter()),
        4 => ask.stores[0].truncate(random.below(ask.stores[0].len() + 1)),
        5 => ask.stores[1].truncate(random.below(ask.stores[1].len() + 1)),
        _ => {}
    }
    // Counts far beyond the stores would want a long stack, which those of `stacks` have.
    ask.used = ask.used.map(|used| if used > 5_000 { 5_000 } else { used });
    ask.stores[2].resize(random.below(4), random.of_any_width());
    let need = need(ask.used);
    let less = random.below(need + 1);
    ask.stack = need + random.one_of(&[0, 0, 0, 1, 7]);
    if random.below(12) == 0 {
        ask.stack = random.one_of(&[need.saturating_sub(1), less]);
    }
    ask
}

pub fn random_asks(seed: u64, count: usize) -> impl Iterator<Item = Ask> {
    let mut random = Random::new(seed);
    let mut inputs = random_inputs(seed + 1, usize::MAX);
    let damaged: Vec<Ask> = hostile::cases(&mut Random::new(seed + 2), seed + 3, count / 3)
        .map(|case| Ask { stores: [case.nodes, case.entries, vec![]], used: case.used, node: case.root, stack: 0 })
        .collect();
    let mut damaged = damaged.into_iter();
    (0..count).map(move |turn| {
        let asked = match turn % 3 {
            0 => of_readings(&mut random, &mut inputs),
            1 => of_numbers(&mut random),
            _ => damaged.next().unwrap_or_else(|| of_numbers(&mut random)),
        };
        changed(&mut random, asked)
    })
}
