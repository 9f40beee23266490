//! Vectors for reading and for the leaf question: an independent model's answers, with every cell of the stores.
use crate::lent::{Lent, Part};
use crate::reading::{STORES, WIDTHS, read};
use crate::subject::Subject;
use crate::text::{hex, numbers, of_hex, of_numbers};
use sillgarland_sys::{self as sys, Leaf, Read, refusals};

pub struct ReadAsk {
    input: Vec<u8>,
    nesting: u32,
    lens: [usize; 3],
}

/// The answer, and what is written in each store: zeros follow.
pub struct ReadAnswer {
    answer: Read,
    written: [Vec<u32>; 3],
}

pub struct ReadStores;

impl Subject for ReadStores {
    const NAME: &'static str = "read";
    type Ask = ReadAsk;
    type Answer = ReadAnswer;

    fn class(_: &ReadAsk, answer: &ReadAnswer) -> &'static str {
        const CLASSES: [&str; 19] = [
            "accepted",
            "refused 1",
            "refused 2",
            "refused 3",
            "refused 4",
            "refused 5",
            "refused 6",
            "refused 7",
            "refused 8",
            "refused 9",
            "refused 10",
            "refused 11",
            "refused 12",
            "refused 13",
            "refused 14",
            "refused 15",
            "refused 16",
            "refused 17",
            "refused 18",
        ];
        CLASSES[answer.answer.refusal as usize]
    }

    fn check(ask: &ReadAsk, expected: &ReadAnswer) -> Result<(), String> {
        let reading = read(&Part::new(&ask.input), ask.nesting, ask.lens);
        if reading.answer != expected.answer {
            return Err(format!("{:?} and not {:?}", reading.answer, expected.answer));
        }
        let stores = reading.stores.iter().zip(STORES).zip(&expected.written);
        stores.into_iter().try_for_each(|((store, name), written)| store.holds(name, written))
    }

    fn row(ask: &ReadAsk, ReadAnswer { answer, written }: &ReadAnswer) -> String {
        let lens = ask.lens.map(|len| len as u32);
        let asked = format!("read {} {} {}", hex(&ask.input), ask.nesting, numbers(&lens));
        if answer.refusal != refusals::ACCEPTED {
            return format!("{asked} refused {} {}", answer.refusal, answer.place);
        }
        let [nodes, entries, slots] = written.each_ref().map(|store| numbers(store));
        format!("{asked} {} {nodes} {entries} {slots}", answer.consumed)
    }

    fn of_row(row: &str) -> Option<(ReadAsk, ReadAnswer)> {
        let ["read", input, nesting, lens, rest @ ..] = &row.split(' ').collect::<Vec<_>>()[..] else {
            return None;
        };
        let lens: Vec<usize> = of_numbers(lens)?.into_iter().map(|len| len as usize).collect();
        let ask = ReadAsk { input: of_hex(input)?, nesting: nesting.parse().ok()?, lens: lens.try_into().ok()? };
        let answer = match rest {
            ["refused", number, place] => refused(number.parse().ok()?, place.parse().ok()?),
            [consumed, stores @ ..] => {
                let written: Vec<Vec<u32>> = stores.iter().map(|store| of_numbers(store)).collect::<Option<_>>()?;
                accepted(consumed.parse().ok()?, written.try_into().ok()?)
            }
            _ => return None,
        };
        Some((ask, answer))
    }
}

fn refused(number: u32, place: u32) -> ReadAnswer {
    let answer = Read { refusal: number, place, consumed: 0, nodes: 0, entries: 0, slots: 0 };
    ReadAnswer { answer, written: Default::default() }
}

fn accepted(consumed: u32, written: [Vec<u32>; 3]) -> ReadAnswer {
    let [nodes, entries, slots] = [0, 1, 2].map(|i| (written[i].len() / WIDTHS[i]) as u32);
    let answer = Read { refusal: refusals::ACCEPTED, place: 0, consumed, nodes, entries, slots };
    ReadAnswer { answer, written }
}

pub struct LeafAsk {
    input: Vec<u8>,
    nodes: Vec<u32>,
    used: u32,
    first: u32,
}

pub struct Leaves;

/// For each node from the first asked on, its kind and values; or a refusal at the node's number.
impl Subject for Leaves {
    const NAME: &'static str = "leaf";
    type Ask = LeafAsk;
    type Answer = Vec<Leaf>;

    fn class(_: &LeafAsk, leaves: &Vec<Leaf>) -> &'static str {
        match leaves[..] {
            [leaf] if leaf.refusal != refusals::ACCEPTED => "stores with a refused node",
            [_] => "stores with one node",
            _ => "stores with several nodes",
        }
    }

    fn check(ask: &LeafAsk, leaves: &Vec<Leaf>) -> Result<(), String> {
        let (part, store) = (Part::new(&ask.input), Lent::of(&ask.nodes));
        for (node, expected) in (ask.first..).zip(leaves) {
            let answered = leaf(&part, &store, ask.used, node);
            if answered != *expected {
                return Err(format!("at node {node}: {answered:?} and not {expected:?}"));
            }
        }
        let beyond = leaf(&part, &store, ask.used, ask.used);
        if (beyond.refusal, beyond.place) != (refusals::BAD_TABLE, ask.used) {
            return Err(format!("beyond the nodes used: {beyond:?}"));
        }
        Ok(())
    }

    fn row(ask: &LeafAsk, leaves: &Vec<Leaf>) -> String {
        let shown = |leaf: &Leaf| match leaf.refusal {
            refusals::ACCEPTED => format!("{}:{}:{}", leaf.kind, leaf.first, leaf.second),
            number => format!("refused:{number}:{}", leaf.place),
        };
        let leaves: Vec<_> = leaves.iter().map(shown).collect();
        let first = if ask.first == 0 { String::new() } else { format!("{}=", ask.first) };
        format!("leaf {} {} {} {first}{}", hex(&ask.input), numbers(&ask.nodes), ask.used, leaves.join(","))
    }

    fn of_row(row: &str) -> Option<(LeafAsk, Vec<Leaf>)> {
        let ["leaf", input, nodes, used, leaves] = row.split(' ').collect::<Vec<_>>()[..] else {
            return None;
        };
        let (first, leaves) = leaves.split_once('=').unwrap_or(("0", leaves));
        let [used, first] = [used, first].map(|number| number.parse().ok());
        let ask = LeafAsk { input: of_hex(input)?, nodes: of_numbers(nodes)?, used: used?, first: first? };
        Some((ask, leaves.split(',').map(of_leaf).collect::<Option<_>>()?))
    }
}

fn of_leaf(text: &str) -> Option<Leaf> {
    let none = Leaf { refusal: 0, place: 0, kind: 0, pad: 0, first: 0, second: 0 };
    match text.split(':').collect::<Vec<_>>()[..] {
        ["refused", number, place] => Some(Leaf { refusal: number.parse().ok()?, place: place.parse().ok()?, ..none }),
        [kind, first, second] => {
            Some(Leaf { kind: kind.parse().ok()?, first: first.parse().ok()?, second: second.parse().ok()?, ..none })
        }
        _ => None,
    }
}

pub fn leaf(part: &Part, store: &Lent<u32>, used: u32, node: u32) -> Leaf {
    let (input, nodes) = (part.bytes(), store.cells());
    // SAFETY: input and store are lent for their lengths.
    unsafe { sys::sill_leaf(input.as_ptr(), input.len(), nodes.as_ptr(), nodes.len(), used, node) }
}
