//! The move of a node and all that it reaches to the front of the stores (document 02, K11), held to a model of its own over stores of
//! readings, over appended ones, and over stores that no reading made. A refused move leaves everything as it was; a second move of what
//! was moved changes nothing.
mod model;
mod questions;

pub use model::{by_the_model, need};
pub use questions::random_asks;

use crate::lent::Lent;
use crate::shares;
use crate::subject::{Subject, held};
use crate::text::{numbers, of_numbers};
use questions::{few_records, long, rings, stacks};
use sillgarland_sys::{Kept, refusals, sill_keep, sill_keep_need};

#[derive(Clone, Debug)]
pub struct Ask {
    /// Nodes, entries and slots.
    pub stores: [Vec<u32>; 3],
    pub used: [u32; 2],
    pub node: u32,
    /// How many numbers the stack is lent.
    pub stack: usize,
}

/// The answer, and the stores after it.
#[derive(Clone, Debug)]
pub struct Answer {
    pub kept: Kept,
    pub stores: [Vec<u32>; 3],
}

pub struct Keeps;

impl Subject for Keeps {
    const NAME: &'static str = "keep";
    type Ask = Ask;
    type Answer = Answer;

    fn class(ask: &Ask, answer: &Answer) -> &'static str {
        match answer.kept {
            Kept { refusal: refusals::NO_ROOM, .. } => "refused: the stack is short",
            Kept { refusal: refusals::ACCEPTED, nodes, .. } if nodes == ask.used[0] => "all is kept",
            Kept { refusal: refusals::ACCEPTED, nodes: 1, .. } => "one node is kept",
            Kept { refusal: refusals::ACCEPTED, .. } => "a part is kept",
            Kept { place, .. } if place == ask.node => "refused: at the node itself",
            Kept { place, .. } if place < ask.used[0] => "refused: a bad chain",
            _ => "refused: a child's number",
        }
    }

    fn check(ask: &Ask, answer: &Answer) -> Result<(), String> {
        let need = need(ask.used);
        // SAFETY: it takes numbers alone.
        if sill_keep_need(ask.used[0], ask.used[1]) != need as u64 {
            return Err(format!("a stack of {} is needed", sill_keep_need(ask.used[0], ask.used[1])));
        }
        check_move(ask, answer)?;
        if ask.stack >= need && need > 0 {
            check_move(&Ask { stack: need - 1, ..ask.clone() }, &refused(ask, refusals::NO_ROOM, need as u32 - 1))?;
            check_move(&Ask { stack: need, ..ask.clone() }, answer)?;
        }
        if answer.kept.refusal != refusals::ACCEPTED {
            return Ok(());
        }
        let used = [answer.kept.nodes, answer.kept.entries];
        let again = Ask { stores: answer.stores.clone(), used, node: 0, stack: ask.stack };
        check_move(&again, answer).map_err(|difference| format!("moved again: {difference}"))
    }

    fn row(ask: &Ask, answer: &Answer) -> String {
        let shown = |stores: &[Vec<u32>; 3]| stores.each_ref().map(|store| numbers(store)).join(" ");
        let asked = format!("keep {} {} {} {}", shown(&ask.stores), numbers(&ask.used), ask.node, ask.stack);
        let Kept { refusal, place, nodes, entries, free_nodes, free_entries } = answer.kept;
        if refusal != refusals::ACCEPTED {
            return format!("{asked} refused {refusal} {place}");
        }
        format!("{asked} {nodes}:{entries}:{free_nodes}:{free_entries} {}", shown(&answer.stores))
    }

    fn of_row(row: &str) -> Option<(Ask, Answer)> {
        let ["keep", nodes, entries, slots, used, node, stack, ref told @ ..] = row.split(' ').collect::<Vec<_>>()[..]
        else {
            return None;
        };
        let stores = of_stores(&[nodes, entries, slots])?;
        let ask = Ask {
            stores,
            used: of_numbers(used)?.try_into().ok()?,
            node: node.parse().ok()?,
            stack: stack.parse().ok()?,
        };
        let answer = match told {
            ["refused", number, place] => refused(&ask, number.parse().ok()?, place.parse().ok()?),
            [counts, after @ ..] => {
                let counts: Option<Vec<u32>> = counts.split(':').map(|count| count.parse().ok()).collect();
                let [nodes, entries, free_nodes, free_entries] = counts?.try_into().ok()?;
                let kept = Kept { refusal: refusals::ACCEPTED, place: 0, nodes, entries, free_nodes, free_entries };
                Answer { kept, stores: of_stores(after)? }
            }
            _ => return None,
        };
        Some((ask, answer))
    }
}

pub fn of_stores(words: &[&str]) -> Option<[Vec<u32>; 3]> {
    let stores: Option<Vec<Vec<u32>>> = words.iter().map(|word| of_numbers(word)).collect();
    stores?.try_into().ok()
}

/// Everything stays as it was.
fn refused(ask: &Ask, refusal: u32, place: u32) -> Answer {
    let kept = Kept { refusal, place, nodes: 0, entries: 0, free_nodes: 0, free_entries: 0 };
    Answer { kept, stores: ask.stores.clone() }
}

fn check_move(ask: &Ask, answer: &Answer) -> Result<(), String> {
    let mut stores = ask.stores.each_ref().map(|store| Lent::of(store));
    let mut stack = Lent::new(ask.stack);
    let lens = stores.each_ref().map(Lent::len);
    let [nodes, entries, slots] = stores.each_mut().map(|store| store.pointer());
    let [used_nodes, used_entries] = ask.used;
    // SAFETY: stores and stack are lent for the lengths given.
    let kept = unsafe {
        let (stack, room) = (stack.pointer(), ask.stack);
        sill_keep(nodes, lens[0], entries, lens[1], slots, lens[2], used_nodes, used_entries, ask.node, stack, room)
    };
    if kept != answer.kept {
        return Err(format!("{kept:?} and not {:?}", answer.kept));
    }
    stack.holds("stack", &[])?;
    let names = crate::reading::STORES;
    stores.iter().zip(names).zip(&answer.stores).try_for_each(|((store, name), after)| store.holds(name, after))
}

fn hold_asks<I: Iterator<Item = Ask>>(asks: impl Fn() -> I + Sync) -> bool {
    let tally = shares::tallied("keep", |share, tally| {
        for ask in share.cases(asks()) {
            let answer = by_the_model(&ask);
            tally.count(Keeps::class(&ask, &answer), held::<Keeps>(&ask, &answer));
            if !tally.none_failed() {
                share.stop();
            }
        }
    });
    tally.finish()
}

pub fn hold(seed: u64, random: usize) -> bool {
    hold_asks(|| {
        rings().into_iter().chain(long()).chain(stacks()).chain(few_records()).chain(random_asks(seed, random))
    })
}

/// Of one round of the long form.
#[cfg(carried)]
pub fn hold_round(seed: u64, random: usize) -> bool {
    hold_asks(|| random_asks(seed, random))
}
