//! A value read behind kept ones (document 02, K11), held to the plain reading of its input alone: the same answer in the room that is left,
//! each number raised by those kept. What is kept is whatever stood there, and it stays; a refusal leaves zeros behind it.
use crate::keep::of_stores;
use crate::lent::{Lent, Part};
use crate::plain::{End, Plain, Refused};
use crate::random::Random;
use crate::reading::{NODE_WIDTH, STORES};
use crate::shares;
use crate::subject::{Subject, held};
use crate::text::{hex, numbers, of_hex, of_numbers};
use crate::values::random_inputs;
use sillgarland_sys::refusals::{self, MOST_BYTES, MOST_NESTING, MOST_RECORDS, NOTHING};
use sillgarland_sys::{Read, sill_read, sill_read_more};

#[derive(Clone, Debug)]
pub struct Ask {
    pub input: Vec<u8>,
    /// The nodes and the entries that are lent.
    pub stores: [Vec<u32>; 2],
    pub slots: usize,
    pub nesting: u32,
    pub kept: [u32; 2],
    pub number: u32,
}

/// The answer, and the three stores after it.
#[derive(Clone, Debug)]
pub struct Answer {
    pub read: Read,
    pub stores: [Vec<u32>; 3],
}

pub struct Mores;

impl Subject for Mores {
    const NAME: &'static str = "more";
    type Ask = Ask;
    type Answer = Answer;

    fn class(ask: &Ask, answer: &Answer) -> &'static str {
        match answer.read.refusal {
            refusals::ACCEPTED if ask.kept == [0, 0] => "read behind nothing",
            refusals::ACCEPTED => "read behind what is kept",
            refusals::INPUT_TOO_LONG => "refused: the input is too long",
            refusals::NO_NODE | refusals::NO_ENTRY if above(ask) => "refused: more is kept than fits",
            refusals::TOO_DEEP | refusals::NO_NODE | refusals::NO_ENTRY | refusals::NO_SLOT => "refused: no room",
            _ => "refused by the plain reading",
        }
    }

    fn check(ask: &Ask, answer: &Answer) -> Result<(), String> {
        let (read, stores) = read_more(ask);
        if read != answer.read {
            return Err(format!("{read:?} and not {:?}", answer.read));
        }
        let after = stores.iter().zip(STORES).zip(&answer.stores);
        after.into_iter().try_for_each(|((store, name), after)| store.holds(name, after))?;
        if (ask.kept, ask.number) == ([0, 0], 0) { as_a_reading(ask, answer) } else { Ok(()) }
    }

    fn row(ask: &Ask, answer: &Answer) -> String {
        let Ask { input, stores: [nodes, entries], slots, nesting, kept, number } = ask;
        let Read { refusal, place, consumed, nodes: n, entries: e, slots: s } = answer.read;
        let before = format!("{} {} {} {slots} {nesting}", hex(input), numbers(nodes), numbers(entries));
        let after = answer.stores.each_ref().map(|store| numbers(store)).join(" ");
        format!("more {before} {} {number} {refusal}:{place}:{consumed}:{n}:{e}:{s} {after}", numbers(kept))
    }

    fn of_row(row: &str) -> Option<(Ask, Answer)> {
        let ["more", input, nodes, entries, slots, nesting, kept, number, told, ref after @ ..] =
            row.split(' ').collect::<Vec<_>>()[..]
        else {
            return None;
        };
        let ask = Ask {
            input: of_hex(input)?,
            stores: [of_numbers(nodes)?, of_numbers(entries)?],
            slots: slots.parse().ok()?,
            nesting: nesting.parse().ok()?,
            kept: of_numbers(kept)?.try_into().ok()?,
            number: number.parse().ok()?,
        };
        let told: Option<Vec<u32>> = told.split(':').map(|word| word.parse().ok()).collect();
        let [refusal, place, consumed, nodes, entries, slots] = told?.try_into().ok()?;
        let read = Read { refusal, place, consumed, nodes, entries, slots };
        Some((ask, Answer { read, stores: of_stores(after)? }))
    }
}

/// What the port answers and leaves.
pub fn read_more(ask: &Ask) -> (Read, [Lent<u32>; 3]) {
    let part = Part::new(&ask.input);
    let mut stores = [Lent::of(&ask.stores[0]), Lent::of(&ask.stores[1]), Lent::new(ask.slots)];
    let lens = stores.each_ref().map(Lent::len);
    let [nodes, entries, slots] = stores.each_mut().map(|store| store.pointer());
    let ([n, e], input) = (ask.kept, part.bytes());
    // SAFETY: input and stores are lent for the lengths given.
    let read = unsafe {
        let (input, len) = (input.as_ptr(), input.len());
        let (nesting, number) = (ask.nesting, ask.number);
        sill_read_more(input, len, nodes, lens[0], entries, lens[1], slots, lens[2], nesting, n, e, number)
    };
    (read, stores)
}

/// Behind nothing, with number 0, it is `sill_read`.
fn as_a_reading(ask: &Ask, answer: &Answer) -> Result<(), String> {
    let part = Part::new(&ask.input);
    let lens = [ask.stores[0].len(), ask.stores[1].len(), ask.slots];
    let mut stores = lens.map(Lent::<u32>::new);
    let [nodes, entries, slots] = stores.each_mut().map(|store| store.pointer());
    let input = part.bytes();
    // SAFETY: input and stores are lent for the lengths given.
    let read = unsafe {
        let (input, len) = (input.as_ptr(), input.len());
        sill_read(input, len, nodes, lens[0], entries, lens[1], slots, lens[2], ask.nesting)
    };
    if read != answer.read {
        return Err(format!("a reading alone: {read:?} and not {:?}", answer.read));
    }
    stores.iter().zip(STORES).zip(&answer.stores).try_for_each(|((store, name), after)| store.holds(name, after))
}

/// How many records of each store count.
fn capacities(ask: &Ask) -> [u32; 2] {
    let [nodes, entries] = &ask.stores;
    [nodes.len() / NODE_WIDTH, entries.len() / 2].map(|records| records.min(MOST_RECORDS as usize) as u32)
}

fn above(ask: &Ask) -> bool {
    let capacities = capacities(ask);
    (0..2).any(|i| ask.kept[i] > capacities[i])
}

pub fn by_the_model(ask: &Ask) -> Answer {
    let (capacities, [n, e]) = (capacities(ask), ask.kept);
    if ask.input.len() > MOST_BYTES as usize {
        return refused(ask, refusals::INPUT_TOO_LONG, 0);
    }
    if n > capacities[0] {
        return refused(ask, refusals::NO_NODE, 0);
    }
    if e > capacities[1] {
        return refused(ask, refusals::NO_ENTRY, 0);
    }
    let plain = Plain::of(&ask.input);
    let slots = ask.slots.min(MOST_RECORDS as usize) as u32;
    if let Some(Refused { number, place }) = plain.with([ask.nesting, capacities[0] - n, capacities[1] - e, slots]) {
        return refused(ask, number, place);
    }
    let End::Read { consumed } = plain.end else {
        unreachable!("more is claimed than any room has, and no room is short")
    };
    let raised = |number: u32, none: u32, by: u32| if number == none { none } else { number + by };
    let [nodes, entries, filled] = &plain.stores;
    let nodes = nodes.chunks(NODE_WIDTH).flat_map(|node| {
        let [letter, place, size, first, count, end, _] = *node else { unreachable!("a node is seven numbers") };
        [letter, place, size, raised(first, NOTHING, e), count, end, ask.number]
    });
    let entries = entries.chunks(2).flat_map(|entry| [entry[0] + n, raised(entry[1], NOTHING, e)]);
    let filled = filled.iter().map(|slot| raised(*slot, 0, n));
    let mut stores = after_kept(ask);
    let [node_cells, entry_cells] = [NODE_WIDTH * n as usize, 2 * e as usize];
    put(&mut stores[0][node_cells..], nodes);
    put(&mut stores[1][entry_cells..], entries);
    put(&mut stores[2], filled);
    let [own_nodes, own_entries, slots] = [0, 1, 2].map(|i| (plain.stores[i].len() / crate::reading::WIDTHS[i]) as u32);
    let consumed = consumed as u32;
    let read = Read { refusal: 0, place: 0, consumed, nodes: n + own_nodes, entries: e + own_entries, slots };
    Answer { read, stores }
}

fn put(store: &mut [u32], cells: impl Iterator<Item = u32>) {
    store.iter_mut().zip(cells).for_each(|(cell, number)| *cell = number);
}

/// What is kept, as it was, and zeros behind it.
fn after_kept(ask: &Ask) -> [Vec<u32>; 3] {
    let kept = |store: &[u32], cells: usize| {
        let mut after = store.to_vec();
        after.iter_mut().skip(cells).for_each(|cell| *cell = 0);
        after
    };
    let [nodes, entries] = ask.kept.map(|kept| kept as usize);
    [kept(&ask.stores[0], NODE_WIDTH * nodes), kept(&ask.stores[1], 2 * entries), vec![0; ask.slots]]
}

fn refused(ask: &Ask, refusal: u32, place: usize) -> Answer {
    let read = Read { refusal, place: place as u32, consumed: 0, nodes: 0, entries: 0, slots: 0 };
    Answer { read, stores: after_kept(ask) }
}

/// About as much room as the value needs behind what is kept, and more or less of each.
pub fn random_asks(seed: u64, count: usize) -> impl Iterator<Item = Ask> {
    let mut random = Random::new(seed);
    let mut inputs = random_inputs(seed + 1, usize::MAX);
    (0..count).map(move |_| {
        let read = inputs.next().expect("there is no end of them");
        let plain = Plain::of(&read.input);
        let [nesting, nodes, entries, slots] = plain.counts();
        let kept = [5, 9].map(|most| if random.below(6) == 0 { 0 } else { random.below(most) as u32 });
        let mut about =
            |need: u32| (need + random.one_of(&[0, 0, 0, 1, 3])).saturating_sub(random.one_of(&[0, 0, 0, 0, 0, 1]));
        let [n, e] = [about(nodes) + kept[0], about(entries) + kept[1]].map(|records| records as usize);
        let (slots, nesting) = (about(slots) as usize, about(nesting));
        let mut cells = |count: usize| (0..count).map(|_| random.of_any_width()).collect::<Vec<u32>>();
        let stores = [cells(NODE_WIDTH * n + n % NODE_WIDTH), cells(2 * e + e % 2)];
        let far = random.one_of(&[0, 0, 0, 0, 0, 0, 0, 0, 1, 2, u32::MAX]);
        let kept = if random.below(2) == 0 {
            [kept[0].wrapping_add(far), kept[1]]
        } else {
            [kept[0], kept[1].wrapping_add(far)]
        };
        Ask { input: read.input, stores, slots, nesting, kept, number: random.of_any_width() }
    })
}

/// Two faults at a time, of which the first in document 02's order is told; and the most that counts.
fn extremes() -> Vec<Ask> {
    let of = |input: &[u8], cells: [usize; 2], kept: [u32; 2]| Ask {
        input: input.to_vec(),
        stores: cells.map(|cells| vec![9; cells]),
        slots: 1,
        nesting: MOST_NESTING,
        kept,
        number: 1,
    };
    let most = MOST_RECORDS as usize;
    let long = vec![b'N'; MOST_BYTES as usize + 1];
    let full = [NODE_WIDTH * (most + 2), 2 * (most + 2)];
    vec![
        of(&long, [0, 0], [1, 1]),
        of(b"", [6, 1], [1, 1]),
        of(b"", [7, 1], [1, 1]),
        of(b"", [7, 2], [1, 1]),
        of(b"0", [7, 2], [1, 1]),
        of(b"N", [7, 2], [1, 1]),
        of(b"N", full, [MOST_RECORDS - 1, MOST_RECORDS]),
        of(b"N", full, [MOST_RECORDS, MOST_RECORDS]),
        of(b"N", full, [MOST_RECORDS + 1, MOST_RECORDS + 1]),
        of(b")\x01N", full, [MOST_RECORDS - 2, MOST_RECORDS - 1]),
        of(b")\x01N", full, [MOST_RECORDS - 2, MOST_RECORDS]),
        of(b")\x01N", full, [0, MOST_RECORDS + 1]),
    ]
}

fn hold_asks<I: Iterator<Item = Ask>>(asks: impl Fn() -> I + Sync) -> bool {
    let tally = shares::tallied("more", |share, tally| {
        for ask in share.cases(asks()) {
            let answer = by_the_model(&ask);
            tally.count(Mores::class(&ask, &answer), held::<Mores>(&ask, &answer));
            if !tally.none_failed() {
                share.stop();
            }
        }
    });
    tally.finish()
}

pub fn hold(seed: u64, random: usize) -> bool {
    hold_asks(|| extremes().into_iter().chain(random_asks(seed, random)))
}

/// Of one round of the long form.
#[cfg(carried)]
pub fn hold_round(seed: u64, random: usize) -> bool {
    hold_asks(|| random_asks(seed, random))
}
