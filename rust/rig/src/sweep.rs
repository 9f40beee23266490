//! Demand 3 by running: each input at just enough room, at every room one short and one over each of the four counts, at
//! random rooms, and all of it again with bytes appended. What must come of it is told by the plain reading (plain.rs), so
//! this needs no Rust.
use crate::lent::Part;
use crate::plain::{COUNTS, End, Plain, REFUSALS, Refused, Rooms};
use crate::random::Random;
use crate::reading::{Reading, STORES, WIDTHS, read};
use crate::shares;
use crate::shrink::smallest;
use crate::text::hex;
use sillgarland_sys::{Read, refusals};

const NAMES: [&str; COUNTS] = ["levels", "nodes", "entries", "slots"];

/// Where a room stands to the four counts of a reading; what must come of it is said by `class`.
#[derive(Clone, Copy)]
enum Room {
    Exact,
    OneOver(usize),
    OneShort(usize),
    Any,
}

impl Room {
    fn class(self) -> &'static str {
        match self {
            Room::Exact => "just enough room: the plain answer",
            Room::OneOver(_) => "one over a count: the plain answer",
            Room::OneShort(0) => "one level short: refused 10, at the place of the plain reading's deepest level",
            Room::OneShort(1) => "one node short: refused 11, at the header that asks for one more",
            Room::OneShort(2) => "one entry short: refused 12, at the child that asks for one more",
            Room::OneShort(_) => "one slot short: refused 13, at the header that asks for one more",
            Room::Any => "any room: the first room refusal in reading order, else the plain answer",
        }
    }

    fn of(self, counts: Rooms, random: &mut Random) -> Rooms {
        let mut rooms = counts;
        match self {
            Room::Exact => {}
            Room::OneOver(count) => rooms[count] += 1,
            Room::OneShort(count) => rooms[count] -= 1,
            Room::Any => rooms = counts.map(|count| random.below(count as usize + 2) as u32),
        }
        rooms
    }
}

/// Sweeps every input, shared out over the processors, up to the first difference.
pub fn hold<I: Iterator<Item = Vec<u8>>>(seed: u64, inputs: impl Fn() -> I + Sync) -> bool {
    let tally = shares::tallied("rooms", |share, tally| {
        let mut random = Random::new(seed);
        for input in share.cases(inputs()) {
            let seed = random.word();
            let first = tally.none_failed();
            sweep(&input, seed, &mut |class, held| {
                let smallest_of = |difference| smallest(&input, difference, |less| differs(less, seed));
                tally.count(class, if first { held.map_err(smallest_of) } else { held });
            });
            if !tally.none_failed() {
                share.stop();
            }
        }
    });
    tally.finish()
}

/// The first difference that a sweep of the input shows.
fn differs(input: &[u8], seed: u64) -> Result<(), String> {
    let mut first = Ok(());
    sweep(input, seed, &mut |_, held| {
        if first.is_ok() {
            first = held;
        }
    });
    first
}

fn sweep(input: &[u8], seed: u64, count: &mut dyn FnMut(&'static str, Result<(), String>)) {
    let mut random = Random::new(seed);
    let tail: Vec<u8> = (0..1 + random.below(8)).map(|_| random.byte()).collect();
    let longer = [input, &tail].concat();
    let (plain, plain_longer) = (Plain::of(input), Plain::of(&longer));
    let (part, part_longer) = (Part::new(input), Part::new(&longer));
    let counts = plain.counts();
    let each = (0..COUNTS).map(Room::OneOver).chain((0..COUNTS).filter(|i| counts[*i] > 0).map(Room::OneShort));
    for room in [Room::Exact, Room::Any, Room::Any].into_iter().chain(each) {
        let rooms = room.of(counts, &mut random);
        let extra = [random.below(WIDTHS[0]), random.below(WIDTHS[1]), 0];
        let shown = |difference: String, bytes: &[u8]| format!("{} with {NAMES:?} {rooms:?}: {difference}", hex(bytes));
        let reading = in_rooms(&part, rooms, extra);
        let held = as_it_must(&plain, room, rooms).and_then(|()| hold_reading(&reading, &plain, rooms));
        count(room.class(), held.map_err(|difference| shown(difference, input)));
        let again = in_rooms(&part_longer, rooms, extra);
        let (class, held) = if matches!(reading.answer.refusal, refusals::EOF_OBJECT | refusals::DATA_TOO_SHORT) {
            ("bytes appended to refusal 1 or 2: as the plain reading of all says", Ok(()))
        } else {
            ("bytes appended to any other answer: the same answer and contents", same(&again, &reading))
        };
        let held = held.and_then(|()| hold_reading(&again, &plain_longer, rooms));
        count(class, held.map_err(|difference| shown(difference, &longer)));
    }
}

fn in_rooms(part: &Part, rooms: Rooms, extra: [usize; 3]) -> Reading {
    let lens = [0, 1, 2].map(|i| rooms[i + 1] as usize * WIDTHS[i] + extra[i]);
    read(part, rooms[0], lens)
}

/// What demand 3 says of the plain reading itself: enough room gives its own answer, one short that count's refusal.
fn as_it_must(plain: &Plain, room: Room, rooms: Rooms) -> Result<(), String> {
    let told = plain.with(rooms);
    let held = match (room, &plain.end) {
        (Room::Any, _) | (_, End::Beyond) => true,
        (Room::OneShort(count), _) => told.is_some_and(|refused| refused.number == REFUSALS[count]),
        (_, End::Read { .. }) => told.is_none(),
        (_, End::Refused(refused)) => told == Some(*refused),
    };
    if held { Ok(()) } else { Err(format!("the plain reading says {told:?}")) }
}

/// The answer and every cell of the three stores are what the plain reading says for these rooms.
fn hold_reading(reading: &Reading, plain: &Plain, rooms: Rooms) -> Result<(), String> {
    let none = Vec::new();
    let (answer, stores) = match (plain.with(rooms), &plain.end) {
        (Some(refused), _) => (answer_of(refused), [&none; 3]),
        (None, End::Read { consumed }) => {
            let [nodes, entries, slots] = [0, 1, 2].map(|i| (plain.stores[i].len() / WIDTHS[i]) as u32);
            let consumed = *consumed as u32;
            (Read { refusal: refusals::ACCEPTED, place: 0, consumed, nodes, entries, slots }, plain.stores.each_ref())
        }
        (None, _) => return Err("the plain reading tells no answer".to_string()),
    };
    if reading.answer != answer {
        return Err(format!("{:?} and not {answer:?}", reading.answer));
    }
    (0..3).try_for_each(|i| reading.stores[i].holds(STORES[i], stores[i]))
}

fn answer_of(refused: Refused) -> Read {
    let Refused { number, place } = refused;
    Read { refusal: number, place: place as u32, consumed: 0, nodes: 0, entries: 0, slots: 0 }
}

fn same(again: &Reading, before: &Reading) -> Result<(), String> {
    if again.answer != before.answer {
        return Err(format!("{:?} and not {:?} as without the last bytes", again.answer, before.answer));
    }
    (0..3).try_for_each(|i| again.stores[i].holds(STORES[i], before.stores[i].cells()))
}
