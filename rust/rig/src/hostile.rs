//! Writing from stores that no reading made: records, chains, counts, roots and bytes changed at random, in outputs of any
//! size. Answer and bytes are held to the model of document 01, and what was written is read again.
use crate::lent::Part;
use crate::random::Random;
use crate::reading::{NODE_WIDTH, ample, read};
use crate::tally::Tally;
use crate::values::random_inputs;
use crate::write_model::{self as model, Refused, Store};
use crate::write_same::hold_back;
use crate::writing::{Case, Source};
use sillgarland_sys::refusals::{self, NOTHING};

pub fn hold(seed: u64, count: usize) -> bool {
    let mut tally = Tally::new("hostile stores");
    ask(&mut tally, |class| class, seed, count);
    ask_single_records(&mut tally, "one record of every letter, size and count: as the model says");
    tally.finish()
}

/// Some cases from each reading, till there are so many; each is counted as `counted` says of its class.
pub fn ask(tally: &mut Tally, counted: fn(&'static str) -> &'static str, seed: u64, count: usize) {
    let mut random = Random::new(seed);
    let mut asks = random_inputs(seed + 1, usize::MAX);
    let mut tried = 0;
    while tried < count {
        let made = if random.below(8) == 0 { Some(of_nothing(&mut random)) } else { asks.next().and_then(of_reading) };
        let Some(made) = made else { continue };
        for _ in 0..12 {
            let case = damaged(&mut random, &made);
            for (class, held) in answers(&mut random, case) {
                tally.count(counted(class), held);
                tried += 1;
            }
        }
    }
}

/// So many stores, damaged, each with a root.
pub fn cases(random: &mut Random, seed: u64, count: usize) -> impl Iterator<Item = Case> {
    let mut asks = random_inputs(seed, usize::MAX);
    let mut made = None;
    (0..count).map(move |turn| {
        while made.is_none() || turn % 12 == 0 {
            made = if random.below(8) == 0 { Some(of_nothing(random)) } else { asks.next().and_then(of_reading) };
            if made.is_some() {
                break;
            }
        }
        made.as_ref().map_or_else(|| of_nothing(&mut Random::new(seed)), |made| damaged(random, made))
    })
}

/// The stores of a reading, every record used.
fn of_reading(ask: crate::read::Ask) -> Option<Case> {
    let reading = read(&Part::new(&ask.input), ask.nesting, ample(&ask.input));
    let used = [reading.answer.nodes, reading.answer.entries];
    let [nodes, entries, _] = reading.stores.each_ref().map(|store| store.cells());
    let (nodes, entries) = (nodes[..NODE_WIDTH * used[0] as usize].to_vec(), entries[..2 * used[1] as usize].to_vec());
    let accepted = reading.answer.refusal == refusals::ACCEPTED;
    accepted.then_some(Case { input: ask.input, nodes, entries, used, root: 0, nesting: 0 })
}

pub fn ask_single_records(tally: &mut Tally, class: &'static str) {
    single_records().for_each(|case| tally.count(class, case.answer(200).1));
}

/// One node of every letter, size and count over a few contents; should it have children, they are none.
fn single_records() -> impl Iterator<Item = Case> {
    let sizes = |letter: u32| (0..=24u32).map(move |size| (letter, size));
    let records =
        (0..=256).flat_map(sizes).flat_map(|(letter, size)| (0..=11u32).map(move |count| (letter, size, count)));
    records.flat_map(|(letter, size, count)| {
        let after = |number: u32, byte: u8| [&number.to_le_bytes()[..], &[byte; 24]].concat();
        let digits = size.saturating_sub(4) / 2;
        let (counted, long, negative) = (after(count, 0), after(digits, 1), after(digits.wrapping_neg(), 0x41));
        [counted, long, negative, vec![0xC3; 28]].map(|input| Case {
            input,
            nodes: vec![letter, 0, size, 0, count, 0, 7, u32::from(b'N'), 0, 0, NOTHING, 0, 0, 0],
            entries: (1..=12).flat_map(|next| [1, if next < 12 { next } else { NOTHING }]).collect(),
            used: [2, 12],
            root: 0,
            nesting: 2000,
        })
    })
}

/// Records of letters and small numbers, links among few entries.
fn of_nothing(random: &mut Random) -> Case {
    let [nodes, entries, bytes] = [8, 12, 30].map(|most| 1 + random.below(most));
    let any = |random: &mut Random, most: usize| {
        if random.below(12) == 0 { random.of_any_width() } else { random.below(most + 2) as u32 }
    };
    let mut case = Case {
        input: (0..bytes).map(|_| if random.below(2) == 0 { 0 } else { random.byte() & 0x7F }).collect(),
        nodes: Vec::new(),
        entries: Vec::new(),
        used: [nodes as u32, entries as u32],
        root: 0,
        nesting: 0,
    };
    for _ in 0..nodes {
        let letter = random.one_of(LETTERS);
        let size = match letter {
            b'(' | b'[' | b'<' | b'>' | b'i' => 4,
            b')' => 1,
            b'I' | b'g' => 8,
            b'y' => 16,
            b's' | b'u' | b'l' | b'z' => any(random, 6),
            b'c' => 20,
            _ => 0,
        };
        let count = if b"([<>):{c".contains(&letter) { random.below(5) as u32 } else { 0 };
        let [place, end, number] = [bytes, bytes, 3].map(|most| any(random, most));
        let record = [u32::from(letter), place, size, any(random, entries), count, end, number];
        case.nodes.extend_from_slice(&record);
        with_length(&mut case.input, &record);
    }
    case.entries = (0..entries).flat_map(|_| [any(random, nodes), any(random, entries)]).collect();
    case
}

/// Mostly the length field says what the record counts.
fn with_length(input: &mut [u8], record: &[u32; NODE_WIDTH]) {
    let [_, place, size, _, count, ..] = *record;
    if let Some(field) = input.get_mut(place as usize..(place as usize).saturating_add(size as usize))
        && matches!(size, 1 | 4)
    {
        field.copy_from_slice(&count.to_le_bytes()[..size as usize]);
    }
}

const LETTERS: &[u8] = b"NFTS.iIlgyutaAzZs([<>):{c([{()";

fn damaged(random: &mut Random, made: &Case) -> Case {
    let Case { input, nodes, entries, used, .. } = made;
    let mut case = Case {
        input: input.clone(),
        nodes: nodes.clone(),
        entries: entries.clone(),
        used: *used,
        root: if random.below(4) == 0 { number(random, made, used[0] as usize) } else { 0 },
        nesting: random.one_of(&[2000, 2000, 2000, 0, 1, 2, 3, 4, 5, 6, 2001, u32::MAX]),
    };
    for _ in 0..random.one_of(&[0, 1, 1, 1, 2, 3, 8]) {
        damage(random, &mut case);
    }
    case
}

fn damage(random: &mut Random, case: &mut Case) {
    let any = |random: &mut Random, len: usize| if len == 0 { None } else { Some(random.below(len)) };
    match random.below(16) {
        0 => case.used[0] = number(random, case, case.nodes.len() / NODE_WIDTH),
        1 => case.used[1] = number(random, case, case.entries.len() / 2),
        2 => case.nodes.truncate(random.below(case.nodes.len() + 1)),
        3 => case.entries.truncate(random.below(case.entries.len() + 1)),
        4 => case.nodes.extend_from_slice(&[7, 7, 7][..random.below(4)]),
        5 if random.below(4) == 0 => case.input.truncate(random.below(case.input.len() + 1)),
        5 | 6 => {
            if let Some(at) = any(random, case.input.len()) {
                case.input[at] = random.byte();
            }
        }
        7..=10 => {
            if let Some(at) = any(random, case.entries.len()) {
                let within = if at % 2 == 0 { case.nodes.len() / NODE_WIDTH } else { case.entries.len() / 2 };
                case.entries[at] = number(random, case, within);
            }
        }
        _ => {
            if let Some(at) = any(random, case.nodes.len()) {
                let (bytes, entries) = (case.input.len(), case.entries.len() / 2);
                let within = [0, bytes, bytes, entries, 6, bytes, 3][at % NODE_WIDTH];
                case.nodes[at] = match at % NODE_WIDTH {
                    0 => u32::from(random.one_of(LETTERS)) + 256 * u32::from(random.below(30) == 0),
                    _ if random.below(2) == 0 => {
                        case.nodes[at].wrapping_add(random.one_of(&[1, 2, 4, u32::MAX, u32::MAX - 1]))
                    }
                    _ => number(random, case, within),
                };
            }
        }
    }
}

/// Mostly a number within, now and then one at or beyond an end.
fn number(random: &mut Random, case: &Case, within: usize) -> u32 {
    let near = [within as u32, within as u32 + 1, NOTHING, NOTHING - 1, 0x8000_0000, case.input.len() as u32];
    if random.below(4) == 0 { random.one_of(&near) } else { random.below(within.max(1)) as u32 }
}

type Held = (&'static str, Result<(), String>);

/// One case, in an output of some size; of few bytes, in outputs of every size.
fn answers(random: &mut Random, case: Case) -> Vec<Held> {
    let source = Source::new(&case.store());
    let room = random.one_of(&[4096, 4096, 600, 0]);
    let len = model::write(&source.store(), case.root, case.nesting, room).map_or(0, |bytes| bytes.len());
    let every = len < 80 && random.below(8) == 0;
    let rooms = if every { (0..=len + 2).collect() } else { vec![room.max(random.below(len + 2))] };
    rooms.into_iter().map(|room| case.answer_from(&source, room)).collect()
}

fn hold_one(source: &Source, asked: (u32, u32, usize)) -> Held {
    let (root, nesting, room) = asked;
    let expected = model::write(&source.store(), root, nesting, room);
    let class = match expected {
        Ok(_) if has_code(&source.store()) => "written alike, with code in the stores, and read and written again",
        Ok(_) => "written alike, and read and written again",
        Err(Refused { number: refusals::TOO_DEEP, .. }) => "refused 10",
        Err(Refused { number: refusals::BAD_TABLE, .. }) => "refused 16",
        Err(_) => "refused 17",
    };
    let mut held = source.hold(asked, expected.as_deref().map_err(|refused| *refused));
    if let Ok(bytes) = &expected {
        held = held.and_then(|()| hold_back(&source.store(), root, bytes));
    }
    (class, held)
}

fn has_code(store: &Store) -> bool {
    store.nodes.chunks(NODE_WIDTH).any(|node| node[0] == u32::from(b'c'))
}

impl Case {
    fn answer(&self, room: usize) -> Held {
        self.answer_from(&Source::new(&self.store()), room)
    }

    fn answer_from(&self, source: &Source, room: usize) -> Held {
        let (class, held) = hold_one(source, (self.root, self.nesting, room));
        (class, held.map_err(|fault| format!("{}; {fault}", self.row(room))))
    }
}
