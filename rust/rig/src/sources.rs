//! Where each instruction's place comes from, held to a model of its own that reads the table's bits one by one, and to what
//! `sill_locate` shows beside it.
use crate::lent::{Lent, Part};
use crate::linetable::{self, locate};
use crate::random::Random;
use crate::salvage;
use crate::subject::{Subject, held};
use crate::tally::Tally;
use crate::text::{hex, of_hex};
use sillgarland_sys::{self as sys, Sourced, refusals};

#[derive(Clone, Debug)]
pub struct Ask {
    pub table: Vec<u8>,
    pub first_line: i32,
    pub count: u32,
    /// How many bytes are lent.
    pub room: usize,
}

#[derive(Debug, PartialEq, Eq)]
pub enum Answer {
    Refused { number: u32, place: u32 },
    Told { sources: Vec<u8>, counts: [u32; 4] },
}

pub struct Sources;

impl Subject for Sources {
    const NAME: &'static str = "sources";
    type Ask = Ask;
    type Answer = Answer;

    fn class(ask: &Ask, answer: &Answer) -> &'static str {
        match answer {
            Answer::Refused { number: refusals::NO_ROOM, .. } => "no room",
            Answer::Refused { .. } => "refused at an entry",
            Answer::Told { counts: [.., sure], .. } if *sure == ask.count => "every row is sure",
            Answer::Told { sources, .. } if sources.iter().any(|byte| byte & 32 != 0) => "an entry is cut",
            Answer::Told { sources, .. } if sources.contains(&0) => "instructions left over",
            Answer::Told { sources, .. } if sources.contains(&1) => "instructions without a place",
            Answer::Told { .. } => "lines below 1",
        }
    }

    fn check(ask: &Ask, answer: &Answer) -> Result<(), String> {
        let part = Part::new(&ask.table);
        let (told, lent) = ask_port(ask, &part);
        match answer {
            Answer::Refused { number, place } => {
                same(told, sourced(*number, *place, [0; 4]))?;
                lent.holds("sources", &[])
            }
            Answer::Told { sources, counts } => {
                same(told, sourced(refusals::ACCEPTED, 0, *counts))?;
                lent.holds("sources", sources)?;
                check_beside(ask, &part, sources)
            }
        }
    }

    fn row(ask: &Ask, answer: &Answer) -> String {
        let Ask { table, first_line, count, room } = ask;
        let asked = format!("sources {} {first_line} {count} {room}", hex(table));
        match answer {
            Answer::Refused { number, place } => format!("{asked} refused {number} {place}"),
            Answer::Told { sources, counts: [from, line, columns, sure] } => {
                format!("{asked} {} {from}:{line}:{columns}:{sure}", hex(sources))
            }
        }
    }

    fn of_row(row: &str) -> Option<(Ask, Answer)> {
        let ["sources", table, first_line, count, room, rest @ ..] = &row.split(' ').collect::<Vec<_>>()[..] else {
            return None;
        };
        let (first_line, count) = (first_line.parse().ok()?, count.parse().ok()?);
        let ask = Ask { table: of_hex(table)?, first_line, count, room: room.parse().ok()? };
        let answer = match rest {
            ["refused", number, place] => Answer::Refused { number: number.parse().ok()?, place: place.parse().ok()? },
            [sources, counts] => {
                let counts: Vec<u32> = counts.split(':').map(str::parse).collect::<Result<_, _>>().ok()?;
                Answer::Told { sources: of_hex(sources)?, counts: counts.try_into().ok()? }
            }
            _ => return None,
        };
        Some((ask, answer))
    }
}

fn ask_port(ask: &Ask, part: &Part) -> (Sourced, Lent<u8>) {
    let (table, mut lent) = (part.bytes(), Lent::<u8>::new(ask.room));
    // SAFETY: table and bytes are lent for the lengths given.
    let told = unsafe {
        sys::sill_sources(table.as_ptr(), table.len(), ask.first_line, ask.count, lent.pointer(), lent.len())
    };
    (told, lent)
}

fn sourced(refusal: u32, place: u32, [from_entries, with_line, with_columns, sure]: [u32; 4]) -> Sourced {
    Sourced { refusal, place, from_entries, with_line, with_columns, sure }
}

fn same(answered: Sourced, expected: Sourced) -> Result<(), String> {
    if answered != expected {
        return Err(format!("sill_sources: {answered:?} and not {expected:?}"));
    }
    Ok(())
}

/// Bytes of 1 or more exactly below what `sill_locate` counts from entries; a 1 that was not stored is told; a whole table
/// has no entry that is cut.
fn check_beside(ask: &Ask, part: &Part, sources: &[u8]) -> Result<(), String> {
    let lines = linetable::Ask { table: ask.table.clone(), first_line: ask.first_line, count: ask.count };
    let (located, records) = locate(&lines, part, 4 * ask.count as usize);
    for (at, (byte, shown)) in sources.iter().zip(records.cells().as_chunks::<4>().0).enumerate() {
        let from_entry = at < located.from_entries as usize;
        let not_stored = byte & 19 == 3 && shown[0] != 1 && shown[2] != 1;
        if (byte & 1 == 1) != from_entry
            || (*byte == 0) == from_entry
            || not_stored
            || located.whole == 1 && byte & 32 != 0
        {
            return Err(format!("instruction {at}: {byte} beside {shown:?} and {located:?}"));
        }
    }
    Ok(())
}

// ---- the model

/// The numbers of code 14, or one of code 13: each with whether a byte of it is missing; more than six bytes or 33 bits are
/// refused.
fn number(table: &[u8], at: &mut usize, missing: &mut bool) -> Option<i64> {
    let (mut value, mut place) = (0_i64, 0);
    loop {
        let Some(byte) = table.get(*at) else {
            *missing = true;
            return (value >> 32 == 0).then_some(value);
        };
        if place == 6 {
            return None;
        }
        *at += 1;
        value += i64::from(byte & 0x3F) << (6 * place);
        place += 1;
        if byte & 0x40 == 0 {
            return (value >> 32 == 0).then_some(value);
        }
    }
}

pub struct Entry {
    pub instructions: usize,
    pub line: i64,
    byte: u8,
    pub end: usize,
}

impl Entry {
    /// A byte of it is missing.
    pub fn is_cut(&self) -> bool {
        self.byte & 32 != 0
    }
}

fn signed(value: i64) -> i64 {
    if value & 1 == 0 { value >> 1 } else { -(value >> 1) }
}

fn in_range(line: i64) -> Option<i64> {
    i32::try_from(line).ok().map(i64::from)
}

/// The entry whose first byte is at a place, or nothing where it is refused.
pub fn entry(table: &[u8], start: usize, line: i64) -> Option<Entry> {
    let head = table[start];
    let (mut at, mut missing, code) = (start + 1, false, head >> 3 & 15);
    let (to, end_line, columns) = match code {
        0..=12 => {
            let to = in_range(line + i64::from(code.saturating_sub(10)))?;
            let wanted = start + if code < 10 { 2 } else { 3 };
            missing = table.len() < wanted;
            at = wanted.min(table.len());
            (to, to, 12)
        }
        13 => {
            let to = in_range(line + signed(number(table, &mut at, &mut missing)?))?;
            (to, to, 0)
        }
        14 => {
            let step = signed(number(table, &mut at, &mut missing)?);
            let end_step = i64::from(number(table, &mut at, &mut missing)? as u32 as i32);
            let to = in_range(line + step)?;
            let end_line = in_range(to + end_step)?;
            let column = number(table, &mut at, &mut missing)?;
            let end_column = number(table, &mut at, &mut missing)?;
            (to, end_line, if column == 0 { 0 } else { 4 } + if end_column == 0 { 0 } else { 8 })
        }
        _ => (line, line, 0),
    };
    let lines = if code == 15 { 0 } else { 2 + if to > 0 && end_line > 0 { 16 } else { 0 } };
    let byte = 1 + lines + columns + if missing { 32 } else { 0 };
    Some(Entry { instructions: usize::from(head & 7) + 1, line: to, byte, end: at })
}

pub fn by_the_model(ask: &Ask) -> Answer {
    if ask.table.len() > refusals::MOST_BYTES as usize {
        return Answer::Refused { number: refusals::INPUT_TOO_LONG, place: 0 };
    }
    if ask.room < ask.count as usize {
        return Answer::Refused { number: refusals::NO_ROOM, place: ask.room as u32 };
    }
    let (mut at, mut line, mut sources) = (0, i64::from(ask.first_line), Vec::new());
    while sources.len() < ask.count as usize && ask.table.get(at).is_some_and(|head| *head >= 0x80) {
        let Some(entry) = entry(&ask.table, at, line) else {
            return Answer::Refused { number: refusals::NUMBER_RANGE, place: at as u32 };
        };
        sources.resize(sources.len() + entry.instructions, entry.byte);
        (at, line) = (entry.end, entry.line);
    }
    sources.resize(ask.count as usize, 0);
    let count = |wanted: fn(u8) -> bool| sources.iter().filter(|byte| wanted(**byte)).count() as u32;
    let counts = [count(|b| b & 1 != 0), count(|b| b & 2 != 0), count(|b| b & 14 == 14), count(|b| b & 50 == 18)];
    Answer::Told { sources, counts }
}

// ---- beside CPython

/// Each instruction's byte beside its position as CPython has it (line, end line, column, end column; none is None): bits 2, 4
/// and 8 say which of line, column and end column are there. CPython keeps a line of -1 for none, so that a stored -1 is None there:
/// the listed difference.
pub fn hold_positions(tally: &mut Tally, lines: &linetable::Ask, said: &[[Option<i64>; 4]]) {
    let linetable::Ask { table, first_line, count } = lines.clone();
    let ask = Ask { table, first_line, count, room: count as usize };
    let (told, lent) = ask_port(&ask, &Part::new(&ask.table));
    let (bytes, stored) = (lent.cells(), stored_lines(&ask));
    if told.refusal != refusals::ACCEPTED || said.len() != bytes.len() || stored.len() != bytes.len() {
        return tally.count("", Err(format!("{ask:?}: {told:?}, and CPython has {} positions", said.len())));
    }
    for (at, ((byte, [line, _, column, end_column]), stored)) in bytes.iter().zip(said).zip(stored).enumerate() {
        let columns = (byte & 4 != 0, byte & 8 != 0) == (column.is_some(), end_column.is_some());
        let class = match (byte & 2 != 0, line) {
            (true, Some(line)) if *line == stored => Some("instructions with a line, columns there or not alike"),
            (false, None) => Some("instructions without a line, columns there or not alike"),
            (true, None) if stored == -1 => Some("listed difference: a stored line of -1, which is None there"),
            _ => None,
        };
        match class.filter(|_| columns) {
            Some(class) => tally.count(class, Ok(())),
            None => tally.count("", Err(format!("{ask:?}: instruction {at}: {byte}, and CPython has {said:?}"))),
        }
    }
}

/// The running line at each instruction that an entry places, as it is stored.
fn stored_lines(ask: &Ask) -> Vec<i64> {
    let (mut at, mut line, mut lines) = (0, i64::from(ask.first_line), Vec::new());
    while let Some(entry) = ask.table.get(at).and_then(|_| entry(&ask.table, at, line)) {
        (at, line) = (entry.end, entry.line);
        lines.resize(lines.len() + entry.instructions, line);
    }
    lines
}

// ---- the questions

pub fn random_ask(random: &mut Random) -> Ask {
    let salvage::Ask { table, first_line, count, .. } = salvage::random_ask(random);
    let room = (count as usize + random.below(3)).saturating_sub(random.one_of(&[0, 0, 0, 2]));
    Ask { table, first_line, count, room }
}

/// All tables of up to two bytes, and random ones.
pub fn hold(seed: u64, random: usize) -> bool {
    let mut tally = Tally::new("sources");
    let mut ask = |ask: &Ask| {
        let answer = by_the_model(ask);
        tally.count(Sources::class(ask, &answer), held::<Sources>(ask, &answer));
    };
    for table in salvage::short_tables() {
        for (first_line, count) in [(10, 3), (i32::MAX, 9), (-1, 1)] {
            ask(&Ask { table: table.clone(), first_line, count, room: count as usize + 1 });
        }
    }
    let mut chance = Random::new(seed);
    for _ in 0..random {
        ask(&random_ask(&mut chance));
    }
    tally.finish()
}
