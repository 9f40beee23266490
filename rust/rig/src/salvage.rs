//! The repair of line tables (document 02, K9), held to a model of its own and to what is promised of every repair: the
//! result is whole, a second repair changes nothing, and under kept entries the locations are the original's.
use crate::lent::{Lent, Part};
use crate::linetable::{self, locate};
use crate::random::Random;
use crate::subject::{Subject, held};
use crate::tally::Tally;
use crate::text::{hex, of_hex};
use sillgarland_sys::{self as sys, Salvaged, refusals};

#[derive(Clone, Debug)]
pub struct Ask {
    pub table: Vec<u8>,
    pub first_line: i32,
    pub count: u32,
    /// How many bytes are lent for the result.
    pub room: usize,
}

#[derive(Debug, PartialEq, Eq)]
pub enum Answer {
    Refused { number: u32, place: u32 },
    Repaired { bytes: Vec<u8>, kept: u32, dropped: u32, shortened: bool, covered: u32 },
}

pub struct Salvages;

impl Subject for Salvages {
    const NAME: &'static str = "salvage";
    type Ask = Ask;
    type Answer = Answer;

    fn class(ask: &Ask, answer: &Answer) -> &'static str {
        match answer {
            Answer::Refused { number: refusals::NO_ROOM, .. } => "no room for the result",
            Answer::Refused { .. } => "table or result above 16 MiB",
            Answer::Repaired { bytes, .. } if *bytes == ask.table => "whole, and unchanged",
            Answer::Repaired { shortened: true, .. } => "the last kept entry shortened",
            Answer::Repaired { covered: 0, .. } => "bytes dropped, nothing covered",
            Answer::Repaired { .. } => "instructions covered",
        }
    }

    fn check(ask: &Ask, answer: &Answer) -> Result<(), String> {
        let part = Part::new(&ask.table);
        check_answer(ask, &part, answer)?;
        match answer {
            Answer::Refused { .. } => Ok(()),
            Answer::Repaired { bytes, covered, .. } => {
                check_promises(ask, bytes, *covered)?;
                check_no_room(ask, &part, bytes.len())
            }
        }
    }

    fn row(ask: &Ask, answer: &Answer) -> String {
        let Ask { table, first_line, count, room } = ask;
        let asked = format!("salvage {} {first_line} {count} {room}", hex(table));
        match answer {
            Answer::Refused { number, place } => format!("{asked} refused {number} {place}"),
            Answer::Repaired { bytes, kept, dropped, shortened, covered } => {
                format!("{asked} {} {kept}:{dropped}:{}:{covered}", hex(bytes), u32::from(*shortened))
            }
        }
    }

    fn of_row(row: &str) -> Option<(Ask, Answer)> {
        let ["salvage", table, first_line, count, room, rest @ ..] = &row.split(' ').collect::<Vec<_>>()[..] else {
            return None;
        };
        let (first_line, count) = (first_line.parse().ok()?, count.parse().ok()?);
        let ask = Ask { table: of_hex(table)?, first_line, count, room: room.parse().ok()? };
        let answer = match rest {
            ["refused", number, place] => Answer::Refused { number: number.parse().ok()?, place: place.parse().ok()? },
            [bytes, list] => {
                let [kept, dropped, shortened, covered] = list.split(':').collect::<Vec<_>>()[..] else { return None };
                Answer::Repaired {
                    bytes: of_hex(bytes)?,
                    kept: kept.parse().ok()?,
                    dropped: dropped.parse().ok()?,
                    shortened: shortened == "1",
                    covered: covered.parse().ok()?,
                }
            }
            _ => return None,
        };
        Some((ask, answer))
    }
}

fn refused(number: u32, place: u32) -> Salvaged {
    Salvaged { refusal: number, place, written: 0, kept: 0, dropped: 0, shortened: 0, covered: 0 }
}

fn same(name: &str, answered: Salvaged, expected: Salvaged) -> Result<(), String> {
    if answered != expected {
        return Err(format!("{name}: {answered:?} and not {expected:?}"));
    }
    Ok(())
}

fn salvage(ask: &Ask, part: &Part) -> (Salvaged, Lent<u8>) {
    let (table, mut out) = (part.bytes(), Lent::new(ask.room));
    // SAFETY: table and output are lent for the lengths given.
    let salvaged =
        unsafe { sys::sill_salvage(table.as_ptr(), table.len(), ask.first_line, ask.count, out.pointer(), out.len()) };
    (salvaged, out)
}

/// The answer itself, and the output.
fn check_answer(ask: &Ask, part: &Part, answer: &Answer) -> Result<(), String> {
    let (salvaged, out) = salvage(ask, part);
    match answer {
        Answer::Refused { number, place } => {
            same("sill_salvage", salvaged, refused(*number, *place))?;
            out.holds("out", &[])
        }
        Answer::Repaired { bytes, kept, dropped, shortened, covered } => {
            let written = bytes.len() as u32;
            let (refusal, place, shortened) = (refusals::ACCEPTED, 0, u32::from(*shortened));
            let expected =
                Salvaged { refusal, place, written, kept: *kept, dropped: *dropped, shortened, covered: *covered };
            same("sill_salvage", salvaged, expected)?;
            out.holds("out", bytes)
        }
    }
}

/// One byte short: refused at that many, and the output is all zero.
fn check_no_room(ask: &Ask, part: &Part, written: usize) -> Result<(), String> {
    if written == 0 {
        return Ok(());
    }
    let (salvaged, out) = salvage(&Ask { room: written - 1, ..ask.clone() }, part);
    same("sill_salvage without room", salvaged, refused(refusals::NO_ROOM, written as u32 - 1))?;
    out.holds("out", &[])
}

/// Beyond this many instructions the locations are not compared.
const FEW: u32 = 4096;

/// "makes a whole one", "a second repair changes nothing", and under kept entries the original's locations.
fn check_promises(ask: &Ask, bytes: &[u8], covered: u32) -> Result<(), String> {
    let again = Ask { table: bytes.to_vec(), room: bytes.len(), ..ask.clone() };
    let (salvaged, out) = salvage(&again, &Part::new(bytes));
    let unchanged = Salvaged { dropped: 0, shortened: 0, covered: 0, kept: salvaged.kept, ..salvaged };
    same("a second repair", salvaged, Salvaged { refusal: 0, place: 0, written: bytes.len() as u32, ..unchanged })?;
    out.holds("a second repair", bytes)?;
    if ask.count > FEW {
        return Ok(());
    }
    let room = 4 * ask.count as usize;
    let lines = |table: &[u8]| {
        let lines = linetable::Ask { table: table.to_vec(), first_line: ask.first_line, count: ask.count };
        locate(&lines, &Part::new(table), room)
    };
    let (mended, shown) = lines(bytes);
    if (mended.refusal, mended.whole, mended.from_entries) != (0, 1, ask.count) {
        return Err(format!("the result is not whole: {mended:?}"));
    }
    let (original, before) = lines(&ask.table);
    let under = 4 * (ask.count - covered) as usize;
    if original.refusal == 0 && before.cells()[..under] != shown.cells()[..under] {
        return Err(format!("under kept entries: {:?} and not {:?}", shown.cells(), before.cells()));
    }
    Ok(())
}

// ---- the model, from the sentences of documents 01 and 02

/// What stands at a place of a table: nothing that can be kept (a stop, an entry that is cut or refused), or an entry.
enum Met {
    Nothing,
    Entry { end: usize, instructions: u32, line: i64 },
}

/// A little-endian number below 2^32 of at most six bytes, all there.
fn number(table: &[u8], at: &mut usize) -> Option<i64> {
    let mut value = 0;
    for place in 0..6 {
        let byte = *table.get(*at)?;
        *at += 1;
        value += i64::from(byte & 0x3F) << (6 * place);
        if byte & 0x40 == 0 {
            return (value >> 32 == 0).then_some(value);
        }
    }
    None
}

fn signed(value: i64) -> i64 {
    if value & 1 == 0 { value >> 1 } else { -(value >> 1) }
}

fn in_range(line: i64) -> Option<i64> {
    i32::try_from(line).ok().map(i64::from)
}

fn met(table: &[u8], start: usize, line: i64) -> Met {
    let entry = || {
        let head = *table.get(start).filter(|head| **head >= 0x80)?;
        let mut at = start + 1;
        let to = match head >> 3 & 15 {
            code @ 0..=12 => {
                at += if code < 10 { 1 } else { 2 };
                in_range(line + i64::from(code.saturating_sub(10)))?
            }
            13 => in_range(line + signed(number(table, &mut at)?))?,
            14 => {
                let to = in_range(line + signed(number(table, &mut at)?))?;
                in_range(to + i64::from(number(table, &mut at)? as u32 as i32))?;
                number(table, &mut at)?;
                number(table, &mut at)?;
                to
            }
            _ => line,
        };
        (at <= table.len()).then_some(Met::Entry { end: at, instructions: u32::from(head & 7) + 1, line: to })
    };
    entry().unwrap_or(Met::Nothing)
}

pub fn by_the_model(ask: &Ask) -> Answer {
    let too_long = Answer::Refused { number: refusals::INPUT_TOO_LONG, place: 0 };
    if ask.table.len() > refusals::MOST_BYTES as usize {
        return too_long;
    }
    let (mut at, mut left, mut line, mut kept, mut shortened) = (0, ask.count, i64::from(ask.first_line), 0, None);
    while left > 0 {
        let Met::Entry { end, instructions, line: to } = met(&ask.table, at, line) else { break };
        kept += 1;
        if instructions > left {
            shortened = Some((at, left));
        }
        (at, left, line) = (end, left.saturating_sub(instructions), to);
    }
    let size = at as u64 + u64::from(left).div_ceil(8);
    if size > u64::from(refusals::MOST_BYTES) {
        return too_long;
    }
    if (ask.room as u64) < size {
        return Answer::Refused { number: refusals::NO_ROOM, place: ask.room as u32 };
    }
    let mut bytes = ask.table[..at].to_vec();
    if let Some((head, instructions)) = shortened {
        bytes[head] = bytes[head] & 0xF8 | (instructions - 1) as u8;
    }
    bytes.resize(at + left as usize / 8, 0xFF);
    if !left.is_multiple_of(8) {
        bytes.push(0xF7 + (left % 8) as u8);
    }
    let dropped = (ask.table.len() - at) as u32;
    Answer::Repaired { bytes, kept, dropped, shortened: shortened.is_some(), covered: left }
}

// ---- the questions

fn ask(tally: &mut Tally, ask: &Ask) {
    let answer = by_the_model(ask);
    tally.count(Salvages::class(ask, &answer), held::<Salvages>(ask, &answer));
}

/// Room for any result of a table of so many bytes for so many instructions.
fn room(table: &[u8], count: u32) -> usize {
    table.len() + count as usize / 8 + 9
}

/// All tables of up to two bytes, random ones, and counts whose result is above 16 MiB or just below.
pub fn hold(seed: u64, random: usize) -> bool {
    let mut tally = Tally::new("salvage");
    for (table, first_line) in short_tables().flat_map(|table| [(table.clone(), 10), (table, i32::MAX)]) {
        for count in [0, 1, 3, 9, 17] {
            ask(&mut tally, &Ask { room: room(&table, count), table: table.clone(), first_line, count });
        }
    }
    let mut chance = Random::new(seed);
    for _ in 0..random {
        ask(&mut tally, &random_ask(&mut chance));
    }
    extremes().iter().for_each(|extreme| ask(&mut tally, extreme));
    tally.finish()
}

pub fn short_tables() -> impl Iterator<Item = Vec<u8>> {
    let bytes = || 0..=255_u8;
    let two = bytes().flat_map(move |first| bytes().map(move |second| vec![first, second]));
    [Vec::new()].into_iter().chain(bytes().map(|byte| vec![byte])).chain(two)
}

/// Some entries, whole or with bytes changed, cut or put in; asked for a count near what they add up to.
pub fn random_ask(random: &mut Random) -> Ask {
    let mut table = Vec::new();
    let mut count = 0;
    for _ in 0..random.below(7) {
        let (code, length) = (random.below(16) as u8, random.below(8) as u8);
        table.push(0x80 | code << 3 | length);
        let behind = match code {
            0..=9 => 1,
            10..=12 => 2,
            13 => 1,
            14 => 4,
            _ => 0,
        };
        for _ in 0..behind {
            let more = random.one_of(&[0, 0, 0, 0, 5, 6]);
            table.extend((0..more).map(|_| 0x40 | random.byte() & 0x3F));
            table.push(random.byte() & random.one_of(&[0x3F, 0x07, 0xFF]));
        }
        count += u32::from(length) + 1;
    }
    let at = random.below(table.len() + 1);
    match random.below(6) {
        0 => table.truncate(at),
        1 => table.insert(at, random.byte()),
        2 if at < table.len() => table[at] = random.byte(),
        3 => count += random.below(20) as u32,
        4 => count = count.saturating_sub(random.below(9) as u32),
        _ => {}
    }
    let first_line = random.one_of(&[10, 1, 0, -1, i32::MAX, i32::MIN, i32::MAX - 3]);
    let room = room(&table, count).saturating_sub(random.one_of(&[0, 0, 0, 9, 12]));
    Ask { table, first_line, count, room }
}

/// Counts of up to 2^32 - 1, and the longest table and one byte more.
fn extremes() -> Vec<Ask> {
    let most = refusals::MOST_BYTES;
    let of = |table: &[u8], count, room| Ask { table: table.to_vec(), first_line: 1, count, room };
    let longest = vec![0xF8; most as usize];
    vec![
        of(&[], u32::MAX, 9),
        of(&[0xF8], u32::MAX, 9),
        of(&[], 8 * most, most as usize),
        of(&[], 8 * most, most as usize - 1),
        of(&[], 8 * most + 1, most as usize + 9),
        of(&longest, most, most as usize),
        of(&longest, most + 1, most as usize + 9),
        of(&[&longest[..], &[0]].concat(), 1, 9),
    ]
}

/// Tables up to this many bytes, and every so manieth cut of longer ones, are held to all that is promised.
const SHORT: usize = 192;

/// A table cut at every byte: held to the model, and short ones to all that is promised.
pub fn hold_cuts(tally: &mut Tally, table: &linetable::Ask) {
    for end in 0..table.table.len() {
        let cut = table.table[..end].to_vec();
        let asked = Ask { room: room(&cut, table.count), table: cut, first_line: table.first_line, count: table.count };
        if table.table.len() <= SHORT || end.is_multiple_of(SHORT) {
            ask(tally, &asked);
        } else {
            let answer = by_the_model(&asked);
            let outcome = check_answer(&asked, &Part::new(&asked.table), &answer);
            tally.count(Salvages::class(&asked, &answer), outcome);
        }
    }
}
