//! Joining line tables (document 02, K12), held to a model of its own and to what is promised of every join: the locations of
//! both, one after the other, whole for both counts; either order alike; the empty table neutral on either side.
use crate::lent::{Lent, Part};
use crate::linetable::{self, locate};
use crate::random::Random;
use crate::salvage;
use crate::shares;
use crate::sources::entry;
use crate::subject::{Subject, held};
use crate::tally::Tally;
use crate::text::{hex, of_hex};
use sillgarland_sys::{self as sys, Joined, Line, refusals};

/// A table, its first line and how many instructions it is for.
#[derive(Clone, Debug, PartialEq, Eq)]
pub struct Block {
    pub table: Vec<u8>,
    pub first_line: i32,
    pub count: u32,
}

#[derive(Clone, Debug)]
pub enum Ask {
    Join {
        a: Block,
        b: Block,
        /// How many bytes are lent for the result.
        room: usize,
    },
    Line(Block),
}

#[derive(Debug, PartialEq, Eq)]
pub enum Answer {
    Refused { number: u32, place: u32 },
    Joined { bytes: Vec<u8>, count: u32, line: i32 },
    Told { whole: bool, line: i32 },
}

pub struct Joins;

impl Subject for Joins {
    const NAME: &'static str = "join";
    type Ask = Ask;
    type Answer = Answer;

    fn class(ask: &Ask, answer: &Answer) -> &'static str {
        match (ask, answer) {
            (_, Answer::Told { whole: true, .. }) => "the line of a whole table",
            (_, Answer::Told { .. }) => "the line of a table that is not whole",
            (Ask::Line(_), Answer::Refused { .. }) => "no line: the table refuses",
            (Ask::Join { a, b, .. }, Answer::Refused { number: refusals::NOT_JOINED, .. }) => why_apart(a, b),
            (_, Answer::Refused { number: refusals::NO_ROOM, .. }) => "refused: no room",
            (_, Answer::Refused { .. }) => "refused: above 16 MiB together",
            (Ask::Join { a, b, .. }, _) if a.table.is_empty() || b.table.is_empty() => "joined with the empty table",
            _ => "joined",
        }
    }

    fn check(ask: &Ask, answer: &Answer) -> Result<(), String> {
        match ask {
            Ask::Line(block) => check_line(block, answer),
            Ask::Join { a, b, room } => {
                check_join(a, b, *room, answer)?;
                match answer {
                    Answer::Joined { bytes, count, line } => {
                        let both = Block { table: bytes.clone(), first_line: a.first_line, count: *count };
                        check_no_room(a, b, bytes.len())?;
                        check_promises(a, b, &both, *line)
                    }
                    _ => Ok(()),
                }
            }
        }
    }

    fn row(ask: &Ask, answer: &Answer) -> String {
        let block = |block: &Block| format!("{} {} {}", hex(&block.table), block.first_line, block.count);
        let asked = match ask {
            Ask::Join { a, b, room } => format!("join {} {} {room}", block(a), block(b)),
            Ask::Line(table) => format!("line {}", block(table)),
        };
        match answer {
            Answer::Refused { number, place } => format!("{asked} refused {number} {place}"),
            Answer::Joined { bytes, count, line } => format!("{asked} {} {count}:{line}", hex(bytes)),
            Answer::Told { whole, line } => format!("{asked} {}:{line}", u32::from(*whole)),
        }
    }

    fn of_row(row: &str) -> Option<(Ask, Answer)> {
        let words: Vec<&str> = row.split(' ').collect();
        let block = |words: &[&str]| {
            let [table, first_line, count] = words else { return None };
            Some(Block { table: of_hex(table)?, first_line: first_line.parse().ok()?, count: count.parse().ok()? })
        };
        let (ask, rest) = match words.first()? {
            &"join" if words.len() > 8 => {
                let (a, b) = (block(&words[1..4])?, block(&words[4..7])?);
                (Ask::Join { a, b, room: words[7].parse().ok()? }, &words[8..])
            }
            &"line" if words.len() > 4 => (Ask::Line(block(&words[1..4])?), &words[4..]),
            _ => return None,
        };
        let pair = |text: &str| Some((text.split_once(':')?.0.parse().ok()?, text.split_once(':')?.1.parse().ok()?));
        let answer = match rest {
            ["refused", number, place] => Answer::Refused { number: number.parse().ok()?, place: place.parse().ok()? },
            [bytes, told] => {
                let (count, line) = pair(told)?;
                Answer::Joined { bytes: of_hex(bytes)?, count, line }
            }
            [told] => {
                let (whole, line) = pair(told)?;
                Answer::Told { whole: whole == 1, line }
            }
            _ => return None,
        };
        Some((ask, answer))
    }
}

fn same<T: PartialEq + std::fmt::Debug>(name: &str, answered: T, expected: T) -> Result<(), String> {
    if answered != expected {
        return Err(format!("{name}: {answered:?} and not {expected:?}"));
    }
    Ok(())
}

fn join(a: &Block, b: &Block, room: usize) -> (Joined, Lent<u8>) {
    let (former, latter, mut out) = (Part::new(&a.table), Part::new(&b.table), Lent::new(room));
    let (s, t) = (former.bytes(), latter.bytes());
    // SAFETY: both tables and the output are lent for the lengths given.
    let joined = unsafe {
        sys::sill_join(
            s.as_ptr(),
            s.len(),
            a.first_line,
            a.count,
            t.as_ptr(),
            t.len(),
            b.first_line,
            b.count,
            out.pointer(),
            out.len(),
        )
    };
    (joined, out)
}

fn line_after(block: &Block) -> Line {
    let part = Part::new(&block.table);
    // SAFETY: the table is lent for the length given.
    unsafe { sys::sill_line_after(part.bytes().as_ptr(), part.bytes().len(), block.first_line, block.count) }
}

/// The answer itself, and the output.
fn check_join(a: &Block, b: &Block, room: usize, answer: &Answer) -> Result<(), String> {
    let (joined, out) = join(a, b, room);
    match answer {
        Answer::Joined { bytes, count, line } => {
            let written = bytes.len() as u32;
            let expected = Joined { refusal: refusals::ACCEPTED, place: 0, written, count: *count, line: *line };
            same("sill_join", joined, expected)?;
            out.holds("out", bytes)
        }
        Answer::Refused { number, place } => {
            same("sill_join", joined, Joined { refusal: *number, place: *place, written: 0, count: 0, line: 0 })?;
            out.holds("out", &[])
        }
        Answer::Told { .. } => Err("a join has no such answer".to_string()),
    }
}

fn check_line(block: &Block, answer: &Answer) -> Result<(), String> {
    let expected = match answer {
        Answer::Told { whole, line } => {
            Line { refusal: refusals::ACCEPTED, place: 0, whole: u32::from(*whole), line: *line }
        }
        Answer::Refused { number, place } => Line { refusal: *number, place: *place, whole: 0, line: 0 },
        Answer::Joined { .. } => return Err("the line of a table has no such answer".to_string()),
    };
    same("sill_line_after", line_after(block), expected)
}

/// One byte short: refused at that many, and the output is all zero.
fn check_no_room(a: &Block, b: &Block, written: usize) -> Result<(), String> {
    if written == 0 {
        return Ok(());
    }
    check_join(a, b, written - 1, &Answer::Refused { number: refusals::NO_ROOM, place: written as u32 - 1 })
}

/// Beyond this many instructions the locations are not compared.
const FEW: u32 = 4096;

/// "A's locations followed by B's, and be whole for a + b", leaving B's line; the empty table neutral on either side.
fn check_promises(a: &Block, b: &Block, both: &Block, line: i32) -> Result<(), String> {
    let told = Line { refusal: refusals::ACCEPTED, place: 0, whole: 1, line };
    same("the line of both", line_after(both), told)?;
    same("the line of the second", line_after(b), told)?;
    let neutral = Answer::Joined { bytes: both.table.clone(), count: both.count, line };
    check_join(both, &empty(line), both.table.len(), &neutral)?;
    check_join(&empty(a.first_line), both, both.table.len(), &neutral)?;
    if both.count > FEW {
        return Ok(());
    }
    let shown = |block: &Block| {
        let Block { table, first_line, count } = block.clone();
        let (located, records) =
            locate(&linetable::Ask { table, first_line, count }, &Part::new(&block.table), 4 * count as usize);
        (located, records.cells().to_vec())
    };
    let (located, records) = shown(both);
    let expected = sys::Located { refusal: refusals::ACCEPTED, place: 0, from_entries: both.count, whole: 1 };
    same("the locations of both", located, expected)?;
    same("the locations of both", records, [shown(a).1, shown(b).1].concat())
}

fn empty(line: i32) -> Block {
    Block { table: Vec::new(), first_line: line, count: 0 }
}

// ---- the model, from the sentences of documents 01 and 02

/// Whether a table is whole, and the line where its reading ends; or the place of the entry that is refused.
fn told(block: &Block) -> Result<(bool, i64), usize> {
    let (mut at, mut line, mut placed, mut complete) = (0, i64::from(block.first_line), 0_u64, true);
    while placed < u64::from(block.count) && block.table.get(at).is_some_and(|head| *head >= 0x80) {
        let next = entry(&block.table, at, line).ok_or(at)?;
        complete &= !next.is_cut();
        placed += next.instructions as u64;
        (at, line) = (next.end, next.line);
    }
    Ok((complete && placed == u64::from(block.count) && at == block.table.len(), line))
}

fn why_apart(a: &Block, b: &Block) -> &'static str {
    match (told(a), told(b)) {
        (Err(_), _) => "refused: the first table refuses",
        (Ok((false, _)), _) => "refused: the first table is not whole",
        (Ok((_, line)), _) if line != i64::from(b.first_line) => {
            if line.max(1) == i64::from(b.first_line.max(1)) {
                "refused: lines that meet only as they are shown"
            } else {
                "refused: lines that do not meet"
            }
        }
        (_, Err(_)) => "refused: the second table refuses",
        _ => "refused: the second table is not whole",
    }
}

pub fn by_the_model(ask: &Ask) -> Answer {
    let refused = |number, place| Answer::Refused { number, place };
    let most = refusals::MOST_BYTES as usize;
    match ask {
        Ask::Line(block) if block.table.len() > most => refused(refusals::INPUT_TOO_LONG, 0),
        Ask::Line(block) => match told(block) {
            Err(place) => refused(refusals::NUMBER_RANGE, place as u32),
            Ok((whole, line)) => Answer::Told { whole, line: line as i32 },
        },
        Ask::Join { a, b, .. } if a.table.len() + b.table.len() > most => refused(refusals::INPUT_TOO_LONG, 0),
        Ask::Join { a, b, room } => match (told(a), told(b)) {
            (Ok((true, left)), Ok((true, line))) if left == i64::from(b.first_line) => {
                let bytes = [&a.table[..], &b.table[..]].concat();
                if *room < bytes.len() {
                    return refused(refusals::NO_ROOM, *room as u32);
                }
                Answer::Joined { bytes, count: a.count + b.count, line: line as i32 }
            }
            _ => refused(refusals::NOT_JOINED, 0),
        },
    }
}

// ---- the questions

const FIRST_LINES: [i32; 7] = [10, 1, 0, -1, i32::MAX, i32::MIN, i32::MAX - 1];

/// Tables of every kind, each for a count: whole, left over, past the count, cut, with a stop or bytes behind, refused.
fn kinds() -> Vec<(Vec<u8>, u32)> {
    let more = |head: &[u8], sixth| [head, &[0x40; 5], &[sixth]].concat();
    vec![
        (vec![], 0),
        (vec![], 1),
        (vec![0xF8], 1),
        (vec![0xFF], 8),
        (vec![0xFF], 7),
        (vec![0xFF], 9),
        (vec![0xE8, 0x02], 1),
        (vec![0xE8, 0x03], 1),
        (vec![0xE8, 0x02], 2),
        (vec![0xE9, 0x02], 1),
        (vec![0xE8], 1),
        (vec![0xE8, 0x42], 1),
        (vec![0x80, 0x05], 1),
        (vec![0x80], 1),
        (vec![0xD8, 0x00, 0x00], 1),
        (vec![0xD8, 0x00], 1),
        (vec![0xF0, 0x04, 0x00, 0x00, 0x00], 1),
        (vec![0xF0, 0x04, 0x00, 0x00], 1),
        (vec![0x00], 0),
        (vec![0xF8, 0x00], 1),
        (vec![0xF8, 0x00], 2),
        (vec![0x7F, 0xF8], 1),
        (vec![0xF8, 0xE8, 0x03, 0xFA], 5),
        (more(&[0xE8], 0x04), 1),
        (more(&[0xE8], 0x03), 1),
        (more(&[0xF8, 0xF0, 0x00, 0x00, 0x00], 0x04), 2),
        (vec![0xF8], u32::MAX),
    ]
}

/// Each kind behind each, from every line above, where the lines meet, by one miss, or meet only as they are shown.
fn pairs_of_kinds() -> impl Iterator<Item = Ask> {
    let pairs =
        || kinds().into_iter().flat_map(|former| kinds().into_iter().map(move |latter| (former.clone(), latter)));
    FIRST_LINES.into_iter().flat_map(move |first_line| {
        pairs().flat_map(move |((s, n), (t, m))| {
            let a = Block { table: s, first_line, count: n };
            let left = told(&a).map_or(first_line, |(_, line)| line as i32);
            [left, left.wrapping_add(1), left.wrapping_sub(1), left.max(1), first_line].map(|first_line| {
                let b = Block { table: t.clone(), first_line, count: m };
                Ask::Join { room: a.table.len() + b.table.len() + 1, a: a.clone(), b }
            })
        })
    })
}

fn random_block(random: &mut Random) -> Block {
    let asked = salvage::random_ask(random);
    let salvage::Ask { table, first_line, count, .. } = asked.clone();
    let mended = salvage::Ask { room: table.len() + count as usize, ..asked };
    match salvage::by_the_model(&mended) {
        salvage::Answer::Repaired { bytes, .. } if random.below(4) > 0 => Block { table: bytes, first_line, count },
        _ => Block { table, first_line, count },
    }
}

/// A block as it is, or made whole for the line that the one before leaves.
fn random_behind(random: &mut Random, a: &Block) -> Block {
    let left = told(a).map_or(a.first_line, |(_, line)| line as i32);
    let near = [left, left, left, left, left, left.wrapping_add(1), left.max(1), a.first_line];
    let b = random_block(random);
    let asked = salvage::Ask { table: b.table, first_line: random.one_of(&near), count: b.count, room: usize::MAX };
    match salvage::by_the_model(&asked) {
        salvage::Answer::Repaired { bytes, .. } if random.below(4) > 0 => {
            Block { table: bytes, first_line: asked.first_line, count: asked.count }
        }
        _ => Block { table: asked.table, first_line: asked.first_line, count: asked.count },
    }
}

pub fn random_ask(random: &mut Random) -> Ask {
    let a = random_block(random);
    if random.below(4) == 0 {
        return Ask::Line(a);
    }
    let b = random_behind(random, &a);
    let room = (a.table.len() + b.table.len() + 2).saturating_sub(random.one_of(&[0, 0, 1, 2, 3, 5]));
    Ask::Join { a, b, room }
}

pub fn random_asks(seed: u64, count: usize) -> impl Iterator<Item = Ask> {
    let mut random = Random::new(seed);
    (0..count).map(move |_| random_ask(&mut random))
}

/// All tables of up to two bytes, for their line alone.
fn short_lines() -> impl Iterator<Item = Ask> {
    salvage::short_tables().flat_map(|table| {
        [(10, 1), (i32::MAX, 3), (-1, 9), (0, 0)]
            .map(|(first_line, count)| Ask::Line(Block { table: table.clone(), first_line, count }))
    })
}

/// Just 16 MiB together and one byte more, the largest counts; and one table alone that is longer.
fn extremes() -> Vec<Ask> {
    let half = refusals::MOST_BYTES as usize / 2;
    let of = |len: usize, count| Block { table: vec![0xFF; len], first_line: 1, count };
    let full = |len: usize| of(len, 8 * len as u32);
    let join = |a: Block, b: Block| Ask::Join { room: a.table.len() + b.table.len(), a, b };
    vec![
        join(full(half), full(half)),
        join(full(2 * half), full(0)),
        join(full(0), full(2 * half)),
        join(full(half), full(half + 1)),
        join(full(2 * half + 1), full(0)),
        join(of(half, u32::MAX), of(half, u32::MAX)),
        Ask::Line(full(2 * half)),
        Ask::Line(full(2 * half + 1)),
    ]
}

/// Holds the port to the model, and joins to the Rust, shared out over the processors.
fn hold_asks<I: Iterator<Item = Ask>>(asks: impl Fn() -> I + Sync) -> bool {
    let tally = shares::tallied("join", |share, tally| {
        for ask in share.cases(asks()) {
            let answer = by_the_model(&ask);
            tally.count(Joins::class(&ask, &answer), held::<Joins>(&ask, &answer));
            #[cfg(carried)]
            beside_the_rust::compare(tally, &ask, &answer);
            if !tally.none_failed() {
                share.stop();
            }
        }
    });
    tally.finish()
}

pub fn hold(seed: u64, random: usize) -> bool {
    let alone = hold_asks(|| pairs_of_kinds().chain(short_lines()).chain(random_asks(seed, random)).chain(extremes()));
    hold_orders(seed + 1, random / 4) && alone
}

/// Of one round of the long form.
#[cfg(carried)]
pub fn hold_round(seed: u64, random: usize) -> bool {
    hold_asks(|| random_asks(seed, random))
}

// ---- three tables, in either order

/// "Joining is associative wherever both orders are allowed": both are allowed, or neither is, and the bytes are the same.
fn hold_orders(seed: u64, count: usize) -> bool {
    let (mut tally, mut random) = (Tally::new("join, three tables"), Random::new(seed));
    for _ in 0..count {
        let a = random_block(&mut random);
        let b = random_behind(&mut random, &a);
        let c = random_behind(&mut random, &b);
        let from_the_left = followed(&a, &b).and_then(|both| followed(&both, &c));
        let from_the_right = followed(&b, &c).and_then(|both| followed(&a, &both));
        let class = if from_the_left.is_some() { "joined in either order alike" } else { "refused in either order" };
        tally.count(class, same(&format!("{a:?}, {b:?}, {c:?}"), from_the_left, from_the_right));
    }
    tally.finish()
}

/// The joined block, by the port alone.
fn followed(a: &Block, b: &Block) -> Option<Block> {
    let (joined, out) = join(a, b, a.table.len() + b.table.len());
    let table = out.cells()[..joined.written as usize].to_vec();
    (joined.refusal == refusals::ACCEPTED).then_some(Block { table, first_line: a.first_line, count: joined.count })
}

// ---- CPython's tables

/// A table split at every entry's start, and at its end: joined again it is the same, byte for byte.
pub fn hold_splits(tally: &mut Tally, table: &linetable::Ask) {
    let whole = Block { table: table.table.clone(), first_line: table.first_line, count: table.count };
    let Ok((true, last)) = told(&whole) else {
        return tally.count("", Err(format!("not whole: {table:?}")));
    };
    let answer = Answer::Joined { bytes: whole.table.clone(), count: whole.count, line: last as i32 };
    let (mut at, mut line, mut placed) = (0, i64::from(whole.first_line), 0);
    loop {
        let (front, back) = whole.table.split_at(at);
        let a = Block { table: front.to_vec(), first_line: whole.first_line, count: placed };
        let b = Block { table: back.to_vec(), first_line: line as i32, count: whole.count - placed };
        let left = check_line(&a, &Answer::Told { whole: true, line: line as i32 });
        let again = left.and_then(|()| check_join(&a, &b, whole.table.len(), &answer));
        tally.count("splits at an entry, joined again byte for byte", again);
        let next = if back.is_empty() { None } else { entry(&whole.table, at, line) };
        let Some(next) = next else { break };
        (at, line, placed) = (next.end, next.line, placed + next.instructions as u32);
    }
    let split = if at == whole.table.len() { Ok(()) } else { Err(format!("not split beyond {at}: {table:?}")) };
    tally.count("tables, each split at every entry", split);
}

#[cfg(carried)]
mod beside_the_rust {
    //! The Rust's locations of the joined bytes: those of the first table, then those of the second, and the port's.
    use super::{Answer, Ask, Block, FEW, Tally, linetable};
    use crate::linetable::{Answer as Shown, LineTables};
    use crate::subject::{Carried, held};

    pub fn compare(tally: &mut Tally, ask: &Ask, answer: &Answer) {
        if let (Ask::Join { a, b, .. }, Answer::Joined { bytes, count, .. }) = (ask, answer)
            && *count <= FEW
        {
            let both = Block { table: bytes.clone(), first_line: a.first_line, count: *count };
            tally.count(
                "rust: its locations of both are those of the first, then those of the second",
                alike(a, b, &both),
            );
        }
    }

    fn alike(a: &Block, b: &Block, both: &Block) -> Result<(), String> {
        let asked = |block: &Block| {
            let Block { table, first_line, count } = block.clone();
            linetable::Ask { table, first_line, count }
        };
        let shown = |block: &Block| match LineTables::by_the_rust(&asked(block)) {
            Shown::Accepted { records, .. } => Ok(records),
            _ => Err(format!("the Rust does not read {block:?}")),
        };
        if shown(both)? != [shown(a)?, shown(b)?].concat() {
            return Err(format!("the Rust shows other locations of {both:?}"));
        }
        held::<LineTables>(&asked(both), &LineTables::by_the_rust(&asked(both)))
    }
}
