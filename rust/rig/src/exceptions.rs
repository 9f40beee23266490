//! Exception tables (document 02, K1), held to a model of its own, to what is promised of every table, and, where the carried
//! Rust is there, to its two functions: what it answers otherwise is told by the listed differences, entry by entry.
use crate::lent::{Lent, Part};
use crate::random::Random;
use crate::shares;
use crate::subject::{Subject, held};
use crate::text::{hex, numbers, of_hex, of_numbers};
use sillgarland_sys::{self as sys, Exceptions as Read, Written, refusals};

#[derive(Clone, Debug)]
pub enum Ask {
    /// A table to read, and how many numbers are lent for its entries.
    Read { table: Vec<u8>, len: usize },
    /// Numbers to write, five an entry, and how many bytes are lent for the table.
    Write { entries: Vec<u32>, room: usize },
}

#[derive(Debug, PartialEq, Eq)]
pub enum Answer {
    Refused { number: u32, place: u32 },
    Entries(Vec<u32>),
    Bytes(Vec<u8>),
}

pub struct Exceptions;

impl Subject for Exceptions {
    const NAME: &'static str = "exceptions";
    type Ask = Ask;
    type Answer = Answer;

    fn class(ask: &Ask, answer: &Answer) -> &'static str {
        match (ask, answer) {
            (_, Answer::Entries(_)) => "tables read",
            (_, Answer::Bytes(_)) => "tables written",
            (Ask::Read { .. }, Answer::Refused { number: refusals::NO_MARKER, .. }) => "read: no marker",
            (Ask::Read { .. }, Answer::Refused { number: refusals::DATA_TOO_SHORT, .. }) => "read: cut",
            (Ask::Read { .. }, Answer::Refused { number: refusals::NUMBER_RANGE, .. }) => "read: 2^32 or more",
            (Ask::Read { .. }, Answer::Refused { number: refusals::NO_ROOM, .. }) => "read: no room",
            (Ask::Read { .. }, Answer::Refused { .. }) => "read: above 16 MiB",
            (Ask::Write { .. }, Answer::Refused { number: refusals::NO_ROOM, .. }) => "written: no room",
            (Ask::Write { .. }, Answer::Refused { .. }) => "written: a depth or bit that no table has",
        }
    }

    fn check(ask: &Ask, answer: &Answer) -> Result<(), String> {
        match ask {
            Ask::Read { table, len } => {
                check_read(&Part::new(table), *len, answer)?;
                check_other_rooms(table)?;
                if let Answer::Entries(entries) = answer { check_written_back(table, entries) } else { Ok(()) }
            }
            Ask::Write { entries, room } => {
                check_write(entries, *room, answer)?;
                if let Answer::Bytes(bytes) = answer { check_read_back(entries, bytes) } else { Ok(()) }
            }
        }
    }

    fn row(ask: &Ask, answer: &Answer) -> String {
        let asked = match ask {
            Ask::Read { table, len } => format!("read {} {len}", hex(table)),
            Ask::Write { entries, room } => format!("write {} {room}", numbers(entries)),
        };
        match answer {
            Answer::Refused { number, place } => format!("{asked} refused {number} {place}"),
            Answer::Entries(entries) => format!("{asked} {}", numbers(entries)),
            Answer::Bytes(bytes) => format!("{asked} {}", hex(bytes)),
        }
    }

    fn of_row(row: &str) -> Option<(Ask, Answer)> {
        let [name, from, room, rest @ ..] = &row.split(' ').collect::<Vec<_>>()[..] else { return None };
        let room = room.parse().ok()?;
        let ask = match *name {
            "read" => Ask::Read { table: of_hex(from)?, len: room },
            "write" => Ask::Write { entries: of_numbers(from)?, room },
            _ => return None,
        };
        let answer = match (&ask, rest) {
            (_, ["refused", number, place]) => {
                Answer::Refused { number: number.parse().ok()?, place: place.parse().ok()? }
            }
            (Ask::Read { .. }, [entries]) => Answer::Entries(of_numbers(entries)?),
            (Ask::Write { .. }, [bytes]) => Answer::Bytes(of_hex(bytes)?),
            _ => return None,
        };
        Some((ask, answer))
    }
}

fn check_read(part: &Part, len: usize, answer: &Answer) -> Result<(), String> {
    let (table, mut entries) = (part.bytes(), Lent::<u32>::new(len));
    // SAFETY: table and entries are lent for the lengths given.
    let read = unsafe { sys::sill_read_exceptions(table.as_ptr(), table.len(), entries.pointer(), entries.len()) };
    let (expected, filled) = match answer {
        Answer::Entries(all) => (Read { refusal: refusals::ACCEPTED, place: 0, count: all.len() as u32 / 5 }, &all[..]),
        Answer::Refused { number, place } => (Read { refusal: *number, place: *place, count: 0 }, &[][..]),
        Answer::Bytes(_) => return Err("bytes are no answer to a reading".to_string()),
    };
    if read != expected {
        return Err(format!("with {len} numbers: {read:?} and not {expected:?}"));
    }
    entries.holds("entries", filled)
}

fn check_write(entries: &[u32], room: usize, answer: &Answer) -> Result<(), String> {
    let (entries, mut out) = (Lent::of(entries), Lent::<u8>::new(room));
    let from = entries.cells();
    // SAFETY: entries and output are lent for the lengths given.
    let written = unsafe { sys::sill_write_exceptions(from.as_ptr(), from.len(), out.pointer(), out.len()) };
    let (expected, filled) = match answer {
        Answer::Bytes(all) => (Written { refusal: refusals::ACCEPTED, place: 0, written: all.len() as u32 }, &all[..]),
        Answer::Refused { number, place } => (Written { refusal: *number, place: *place, written: 0 }, &[][..]),
        Answer::Entries(_) => return Err("entries are no answer to a writing".to_string()),
    };
    if written != expected {
        return Err(format!("with {room} bytes: {written:?} and not {expected:?}"));
    }
    out.holds("out", filled)
}

/// Every room up to one entry more than there are, some with a remainder; of a long table the last few.
fn check_other_rooms(table: &[u8]) -> Result<(), String> {
    let before = entries_before_the_end(table).0.len() / 5;
    for capacity in before.saturating_sub(3)..=before + 1 {
        let len = 5 * capacity + capacity % 5;
        check_read(&Part::new(table), len, &read_by_the_model(table, len))?;
    }
    Ok(())
}

/// "Write the same entries back in shortest form": no longer than they stood, the same entries again, and then the same bytes.
fn check_written_back(table: &[u8], entries: &[u32]) -> Result<(), String> {
    let bytes = bytes_of(entries);
    if bytes.len() > table.len() {
        return Err(format!("{entries:?} take {} bytes, and stood in {}", bytes.len(), table.len()));
    }
    for room in [bytes.len(), table.len() + 3] {
        check_write(entries, room, &Answer::Bytes(bytes.clone()))?;
    }
    check_short_of(entries, bytes.len())?;
    check_read(&Part::new(&bytes), entries.len(), &Answer::Entries(entries.to_vec()))
}

/// "a written table reads as the same entries".
fn check_read_back(entries: &[u32], bytes: &[u8]) -> Result<(), String> {
    let whole = &entries[..entries.len() / 5 * 5];
    check_short_of(entries, bytes.len())?;
    check_read(&Part::new(bytes), whole.len(), &Answer::Entries(whole.to_vec()))
}

fn check_short_of(entries: &[u32], written: usize) -> Result<(), String> {
    match written.checked_sub(1) {
        None => Ok(()),
        Some(room) => check_write(entries, room, &Answer::Refused { number: refusals::NO_ROOM, place: room as u32 }),
    }
}

// ---- the model, from the sentences of document 02

/// A refusal's number and place.
type Refused = (u32, usize);

/// "four big-endian varints an entry"; "cut 2, and a whole number of 2^32 or more 18, each at the number's start".
fn number(table: &[u8], start: usize) -> Result<(u32, usize), Refused> {
    let mut value = 0_u64;
    for (at, byte) in table.iter().enumerate().skip(start) {
        value = (value << 6 | u64::from(byte & 0x3F)).min(1 << 32);
        if byte & 0x40 == 0 {
            return u32::try_from(value).map(|value| (value, at + 1)).map_err(|_| (refusals::NUMBER_RANGE, start));
        }
    }
    Err((refusals::DATA_TOO_SHORT, start))
}

/// "start, length, target, depth x 2 plus the last-instruction bit", "the first with the start marker".
fn entry(table: &[u8], start: usize) -> Result<([u32; 5], usize), Refused> {
    if table[start] & 0x80 == 0 {
        return Err((refusals::NO_MARKER, start));
    }
    let (first, at) = number(table, start)?;
    let (length, at) = number(table, at)?;
    let (target, at) = number(table, at)?;
    let (code, at) = number(table, at)?;
    Ok(([first, length, target, code / 2, code % 2], at))
}

/// The entries before the table ends or one is refused, where that is, and the refusal.
fn entries_before_the_end(table: &[u8]) -> (Vec<u32>, usize, Option<Refused>) {
    let (mut entries, mut at) = (Vec::new(), 0);
    while at < table.len() {
        match entry(table, at) {
            Ok((numbers, next)) => (entries.extend(numbers), at = next).1,
            Err(refused) => return (entries, at, Some(refused)),
        }
    }
    (entries, at, None)
}

/// "each read whole before its room is tested".
fn read_by_the_model(table: &[u8], len: usize) -> Answer {
    if table.len() > refusals::MOST_BYTES as usize {
        return Answer::Refused { number: refusals::INPUT_TOO_LONG, place: 0 };
    }
    let (entries, _, refused) = entries_before_the_end(table);
    let capacity = len / 5;
    if entries.len() / 5 > capacity {
        return Answer::Refused { number: refusals::NO_ROOM, place: capacity as u32 };
    }
    match refused {
        None => Answer::Entries(entries),
        Some((number, place)) => Answer::Refused { number, place: place as u32 },
    }
}

/// A number's groups of six bits, the highest first, without leading zeros.
fn groups(value: u64) -> Vec<u8> {
    let more = if value < 64 { Vec::new() } else { groups(value / 64) };
    let more = more.into_iter().map(|byte| byte | 0x40);
    more.chain([(value % 64) as u8]).collect()
}

/// Entries that a table can have, as its bytes.
fn bytes_of(entries: &[u32]) -> Vec<u8> {
    let mut bytes = Vec::new();
    for entry in entries.as_chunks::<5>().0 {
        let [start, length, target, depth, last] = entry.map(u64::from);
        let marked = bytes.len();
        bytes.extend([start, length, target, 2 * depth + last].into_iter().flat_map(groups));
        bytes[marked] |= 0x80;
    }
    bytes
}

fn write_by_the_model(entries: &[u32], room: usize) -> Answer {
    let mut used = 0;
    for entry in entries.as_chunks::<5>().0 {
        if entry[3] >= 1 << 31 || entry[4] > 1 {
            return Answer::Refused { number: refusals::NUMBER_RANGE, place: 0 };
        }
        used += bytes_of(entry).len();
        if used > room {
            return Answer::Refused { number: refusals::NO_ROOM, place: room as u32 };
        }
    }
    Answer::Bytes(bytes_of(entries))
}

pub fn by_the_model(ask: &Ask) -> Answer {
    match ask {
        Ask::Read { table, len } => read_by_the_model(table, *len),
        Ask::Write { entries, room } => write_by_the_model(entries, *room),
    }
}

// ---- the questions

/// 32 bytes: each pair of high bits with low bits that are none, few, all, or make 2^32 in the sixth place.
fn wide(symbol: usize) -> u8 {
    let low = [0x00, 0x01, 0x02, 0x03, 0x04, 0x20, 0x3E, 0x3F][symbol % 8];
    (symbol / 8) as u8 * 0x40 + low
}

/// Marked or not, ended or not.
fn narrow(symbol: usize) -> u8 {
    [0x81, 0x01, 0x44, 0xC0][symbol]
}

fn tables_of(len: u32, symbols: usize, of: fn(usize) -> u8) -> impl Iterator<Item = Vec<u8>> {
    (0..symbols.pow(len)).map(move |which| (0..len).map(|place| of(which / symbols.pow(place) % symbols)).collect())
}

fn with_room(table: Vec<u8>) -> Ask {
    Ask::Read { len: 5 * (table.len() / 4) + table.len() % 5, table }
}

/// Every table of up to four bytes of 32 and of up to nine of four.
fn short_asks() -> impl Iterator<Item = Ask> {
    let wide = (0..=4).flat_map(|len| tables_of(len, 32, wide));
    wide.chain((5..=9).flat_map(|len| tables_of(len, 4, narrow))).map(with_room)
}

pub fn random_asks(seed: u64, count: usize) -> impl Iterator<Item = Ask> {
    let mut random = Random::new(seed);
    (0..count).map(move |_| if random.below(3) == 0 { random_write(&mut random) } else { random_read(&mut random) })
}

/// Some entries, some with zero groups ahead of a number; whole, or with a byte changed, cut or put in.
fn random_read(random: &mut Random) -> Ask {
    let mut table = Vec::new();
    for _ in 0..random.below(6) {
        let marked = table.len();
        for _ in 0..4 {
            table.extend(std::iter::repeat_n(0x40, if random.below(12) == 0 { random.below(7) } else { 0 }));
            table.extend(groups(random.word() >> (31 + random.below(33))));
        }
        table[marked] |= 0x80;
    }
    let at = random.below(table.len() + 1);
    match random.below(6) {
        0 => table.truncate(at),
        1 => table.insert(at, random.byte()),
        2 if at < table.len() => table[at] ^= random.one_of(&[0x80, 0x40, 0xC0, 0x01]),
        3 if at < table.len() => table[at] = random.byte(),
        _ => {}
    }
    let len = random.one_of(&[30, 30, 30, 29, 14, 5, 4, 0]);
    Ask::Read { table, len }
}

/// Numbers of every width, most of them such as a table can have; a remainder; more or less room than is needed.
fn random_write(random: &mut Random) -> Ask {
    let mut entries = Vec::new();
    for _ in 0..random.below(6) {
        let depth = random.of_any_width() >> random.one_of(&[1, 1, 1, 1, 16, 0]);
        let last = random.one_of(&[0, 1, 0, 1, 0, 1, 0, 1, 0, 1, 0, 1, 2, u32::MAX]);
        entries.extend([random.of_any_width(), random.of_any_width(), random.of_any_width(), depth, last]);
    }
    entries.extend((0..random.below(5)).map(|_| u32::MAX));
    let room = random.one_of(&[120, 120, 120, 60, 24, 5]);
    Ask::Write { entries, room }
}

/// The smallest inputs of docs/DIFFERENCES.md that are longer than the short tables.
fn listed() -> Vec<Ask> {
    let large = vec![0xC4, 0x40, 0x40, 0x40, 0x40, 0x00, 0x00, 0x00, 0x00];
    let deep = vec![0x80, 0x00, 0x00, 0x60, 0x40, 0x00];
    let far = vec![0xC3, 0x7F, 0x7F, 0x7F, 0x7F, 0x3F, 0x01, 0x00, 0x00];
    [large, deep, far]
        .map(with_room)
        .into_iter()
        .chain([Ask::Write { entries: vec![0, 0, 0, 65_536, 0], room: 6 }])
        .collect()
}

/// The longest table, one byte more, and a number of many zero groups.
fn extremes() -> Vec<Ask> {
    let most = refusals::MOST_BYTES as usize;
    let of = |table: Vec<u8>, len| Ask::Read { table, len };
    let zeros = |len: usize| [&[0xC0], &vec![0x40; len - 2][..], &[0x05]].concat();
    let longest = [0x80, 0, 0, 0].repeat(most / 4);
    vec![
        of(longest.clone(), 5 * (most / 4)),
        of(longest.clone(), 9),
        of([&longest[..], &[0x80]].concat(), 9),
        of([zeros(most - 3), vec![0; 3]].concat(), 5),
        of([zeros(most - 2), vec![0; 2]].concat(), 5),
        of(zeros(most + 1), 0),
    ]
}

/// Holds the port to the model and to the Rust, shared out over the processors.
fn hold_asks<I: Iterator<Item = Ask>>(asks: impl Fn() -> I + Sync) -> bool {
    let tally = shares::tallied("exceptions", |share, tally| {
        for ask in share.cases(asks()) {
            let answer = by_the_model(&ask);
            let outcome = held::<Exceptions>(&ask, &answer);
            #[cfg(carried)]
            match beside_the_rust::compared(&ask, &answer) {
                Ok(class) => tally.count(class, Ok(())),
                Err(difference) => tally.count("", Err(format!("{}; {difference}", Exceptions::row(&ask, &answer)))),
            }
            tally.count(Exceptions::class(&ask, &answer), outcome);
            if !tally.none_failed() {
                share.stop();
            }
        }
    });
    tally.finish()
}

pub fn hold(seed: u64, random: usize) -> bool {
    hold_asks(|| short_asks().chain(random_asks(seed, random)).chain(listed()).chain(extremes()))
}

/// Of one round of the long form.
#[cfg(carried)]
pub fn hold_round(seed: u64, random: usize) -> bool {
    hold_asks(|| random_asks(seed, random))
}

/// A table of CPython's: its entries, and its bytes again where they are written.
pub fn hold_table(table: &[u8], entries: Vec<u32>) -> Result<(), String> {
    let len = entries.len();
    let written = Ask::Write { entries: entries.clone(), room: table.len() };
    let read = Ask::Read { table: table.to_vec(), len };
    held::<Exceptions>(&read, &Answer::Entries(entries))?;
    held::<Exceptions>(&written, &Answer::Bytes(table.to_vec()))
}

#[cfg(carried)]
mod beside_the_rust {
    //! What the carried Rust answers, and which listed difference it is where the port answers otherwise.
    use super::{Answer, Ask, entries_before_the_end, refusals};
    use carried::bytecode::{ExceptionTableEntry, decode_exception_table, encode_exception_table};

    /// The class under which the two are alike, or differ as listed.
    pub fn compared(ask: &Ask, answer: &Answer) -> Result<&'static str, String> {
        match (ask, answer) {
            (Ask::Read { table, .. }, _) => read(table),
            (Ask::Write { entries, .. }, Answer::Bytes(bytes)) => written(entries, bytes),
            (Ask::Write { .. }, _) => Ok("rust: not asked, since it has neither room nor range"),
        }
    }

    /// The entry as the Rust has it: the end beside the start, 16 bits of depth. None where the end is 2^32 or more.
    fn shown([start, length, target, depth, last]: [u32; 5]) -> Option<ExceptionTableEntry> {
        let end = start.checked_add(length)?;
        Some(ExceptionTableEntry::new(start, end, target, depth as u16, last == 1))
    }

    fn alike(a: &ExceptionTableEntry, b: &ExceptionTableEntry) -> bool {
        let of = |e: &ExceptionTableEntry| (e.start, e.end, e.target, e.depth, e.push_lasti);
        of(a) == of(b)
    }

    /// The Rust shows the entries up to the first that is refused or whose end is 2^32 or more; of a number that is cut or too
    /// large it takes what it has, and may go on.
    fn read(table: &[u8]) -> Result<&'static str, String> {
        if table.len() > refusals::MOST_BYTES as usize {
            return Ok("rust: listed difference: a table above 16 MiB is refused");
        }
        let rust = decode_exception_table(table);
        let (entries, _, refused) = entries_before_the_end(table);
        let before: Vec<_> = entries.as_chunks::<5>().0.iter().map_while(|entry| shown(*entry)).collect();
        let starts = rust.len() >= before.len() && rust.iter().zip(&before).all(|(a, b)| alike(a, b));
        let (stopped, deep) =
            (before.len() < entries.len() / 5, entries.iter().skip(3).step_by(5).any(|d| *d > 0xFFFF));
        let more = rust.len() - before.len().min(rust.len());
        let (class, fits) = match refused {
            _ if stopped => ("rust: listed difference: it ends without a word at an end of 2^32 or more", more == 0),
            Some((refusals::NO_MARKER, _)) => {
                ("rust: listed difference: it ends without a word at a missing marker", more == 0)
            }
            Some((refusals::DATA_TOO_SHORT, at)) if at == table.len() => {
                ("rust: listed difference: it ends without a word where a later number is missing", more == 0)
            }
            Some((refusals::DATA_TOO_SHORT, _)) => {
                ("rust: listed difference: it takes what a cut number came to", more <= 1)
            }
            Some(_) => ("rust: listed difference: it drops the high bits of a number of 2^32 or more", true),
            None if deep => ("rust: listed difference: it keeps 16 bits of a depth", more == 0),
            None => ("rust: tables read alike", more == 0),
        };
        if !starts || !fits {
            return Err(format!("the Rust has {rust:?}, and not what is listed: {class}"));
        }
        Ok(class)
    }

    /// Where the Rust can hold the entries, it writes the same bytes.
    fn written(entries: &[u32], bytes: &[u8]) -> Result<&'static str, String> {
        let whole = entries.as_chunks::<5>().0;
        let held: Option<Vec<_>> = whole.iter().map(|entry| shown(*entry).filter(|_| entry[3] <= 0xFFFF)).collect();
        match held.map(|held| encode_exception_table(&held)) {
            None => Ok("rust: listed difference: it cannot hold a depth above 65,535 or an end of 2^32 or more"),
            Some(rust) if *rust == *bytes => Ok("rust: tables written alike"),
            Some(rust) => Err(format!("the Rust writes {rust:02x?}")),
        }
    }
}
