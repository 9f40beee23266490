//! Line tables by piece: each call held to a model that reads the joined bytes anew, by the complete entries alone before the end;
//! whether an entry is lost is found there by trying continuations. The end is held to `sill_locate` of the joined table.
use crate::lent::{Lent, Part};
use crate::linetable::{self, locate};
use crate::random::Random;
use crate::salvage;
use crate::sources::entry;
use crate::subject::{Subject, held};
use crate::tally::Tally;
use crate::text::{hex, of_hex, of_runs, runs};
use sillgarland_sys::{self as sys, Located, Location, refusals};

/// How many numbers a state has.
const STATE: usize = 40;

#[derive(Clone, Debug, PartialEq, Eq)]
pub enum Call {
    Begin,
    Piece(Vec<u8>),
    End,
}

#[derive(Clone, Debug)]
pub struct Ask {
    pub first_line: i32,
    pub count: u32,
    /// How many numbers of records are lent at every call.
    pub len: usize,
    pub calls: Vec<Call>,
}

/// What a call answers, and the records after it.
#[derive(Debug, PartialEq, Eq)]
pub struct Told {
    answer: [u32; 4],
    records: Vec<Location>,
}

pub struct Pieces;

impl Subject for Pieces {
    const NAME: &'static str = "pieces";
    type Ask = Ask;
    type Answer = Vec<Told>;

    fn class(ask: &Ask, answer: &Vec<Told>) -> &'static str {
        let refused = |number| answer.iter().position(|told| told.answer[0] == number);
        match (refused(refusals::NUMBER_RANGE), refused(refusals::NO_ROOM)) {
            (Some(at), _) if ask.calls[at] == Call::End => "refused by the end alone",
            (Some(_), _) => "refused by a piece",
            (_, Some(_)) => "no room",
            _ if answer.iter().any(|told| told.answer[3] == 1) => "read, and whole",
            _ => "read, and not whole",
        }
    }

    fn check(ask: &Ask, answer: &Vec<Told>) -> Result<(), String> {
        let (mut state, mut records) = (Lent::<u32>::new(STATE), Lent::<u32>::new(ask.len));
        for (at, (call, told)) in ask.calls.iter().zip(answer).enumerate() {
            let answered = ask_port(ask, call, &mut state, &mut records);
            let [refusal, place, from_entries, whole] = told.answer;
            let expected = Located { refusal, place, from_entries, whole };
            if answered != expected {
                return Err(format!("call {at}: {answered:?} and not {expected:?}"));
            }
            let numbers: Vec<u32> =
                told.records.iter().flat_map(|r| [r.line, r.column, r.end_line, r.end_column]).collect();
            records.holds(&format!("records after call {at}"), &numbers)?;
        }
        Ok(())
    }

    fn row(ask: &Ask, answer: &Vec<Told>) -> String {
        let call = |call: &Call| match call {
            Call::Begin => "begin".to_string(),
            Call::Piece(bytes) => hex(bytes),
            Call::End => "end".to_string(),
        };
        let told = |told: &Told| format!("{}={}", told.answer.map(|n| n.to_string()).join(":"), runs(&told.records));
        let calls = ask.calls.iter().zip(answer).map(|(c, t)| format!(" {}={}", call(c), told(t)));
        format!("pieces {} {} {}{}", ask.first_line, ask.count, ask.len, calls.collect::<String>())
    }

    fn of_row(row: &str) -> Option<(Ask, Vec<Told>)> {
        let ["pieces", first_line, count, len, rest @ ..] = &row.split(' ').collect::<Vec<_>>()[..] else {
            return None;
        };
        let (mut calls, mut answer) = (Vec::new(), Vec::new());
        for call in rest {
            let [call, told, records] = call.split('=').collect::<Vec<_>>()[..] else {
                return None;
            };
            calls.push(match call {
                "begin" => Call::Begin,
                "end" => Call::End,
                piece => Call::Piece(of_hex(piece)?),
            });
            let told: Vec<u32> = told.split(':').map(str::parse).collect::<Result<_, _>>().ok()?;
            answer.push(Told { answer: told.try_into().ok()?, records: of_runs(records)? });
        }
        let (first_line, count) = (first_line.parse().ok()?, count.parse().ok()?);
        Some((Ask { first_line, count, len: len.parse().ok()?, calls }, answer))
    }
}

fn ask_port(ask: &Ask, call: &Call, state: &mut Lent<u32>, records: &mut Lent<u32>) -> Located {
    let (s, s_len, r, r_len) = (state.pointer(), state.len(), records.pointer(), records.len());
    // SAFETY: state and records, and the piece's bytes, are lent for their lengths.
    unsafe {
        match call {
            Call::Begin => sys::sill_locate_begin(ask.first_line, ask.count, s, s_len, r, r_len),
            Call::Piece(bytes) => {
                let part = Part::new(bytes);
                sys::sill_locate_piece(part.bytes().as_ptr(), part.bytes().len(), s, s_len, r, r_len)
            }
            Call::End => sys::sill_locate_end(s, s_len, r, r_len),
        }
    }
}

// ---- the model

/// Whether no continuation is read: none of no bytes, or of some that go on and one that ends a number.
fn is_lost(held: &[u8], line: i64) -> bool {
    let heals = |more: &[u8]| entry(&[held, more].concat(), 0, line).is_some();
    let ends = |j: usize| (0..64).any(|last| heals(&[&[0x40; 6][..j], &[last]].concat()));
    !heals(&[]) && !(0..6).any(ends)
}

/// What complete entries place of the bytes so far; or the place of an entry that is lost.
fn so_far(ask: &Ask, bytes: &[u8]) -> Result<(usize, usize), usize> {
    let (mut at, mut line, mut placed) = (0, i64::from(ask.first_line), 0);
    while placed < ask.count as usize && bytes.get(at).is_some_and(|head| *head >= 0x80) {
        match entry(bytes, at, line) {
            None if is_lost(&bytes[at..], line) => return Err(at),
            None => break,
            Some(entry) if entry.is_cut() => break,
            Some(entry) => {
                placed += entry.instructions;
                (at, line) = (entry.end, entry.line);
            }
        }
    }
    Ok((placed.min(ask.count as usize), at))
}

fn located(ask: &Ask, bytes: &[u8]) -> Told {
    let lines = linetable::Ask { table: bytes.to_vec(), first_line: ask.first_line, count: ask.count };
    let (told, records) = locate(&lines, &Part::new(bytes), 4 * ask.count as usize);
    let records = if told.refusal == refusals::ACCEPTED { shown(records.cells()) } else { Vec::new() };
    Told { answer: [told.refusal, told.place, told.from_entries, told.whole], records }
}

fn shown(numbers: &[u32]) -> Vec<Location> {
    let record = |n: &[u32; 4]| Location { line: n[0], column: n[1], end_line: n[2], end_column: n[3] };
    numbers.as_chunks::<4>().0.iter().map(record).collect()
}

fn refused(number: u32, place: usize) -> Told {
    Told { answer: [number, place as u32, 0, 0], records: Vec::new() }
}

pub fn by_the_model(ask: &Ask) -> Vec<Told> {
    let (mut bytes, mut stuck, mut ended) = (Vec::new(), None, true);
    let mut tell = |call: &Call| {
        if *call == Call::Begin {
            (bytes, stuck, ended) = (Vec::new(), None, false);
            if ask.len / 4 < ask.count as usize {
                stuck = Some((refusals::NO_ROOM, ask.len / 4));
            }
        }
        if let Call::Piece(piece) = call {
            bytes.extend(piece);
        }
        if ended {
            return refused(refusals::ALREADY_ENDED, 0);
        }
        if stuck.is_none() && bytes.len() > refusals::MOST_BYTES as usize {
            stuck = Some((refusals::INPUT_TOO_LONG, 0));
        }
        let told = match so_far(ask, &bytes) {
            _ if stuck.is_some() => Told { answer: [0; 4], records: Vec::new() },
            _ if *call == Call::End => located(ask, &bytes),
            Err(place) => refused(refusals::NUMBER_RANGE, place),
            Ok((placed, at)) => {
                let mut told = located(ask, &bytes[..at]);
                told.records.truncate(placed);
                Told { answer: [0, 0, placed as u32, 0], ..told }
            }
        };
        if told.answer[0] != refusals::ACCEPTED {
            stuck = Some((told.answer[0], told.answer[1] as usize));
        }
        ended = stuck.is_none() && *call == Call::End;
        stuck.map_or(told, |(number, place)| refused(number, place))
    };
    ask.calls.iter().map(&mut tell).collect()
}

// ---- the questions

/// A random table cut at random places, with empty pieces among them, and calls behind the end.
pub fn random_ask(random: &mut Random) -> Ask {
    let salvage::Ask { table, first_line, count, .. } = salvage::random_ask(random);
    let mut cuts: Vec<usize> = (0..random.below(5)).map(|_| random.below(table.len() + 1)).collect();
    cuts.sort_unstable();
    let len = 4 * count as usize + [0, 0, 0, 3, 5][random.below(5)];
    let short = usize::from(random.below(16) == 0);
    asked(&table, &cuts, first_line, count, len.saturating_sub(short))
}

fn asked(table: &[u8], cuts: &[usize], first_line: i32, count: u32, len: usize) -> Ask {
    let mut calls = vec![Call::Begin];
    let mut from = 0;
    for to in cuts.iter().copied().chain([table.len()]) {
        calls.push(Call::Piece(table[from..to].to_vec()));
        from = to;
    }
    calls.extend([Call::End, Call::Piece(vec![0xF8]), Call::End]);
    Ask { first_line, count, len, calls }
}

/// Random tables under the model; short ones in every cutting into two and three pieces; each way in which an entry is lost.
pub fn hold(seed: u64, random: usize) -> bool {
    let mut tally = Tally::new("pieces");
    let mut source = Random::new(seed);
    for _ in 0..random {
        let ask = random_ask(&mut source);
        let answer = by_the_model(&ask);
        tally.count(Pieces::class(&ask, &answer), held::<Pieces>(&ask, &answer));
    }
    for _ in 0..random / 100 {
        let salvage::Ask { table, first_line, count, .. } = salvage::random_ask(&mut source);
        hold_cuttings(&mut tally, &table[..table.len().min(24)], first_line, count);
    }
    for (table, first_line, at) in lost_ways() {
        tally.count("ways to be lost, each in its call", hold_lost(&table, first_line, at));
    }
    tally.finish()
}

fn hold_cuttings(tally: &mut Tally, table: &[u8], first_line: i32, count: u32) {
    for a in 0..=table.len() {
        for b in a..=table.len() {
            let ask = asked(table, &[a, b], first_line, count, 4 * count as usize);
            tally.count("cuttings into three, the end as of the joined table", hold_end(&ask, table));
        }
    }
}

/// The end's answer and records are those of the joined table; a refusal may have come before, and is the same.
fn hold_end(ask: &Ask, table: &[u8]) -> Result<(), String> {
    let (mut state, mut records) = (Lent::<u32>::new(STATE), Lent::<u32>::new(ask.len));
    let mut last = None;
    for call in ask.calls.iter().take_while(|call| **call != Call::End).chain([&Call::End]) {
        last = Some(ask_port(ask, call, &mut state, &mut records));
    }
    let lines = linetable::Ask { table: table.to_vec(), first_line: ask.first_line, count: ask.count };
    let (told, joined) = locate(&lines, &Part::new(table), ask.len);
    if last != Some(told) || joined.cells() != records.cells() {
        return Err(format!("{ask:?}: {last:?} and not {told:?}"));
    }
    Ok(())
}

/// The smallest table for each way in which an entry is lost, its first line, and the byte in whose call the 18 comes.
fn lost_ways() -> Vec<(Vec<u8>, i32, usize)> {
    let more = |bytes: &[u8], times: usize, last: &[u8]| [bytes, &vec![0x40; times], last].concat();
    vec![
        (vec![0xD8, 0x00, 0x00], i32::MAX, 0),
        (vec![0xE0, 0x00, 0x00], i32::MAX - 1, 0),
        (vec![0xE8, 0x42, 0x00], i32::MAX, 1),
        (vec![0xE8, 0x43, 0x00], i32::MIN, 1),
        (vec![0xF0, 0x42, 0x00, 0x00, 0x00, 0x00], i32::MAX, 1),
        (more(&[0xE8], 5, &[0x04]), 1, 6),
        (more(&[0xE8], 6, &[0x00]), 1, 7),
        (more(&[0xF0, 0x00], 5, &[0x04]), 1, 7),
        (more(&[0xF0, 0x00, 0x00], 5, &[0x04]), 1, 8),
        (more(&[0xF0, 0x00, 0x00, 0x00], 6, &[0x00]), 1, 10),
        (vec![0xF0, 0x00, 0x05, 0x00, 0x00], i32::MAX, 2),
        (more(&[0xF0, 0x00, 0x45], 5, &[0x00]), i32::MAX, 7),
    ]
}

/// Byte by byte: accepted before the byte, 18 at the entry in its call.
fn hold_lost(table: &[u8], first_line: i32, at: usize) -> Result<(), String> {
    let ask = Ask { first_line, count: 1, len: 4, calls: Vec::new() };
    let (mut state, mut records) = (Lent::<u32>::new(STATE), Lent::<u32>::new(4));
    ask_port(&ask, &Call::Begin, &mut state, &mut records);
    for (i, byte) in table.iter().enumerate() {
        let told = ask_port(&ask, &Call::Piece(vec![*byte]), &mut state, &mut records);
        let expected = if i < at { refusals::ACCEPTED } else { refusals::NUMBER_RANGE };
        if told.refusal != expected {
            return Err(format!("{} from line {first_line}: byte {i} answers {told:?}", hex(table)));
        }
    }
    Ok(())
}

/// A table byte by byte: the end as of the joined table.
pub fn hold_bytes(tally: &mut Tally, table: &linetable::Ask) {
    let cuts: Vec<usize> = (1..table.table.len()).collect();
    let ask = asked(&table.table, &cuts, table.first_line, table.count, 4 * table.count as usize);
    tally.count("code objects byte by byte, the end as of the joined table", hold_end(&ask, &table.table));
}
