//! The bytes of nodes: of every node of a reading, where they begin and end and whether they stand alone by a reading that notes its
//! references, and the bytes themselves, their indices lowered, through the reader again; and of stores that no reading made, by a model
//! of the question.
use crate::hostile;
use crate::lent::{Lent, Part};
use crate::plain::{End, Met, Plain};
use crate::random::Random;
use crate::read::{Ask, LONGEST_TEXT};
use crate::reading::{Held, NODE_WIDTH, Shown, ample, read};
use crate::record::kind_of;
use crate::subject::{Subject, held};
use crate::tally::Tally;
use crate::text::{hex, numbers, of_hex, of_numbers};
use sillgarland_sys::refusals::{self, ACCEPTED, BAD_TABLE, INPUT_TOO_LONG, MOST_BYTES, MOST_RECORDS};
use sillgarland_sys::{Span, sill_span};

pub struct SpanAsk {
    pub input: Vec<u8>,
    pub nodes: Vec<u32>,
    pub entries: Vec<u32>,
    pub used: [u32; 2],
    pub node: u32,
}

pub struct Spans;

/// How many nodes of one value are asked about.
const MOST_ASKED: usize = 2_000;

impl Subject for Spans {
    const NAME: &'static str = "span";
    type Ask = SpanAsk;
    type Answer = Span;

    fn class(_: &SpanAsk, answer: &Span) -> &'static str {
        match (answer.refusal, answer.closed) {
            (ACCEPTED, 1) => "spans that stand alone",
            (ACCEPTED, _) => "spans that do not",
            _ => "refused",
        }
    }

    fn check(ask: &SpanAsk, expected: &Span) -> Result<(), String> {
        let (part, nodes, entries) = (Part::new(&ask.input), Lent::of(&ask.nodes), Lent::of(&ask.entries));
        let answered = span(part.bytes(), nodes.cells(), entries.cells(), ask.used, ask.node);
        if answered == *expected { Ok(()) } else { Err(format!("{answered:?} and not {expected:?}")) }
    }

    fn row(ask: &SpanAsk, answer: &Span) -> String {
        let SpanAsk { input, nodes, entries, used, node } = ask;
        let asked = format!("span {} {} {} {} {node}", hex(input), numbers(nodes), numbers(entries), numbers(used));
        match answer.refusal {
            ACCEPTED => format!("{asked} {}:{}:{}:{}", answer.start, answer.end, answer.closed, answer.slots_before),
            number => format!("{asked} refused {number} {}", answer.place),
        }
    }

    fn of_row(row: &str) -> Option<(SpanAsk, Span)> {
        let ["span", input, nodes, entries, used, node, rest @ ..] = &row.split(' ').collect::<Vec<_>>()[..] else {
            return None;
        };
        let [nodes, entries, used] = [nodes, entries, used].map(|store| of_numbers(store));
        let used = used?.try_into().ok()?;
        let ask = SpanAsk { input: of_hex(input)?, nodes: nodes?, entries: entries?, used, node: node.parse().ok()? };
        let answer = match rest {
            ["refused", number, place] => refused(number.parse().ok()?, place.parse().ok()?),
            [told] => {
                let told: Vec<u32> = told.split(':').map(|word| word.parse().ok()).collect::<Option<_>>()?;
                let [start, end, closed, slots_before] = told[..] else { return None };
                Span { refusal: ACCEPTED, place: 0, start, end, closed, slots_before }
            }
            _ => return None,
        };
        Some((ask, answer))
    }
}

fn refused(refusal: u32, place: u32) -> Span {
    Span { refusal, place, start: 0, end: 0, closed: 0, slots_before: 0 }
}

fn span(input: &[u8], nodes: &[u32], entries: &[u32], used: [u32; 2], node: u32) -> Span {
    let [used_nodes, used_entries] = used;
    // SAFETY: input and stores are lent for their lengths.
    unsafe {
        let (input, len) = (input.as_ptr(), input.len());
        let (entries, entries_len) = (entries.as_ptr(), entries.len());
        sill_span(input, len, nodes.as_ptr(), nodes.len(), entries, entries_len, used_nodes, used_entries, node)
    }
}

/// Readings, and stores that no reading made.
pub fn hold(seed: u64, asks: impl Iterator<Item = Ask>, damaged: usize) -> bool {
    let mut tally = Tally::new("spans");
    for ask in asks {
        of_reading(&mut tally, &ask.input);
    }
    of_any_stores(&mut tally, |class| class, seed, damaged);
    tally.finish()
}

/// Every node of a reading, if it is one.
pub fn of_reading(tally: &mut Tally, input: &[u8]) {
    let plain = Plain::of(input);
    let End::Read { consumed } = plain.end else { return };
    let part = Part::new(input);
    let reading = read(&part, u32::MAX, ample(input));
    if reading.answer.refusal != ACCEPTED {
        return; // nested deeper than is allowed
    }
    let held = Held { input: part.bytes(), reading: &reading };
    // The question looks at every node: of a long value so many are asked about.
    for node in (0..reading.answer.nodes).step_by(1 + reading.answer.nodes as usize / MOST_ASKED) {
        let (class, outcome) = of_node(&held, &plain.met, consumed, node);
        let outcome = outcome.map_err(|fault| format!("node {node} of {}: {fault}", hex(&input[..consumed])));
        tally.count(class, outcome);
    }
}

fn of_node(held: &Held, met: &Met, consumed: usize, node: u32) -> (&'static str, Result<(), String>) {
    let [nodes, entries, _] = held.reading.stores.each_ref().map(|store| store.cells());
    let answered = span(held.input, nodes, entries, [held.reading.answer.nodes, held.reading.answer.entries], node);
    let start = met.headers[node as usize];
    let end = held.node(node).map_or(0, |node| node.end);
    let inside = |place: &usize| (start..end).contains(place);
    let before = met.reserved.iter().filter(|place| **place < start).count();
    let own = met.reserved.iter().filter(|place| inside(place)).count();
    let references: Vec<(usize, u32)> = met.references.iter().copied().filter(|(at, _)| inside(at)).collect();
    let closed = references.iter().all(|(_, index)| (before..before + own).contains(&(*index as usize)));
    let [from, to, slots_before] = [start, end, before].map(|number| number as u32);
    let expected = Span { refusal: ACCEPTED, place: 0, start: from, end: to, closed: closed.into(), slots_before };
    if answered != expected {
        return ("nodes of readings", Err(format!("{answered:?} and not {expected:?}")));
    }
    if node == 0 && (start, end) != (0, consumed) {
        return ("nodes of readings", Err(format!("the root takes {start} to {end} of {consumed}")));
    }
    if !closed {
        return ("nodes of readings that do not stand alone", Ok(()));
    }
    let mut alone = held.input[start..end].to_vec();
    for (at, index) in references {
        alone[at - start + 1..][..4].copy_from_slice(&(index - slots_before).to_le_bytes());
    }
    ("nodes of readings, alone through the reader again", reads_the_same(held, node, &alone))
}

/// The bytes alone are a value of all of them, and the same as the node's.
fn reads_the_same(held: &Held, node: u32, alone: &[u8]) -> Result<(), String> {
    let part = Part::new(alone);
    let reading = read(&part, u32::MAX, ample(alone));
    if (reading.answer.refusal, reading.answer.consumed as usize) != (ACCEPTED, alone.len()) {
        return Err(format!("alone {}: {:?}", hex(alone), reading.answer));
    }
    let again = Held { input: part.bytes(), reading: &reading };
    let [one, other] = [held.text_of(node, Shown::AsStored, LONGEST_TEXT)?, again.text(Shown::AsStored, LONGEST_TEXT)?];
    if one == other { Ok(()) } else { Err(format!("alone it is {other} and not {one}")) }
}

/// Stores with records, chains and counts changed, and every answer by the model.
pub fn of_any_stores(tally: &mut Tally, counted: fn(&'static str) -> &'static str, seed: u64, count: usize) {
    let mut random = Random::new(seed);
    for case in hostile::cases(&mut random, seed + 1, count) {
        let ask =
            SpanAsk { input: case.input, nodes: case.nodes, entries: case.entries, used: case.used, node: case.root };
        let answer = by_the_model(&ask);
        tally.count(counted(Spans::class(&ask, &answer)), held::<Spans>(&ask, &answer));
    }
}

/// What stands before a node's place: its header, and of strings and bytes the length.
fn lead(letter: u32) -> usize {
    match u8::try_from(letter) {
        Ok(b's' | b'u' | b't' | b'a' | b'A') => 5,
        Ok(b'z' | b'Z') => 2,
        _ => 1,
    }
}

pub fn by_the_model(ask: &SpanAsk) -> Span {
    let SpanAsk { input, nodes, entries, used, node } = ask;
    if input.len() > MOST_BYTES as usize {
        return refused(INPUT_TOO_LONG, 0);
    }
    let most = |used: u32, len: usize| (used as usize).min(len).min(MOST_RECORDS as usize);
    let records: Vec<&[u32]> = nodes.chunks_exact(NODE_WIDTH).take(most(used[0], nodes.len() / NODE_WIDTH)).collect();
    let links: Vec<&[u32]> = entries.chunks_exact(2).take(most(used[1], entries.len() / 2)).collect();
    let Some(record) = records.get(*node as usize).filter(|record| kind_of(input, record).is_some()) else {
        return refused(BAD_TABLE, *node);
    };
    let [letter, place, size, end] = [0, 1, 2, 5].map(|cell| record[cell] as usize);
    let own = size + if letter == usize::from(b'c') { 4 } else { 0 };
    if place < lead(record[0]) || end < place + own || end > input.len() {
        return refused(BAD_TABLE, *node);
    }
    // Those of another input stand nowhere in this one.
    let header_of =
        |other: &&[u32]| (other[6] == record[6]).then(|| (other[1] as usize).saturating_sub(lead(other[0])));
    let headers: Vec<Option<usize>> = records.iter().map(header_of).collect();
    let (start, mut steps, mut closed) = (place - lead(record[0]), links.len(), true);
    let inside = |header: &Option<usize>| header.is_some_and(|header| (start..end).contains(&header));
    for (number, record) in records.iter().enumerate().filter(|(number, _)| inside(&headers[*number])) {
        let (mut entry, count) = (record[3] as usize, record[4] as usize);
        if count > steps {
            return refused(BAD_TABLE, number as u32);
        }
        steps -= count;
        for _ in 0..count {
            let child = links.get(entry).and_then(|link| headers.get(link[0] as usize));
            let Some(child) = child else { return refused(BAD_TABLE, number as u32) };
            closed &= inside(child);
            entry = links[entry][1] as usize;
        }
    }
    let flagged = |header: &usize| *header < start && input.get(*header).is_some_and(|byte| *byte >= 0x80);
    let slots_before = headers.iter().flatten().filter(|header| flagged(header)).count() as u32;
    let [start, end] = [start, end].map(|place| place as u32);
    Span { refusal: refusals::ACCEPTED, place: 0, start, end, closed: closed.into(), slots_before }
}
