//! Nightly totals (document 02, K14), held to a model of its own that counts each counter by itself in 128 bits, and to what is
//! promised of parts: however answers are cut in two, the sum of the two counts is the count of all.
use crate::lent::Lent;
use crate::random::Random;
use crate::shares;
use crate::subject::{Subject, held};
use crate::text::{hex, numbers, of_hex, of_numbers};
use sillgarland_sys::{self as sys, COUNTERS, Totalled, Written, refusals};

#[derive(Clone, Debug)]
pub enum Ask {
    /// Answers to count behind totals, and how many numbers are lent for the new ones.
    Count { before: Vec<u64>, answers: Vec<u32>, len: usize },
    /// Two totals to add.
    Add { a: Vec<u64>, b: Vec<u64>, len: usize },
    /// Totals to print, and how many bytes are lent.
    Print { totals: Vec<u64>, room: usize },
}

#[derive(Debug, PartialEq, Eq)]
pub enum Answer {
    Refused { number: u32, place: u32 },
    Totals(Vec<u64>),
    Text(Vec<u8>),
}

pub struct NightlyTotals;

impl Subject for NightlyTotals {
    const NAME: &'static str = "totals";
    type Ask = Ask;
    type Answer = Answer;

    fn class(ask: &Ask, answer: &Answer) -> &'static str {
        match (ask, answer) {
            (Ask::Count { .. }, Answer::Totals(_)) => "counted",
            (Ask::Add { .. }, Answer::Totals(_)) => "added",
            (_, Answer::Text(_)) => "printed",
            (Ask::Print { .. }, _) => "printed: no room",
            (_, Answer::Refused { number: refusals::NO_ROOM, .. }) => "fewer than 29 numbers lent",
            (Ask::Count { answers, .. }, _) if answers.iter().any(|answer| *answer > LAST) => "an answer above 26",
            (Ask::Count { .. }, _) => "a count would pass 64 bits",
            (Ask::Add { .. }, _) => "a sum would pass 64 bits",
        }
    }

    fn check(ask: &Ask, answer: &Answer) -> Result<(), String> {
        match ask {
            Ask::Count { before, answers, len } => {
                check_totals(&count(before, answers, *len), answer)?;
                if before.is_empty() && answers.len() <= MOST_CUT { check_parts(answers, *len, answer) } else { Ok(()) }
            }
            Ask::Add { a, b, len } => {
                check_totals(&add(a, b, *len), answer)?;
                check_totals(&add(b, a, *len), answer)
                    .map_err(|difference| format!("the other way round: {difference}"))
            }
            Ask::Print { totals, room } => check_text(totals, *room, answer),
        }
    }

    fn row(ask: &Ask, answer: &Answer) -> String {
        let asked = match ask {
            Ask::Count { before, answers, len } => format!("count {} {} {len}", wide(before), numbers(answers)),
            Ask::Add { a, b, len } => format!("add {} {} {len}", wide(a), wide(b)),
            Ask::Print { totals, room } => format!("print {} - {room}", wide(totals)),
        };
        match answer {
            Answer::Refused { number, place } => format!("{asked} refused {number} {place}"),
            Answer::Totals(totals) => format!("{asked} {}", wide(totals)),
            Answer::Text(text) => format!("{asked} {}", hex(text)),
        }
    }

    fn of_row(row: &str) -> Option<(Ask, Answer)> {
        let [name, one, other, room, rest @ ..] = &row.split(' ').collect::<Vec<_>>()[..] else { return None };
        let room = room.parse().ok()?;
        let ask = match *name {
            "count" => Ask::Count { before: of_wide(one)?, answers: of_numbers(other)?, len: room },
            "add" => Ask::Add { a: of_wide(one)?, b: of_wide(other)?, len: room },
            "print" => Ask::Print { totals: of_wide(one)?, room },
            _ => return None,
        };
        let answer = match (&ask, rest) {
            (_, ["refused", number, place]) => {
                Answer::Refused { number: number.parse().ok()?, place: place.parse().ok()? }
            }
            (Ask::Print { .. }, [text]) => Answer::Text(of_hex(text)?),
            (_, [totals]) => Answer::Totals(of_wide(totals)?),
            _ => return None,
        };
        Some((ask, answer))
    }
}

const LAST: u32 = refusals::VALUE_TOO_LONG;

fn wide(values: &[u64]) -> String {
    if values.is_empty() { "-".into() } else { values.iter().map(u64::to_string).collect::<Vec<_>>().join(",") }
}

fn of_wide(text: &str) -> Option<Vec<u64>> {
    if text == "-" { Some(Vec::new()) } else { text.split(',').map(|number| number.parse().ok()).collect() }
}

// ---- the port

/// What a call answered, and the store that it was lent.
type Counted = (Totalled, Lent<u64>);

fn count(before: &[u64], answers: &[u32], len: usize) -> Counted {
    let (mut before, mut answers, mut after) = (Lent::of(before), Lent::of(answers), Lent::new(len));
    // SAFETY: three stores of their own, each handed on by its pointer and its length.
    let answer = unsafe {
        sys::sill_totals(before.pointer(), before.len(), answers.pointer(), answers.len(), after.pointer(), after.len())
    };
    (answer, after)
}

fn add(a: &[u64], b: &[u64], len: usize) -> Counted {
    let (mut a, mut b, mut sum) = (Lent::of(a), Lent::of(b), Lent::new(len));
    // SAFETY: three stores of their own, each handed on by its pointer and its length.
    let answer = unsafe { sys::sill_add_totals(a.pointer(), a.len(), b.pointer(), b.len(), sum.pointer(), sum.len()) };
    (answer, sum)
}

fn check_totals((told, store): &Counted, answer: &Answer) -> Result<(), String> {
    let (expected, held): (Totalled, &[u64]) = match answer {
        Answer::Refused { number, place } => (Totalled { refusal: *number, place: *place }, &[]),
        Answer::Totals(totals) => (Totalled { refusal: refusals::ACCEPTED, place: 0 }, totals),
        Answer::Text(_) => return Err("a text is no totals".to_string()),
    };
    if *told != expected {
        return Err(format!("{told:?} and not {expected:?}"));
    }
    store.holds("the totals", held)
}

fn check_text(totals: &[u64], room: usize, answer: &Answer) -> Result<(), String> {
    let (mut lent, mut out) = (Lent::of(totals), Lent::<u8>::new(room));
    // SAFETY: two stores of their own, each handed on by its pointer and its length.
    let told = unsafe { sys::sill_print_totals(lent.pointer(), lent.len(), out.pointer(), out.len()) };
    let (expected, held): (Written, &[u8]) = match answer {
        Answer::Refused { number, place } => (Written { refusal: *number, place: *place, written: 0 }, &[]),
        Answer::Text(text) => (Written { refusal: refusals::ACCEPTED, place: 0, written: text.len() as u32 }, text),
        Answer::Totals(_) => return Err("totals are no text".to_string()),
    };
    if told != expected {
        return Err(format!("{told:?} and not {expected:?}"));
    }
    out.holds("the text", held)
}

/// Up to how many answers are cut at every place.
const MOST_CUT: usize = 24;

/// The two parts, each counted by itself, added.
fn check_parts(answers: &[u32], len: usize, answer: &Answer) -> Result<(), String> {
    for at in 0..=answers.len() {
        let (one, other) = answers.split_at(at);
        let [one, other] = [one, other].map(|part| count(&[], part, len));
        let refused = [&one, &other].into_iter().find(|part| part.0.refusal != refusals::ACCEPTED);
        let sum = match refused {
            Some(_) if matches!(answer, Answer::Refused { .. }) => continue,
            Some((told, _)) => return Err(format!("cut at {at}, a part is refused: {told:?}")),
            None => add(one.1.cells(), other.1.cells(), len),
        };
        check_totals(&sum, answer).map_err(|difference| format!("cut at {at}: {difference}"))?;
    }
    Ok(())
}

// ---- the model

fn held_in(store: &[u64], counter: usize) -> u128 {
    store.get(counter).map_or(0, |count| u128::from(*count))
}

/// Whether a counter counts an answer.
fn counts(counter: usize, answer: u32) -> bool {
    match counter {
        0 => true,
        1 => answer == refusals::ACCEPTED,
        2 => answer != refusals::ACCEPTED,
        _ => answer as usize == counter - 2,
    }
}

fn stored(len: usize, total: impl Fn(usize) -> u128) -> Answer {
    if len < COUNTERS {
        return Answer::Refused { number: refusals::NO_ROOM, place: len as u32 };
    }
    let totals: Option<Vec<u64>> = (0..COUNTERS).map(|counter| u64::try_from(total(counter)).ok()).collect();
    totals.map_or(Answer::Refused { number: refusals::NUMBER_RANGE, place: 0 }, Answer::Totals)
}

fn lines(totals: &[u64]) -> String {
    let named = ["inputs".to_string(), "accepted".to_string(), "refused".to_string()];
    let refusals = (1..=LAST).map(|number| format!("refusal {number}"));
    let labels = named.into_iter().chain(refusals);
    labels.enumerate().map(|(counter, label)| format!("{label} {}\n", held_in(totals, counter))).collect()
}

pub fn by_the_model(ask: &Ask) -> Answer {
    match ask {
        Ask::Count { before, answers, len } => {
            let unknown = answers.iter().any(|answer| *answer > LAST);
            stored(*len, |counter| {
                let counted = answers.iter().filter(|answer| counts(counter, **answer)).count() as u128;
                if unknown { u128::MAX } else { held_in(before, counter) + counted }
            })
        }
        Ask::Add { a, b, len } => stored(*len, |counter| held_in(a, counter) + held_in(b, counter)),
        Ask::Print { totals, room } => {
            let text = lines(totals).into_bytes();
            match *room < text.len() {
                true => Answer::Refused { number: refusals::NO_ROOM, place: *room as u32 },
                false => Answer::Text(text),
            }
        }
    }
}

// ---- what is asked

/// Counts of every width, most of them far from the bound, some at it.
fn random_count(random: &mut Random) -> u64 {
    match random.below(8) {
        0 => u64::MAX - random.below(3) as u64,
        1 => 10u64.pow(random.below(20) as u32).wrapping_sub(random.below(2) as u64),
        _ => random.word() >> random.below(64),
    }
}

/// Totals that are whole, cut, or have more behind them; far from the bound unless they are to meet it.
fn random_totals(random: &mut Random, near: bool) -> Vec<u64> {
    let len = if random.below(4) == 0 { random.below(34) } else { COUNTERS };
    (0..len).map(|_| if near { random_count(random) } else { random_count(random) >> 2 }).collect()
}

fn random_len(random: &mut Random) -> usize {
    if random.below(8) == 0 { random.below(COUNTERS) } else { COUNTERS + random.below(3) }
}

fn random_answer(random: &mut Random, hostile: bool) -> u32 {
    match random.below(4) {
        0 | 1 => refusals::ACCEPTED,
        2 if hostile => LAST + 1 + (random.of_any_width() >> 1),
        _ => random.below(LAST as usize + 1) as u32,
    }
}

fn random_ask(random: &mut Random) -> Ask {
    let near = random.below(4) == 0;
    match random.below(3) {
        0 => {
            let before = if random.below(2) == 0 { Vec::new() } else { random_totals(random, near) };
            let hostile = random.below(16) == 0;
            let most = if random.below(16) == 0 { 600 } else { 30 };
            let answers = (0..random.below(most)).map(|_| random_answer(random, hostile)).collect();
            Ask::Count { before, answers, len: random_len(random) }
        }
        1 => Ask::Add { a: random_totals(random, near), b: random_totals(random, near), len: random_len(random) },
        _ => {
            let totals = random_totals(random, true);
            let size = lines(&totals).len();
            Ask::Print { totals, room: (size + 2).saturating_sub(random.below(5)) }
        }
    }
}

pub fn random_asks(seed: u64, count: usize) -> impl Iterator<Item = Ask> {
    let mut random = Random::new(seed);
    (0..count).map(move |_| random_ask(&mut random))
}

/// Each answer alone, from nothing and from the bound; every room of the shortest and the longest text.
fn listed() -> Vec<Ask> {
    let full = vec![u64::MAX; COUNTERS];
    let answers = (0..=LAST + 2).chain([u32::MAX]);
    let counted = answers.flat_map(|answer| {
        let of = |before: &[u64]| Ask::Count { before: before.to_vec(), answers: vec![answer], len: COUNTERS };
        [of(&[]), of(&full), of(&full[..2])]
    });
    let lens = (0..COUNTERS + 2).map(|len| Ask::Count { before: full.clone(), answers: Vec::new(), len });
    let printed = [vec![0; COUNTERS], full.clone()].into_iter().flat_map(|totals| {
        let size = lines(&totals).len();
        (0..=size + 1).map(move |room| Ask::Print { totals: totals.clone(), room })
    });
    counted.chain(lens).chain(printed).collect()
}

pub fn hold(seed: u64, random: usize) -> bool {
    let asks = || listed().into_iter().chain(random_asks(seed, random));
    let tally = shares::tallied("totals", |share, tally| {
        for ask in share.cases(asks()) {
            let answer = by_the_model(&ask);
            tally.count(NightlyTotals::class(&ask, &answer), held::<NightlyTotals>(&ask, &answer));
            if !tally.none_failed() {
                share.stop();
            }
        }
    });
    tally.finish()
}
