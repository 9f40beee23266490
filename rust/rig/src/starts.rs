//! Row starts: an index of records held to a model that looks at every record, both questions held to counts over the records,
//! and questions of words that no building made held to a model of the definition's own steps.
use crate::lent::Lent;
use crate::random::Random;
use crate::subject::{Subject, held};
use crate::tally::Tally;
use crate::text::{numbers, of_numbers};
use sillgarland_sys::{self as sys, Indexed, Start, refusals};

#[derive(Clone, Debug)]
pub struct Ask {
    /// The line of each record; the other three numbers are any.
    pub lines: Vec<u32>,
    /// How many numbers of records are lent.
    pub len: usize,
    pub count: u32,
    /// How many words of the index are lent.
    pub words: usize,
    /// Before which instructions, and which starts, are asked for.
    pub before: Vec<u32>,
    pub at: Vec<u32>,
}

#[derive(Debug, PartialEq, Eq)]
pub struct Answer {
    built: [u32; 3],
    before: Vec<[u64; 3]>,
    at: Vec<[u64; 3]>,
}

pub struct Starts;

impl Subject for Starts {
    const NAME: &'static str = "starts";
    type Ask = Ask;
    type Answer = Answer;

    fn class(ask: &Ask, answer: &Answer) -> &'static str {
        match answer.built {
            [refusals::ACCEPTED, _, starts] if starts == ask.count => "every instruction is a start",
            [refusals::ACCEPTED, _, 1] => "one row",
            [refusals::ACCEPTED, ..] => "rows of several instructions",
            [_, place, _] if place as usize == ask.words => "the index is short",
            _ => "the records are short",
        }
    }

    fn check(ask: &Ask, answer: &Answer) -> Result<(), String> {
        let (records, mut index) = (Lent::of(&records(ask)), Lent::<u64>::new(ask.words));
        let lent = records.cells();
        // SAFETY: records and index are lent for the lengths given.
        let built =
            unsafe { sys::sill_index_starts(lent.as_ptr(), lent.len(), ask.count, index.pointer(), index.len()) };
        let [refusal, place, starts] = answer.built;
        same("sill_index_starts", built, Indexed { refusal, place, starts })?;
        if refusal != refusals::ACCEPTED {
            return index.holds("index", &[]);
        }
        index.holds("index", &index_of(ask))?;
        check_questions(index.cells(), ask, answer)
    }

    fn row(ask: &Ask, answer: &Answer) -> String {
        let Ask { lines, len, count, words, before, at } = ask;
        let [refusal, place, starts] = answer.built;
        let (before, at) = (pairs(before, &answer.before), pairs(at, &answer.at));
        format!("starts {} {len} {count} {words} {refusal}:{place}:{starts} {before} {at}", numbers(lines))
    }

    fn of_row(row: &str) -> Option<(Ask, Answer)> {
        let ["starts", lines, len, count, words, built, before, at] = row.split(' ').collect::<Vec<_>>()[..] else {
            return None;
        };
        let ((before, told_before), (at, told_at)) = (of_pairs(before)?, of_pairs(at)?);
        let (lines, len, count) = (of_numbers(lines)?, len.parse().ok()?, count.parse().ok()?);
        let ask = Ask { lines, len, count, words: words.parse().ok()?, before, at };
        let built: Vec<u32> = built.split(':').map(str::parse).collect::<Result<_, _>>().ok()?;
        Some((ask, Answer { built: built.try_into().ok()?, before: told_before, at: told_at }))
    }
}

fn check_questions(index: &[u64], ask: &Ask, answer: &Answer) -> Result<(), String> {
    for (n, told) in ask.before.iter().zip(&answer.before) {
        // SAFETY: the index is lent for its length.
        let answered = unsafe { sys::sill_starts_before(index.as_ptr(), index.len(), ask.count, *n) };
        same(&format!("sill_starts_before {n}"), answered, start(*told))?;
    }
    for (k, told) in ask.at.iter().zip(&answer.at) {
        // SAFETY: the index is lent for its length.
        let answered = unsafe { sys::sill_start_at(index.as_ptr(), index.len(), ask.count, *k) };
        same(&format!("sill_start_at {k}"), answered, start(*told))?;
    }
    Ok(())
}

fn start([refusal, place, value]: [u64; 3]) -> Start {
    Start { refusal: refusal as u32, place: place as u32, value }
}

fn same<T: PartialEq + std::fmt::Debug>(call: &str, answered: T, expected: T) -> Result<(), String> {
    if answered != expected {
        return Err(format!("{call}: {answered:?} and not {expected:?}"));
    }
    Ok(())
}

/// Questions and their answers, as QUESTION=REFUSAL:PLACE:VALUE with commas, `-` for none.
fn pairs(asked: &[u32], told: &[[u64; 3]]) -> String {
    if asked.is_empty() {
        return "-".to_string();
    }
    asked.iter().zip(told).map(|(n, [r, p, v])| format!("{n}={r}:{p}:{v}")).collect::<Vec<_>>().join(",")
}

fn of_pairs(text: &str) -> Option<(Vec<u32>, Vec<[u64; 3]>)> {
    let mut read = (Vec::new(), Vec::new());
    for pair in text.split(',').filter(|pair| *pair != "-") {
        let (asked, told) = pair.split_once('=')?;
        read.0.push(asked.parse().ok()?);
        let told: Vec<u64> = told.split(':').map(str::parse).collect::<Result<_, _>>().ok()?;
        read.1.push(told.try_into().ok()?);
    }
    Some(read)
}

// ---- the model

/// The numbers that are lent: each line, and three others that nobody may look at.
fn records(ask: &Ask) -> Vec<u32> {
    let number = |i: usize| match i % 4 {
        0 => ask.lines.get(i / 4).copied().unwrap_or(0),
        other => (i as u32).wrapping_mul(2_654_435_761) >> other,
    };
    (0..ask.len).map(number).collect()
}

fn is_start(ask: &Ask, i: usize) -> bool {
    i == 0 || ask.lines[i] != ask.lines[i - 1]
}

fn starts_below(ask: &Ask, n: usize) -> usize {
    (0..n).filter(|i| is_start(ask, *i)).count()
}

fn words_needed(count: u32) -> usize {
    9 * (count as usize / 512 + 1)
}

/// The index, word by word: a total, then eight words of bits.
fn index_of(ask: &Ask) -> Vec<u64> {
    let (count, mut total, mut index) = (ask.count as usize, 0_u64, Vec::new());
    for block in 0..=count / 512 {
        index.push(total);
        for word in 0..8 {
            let first = 512 * block + 64 * word;
            let bits = (0..64).filter(|bit| first + bit < count && is_start(ask, first + bit));
            let made: u64 = bits.map(|bit| 1 << bit).sum();
            total += u64::from(made.count_ones());
            index.push(made);
        }
    }
    index
}

const NO_START: [u64; 3] = [refusals::NO_SUCH_START as u64, 0, 0];

pub fn by_the_model(ask: &Ask) -> Answer {
    let refused = |place: usize| Answer {
        built: [refusals::NO_ROOM, place as u32, 0],
        before: vec![[0; 3]; ask.before.len()],
        at: vec![[0; 3]; ask.at.len()],
    };
    if ask.len / 4 < ask.count as usize {
        return refused(ask.len / 4);
    }
    if ask.words < words_needed(ask.count) {
        return refused(ask.words);
    }
    let count = ask.count as usize;
    let places: Vec<usize> = (0..count).filter(|i| is_start(ask, *i)).collect();
    let before = |n: &u32| if *n > ask.count { NO_START } else { [0, 0, starts_below(ask, *n as usize) as u64] };
    let at = |k: &u32| match (*k as usize).checked_sub(1).and_then(|k| places.get(k)) {
        Some(place) => [0, 0, *place as u64],
        None => NO_START,
    };
    Answer {
        built: [refusals::ACCEPTED, 0, places.len() as u32],
        before: ask.before.iter().map(before).collect(),
        at: ask.at.iter().map(at).collect(),
    }
}

/// What any words answer, by the definition's steps: the sum in 64 bits; the bisection, and the bits of one block.
fn of_any_words(index: &[u64], count: u32, n: u32, k: u32) -> ([u64; 3], [u64; 3]) {
    if index.len() < words_needed(count) {
        let short = [u64::from(refusals::NO_ROOM), index.len() as u64, 0];
        return (short, short);
    }
    let bit = |block: usize, bit: usize| index[9 * block + 1 + bit / 64] >> (bit % 64) & 1;
    let sum = |block: usize, below: usize| index[9 * block].wrapping_add((0..below).map(|at| bit(block, at)).sum());
    let before = if n > count { NO_START } else { [0, 0, sum(n as usize / 512, n as usize % 512)] };
    let (mut low, mut high) = (0, count as usize / 512 + 1);
    while high - low > 1 {
        let middle = low + (high - low) / 2;
        if index[9 * middle] < u64::from(k) { low = middle } else { high = middle }
    }
    let nth = u64::from(k).checked_sub(index[9 * low]).filter(|nth| *nth > 0);
    let found = nth.and_then(|nth| (0..512).filter(|at| bit(low, *at) == 1).nth(nth as usize - 1));
    let at = found.map(|at| 512 * low + at).filter(|at| *at < count as usize);
    (before, at.map_or(NO_START, |at| [0, 0, at as u64]))
}

// ---- the questions

const EDGES: [u32; 17] = [0, 1, 2, 63, 64, 65, 127, 128, 511, 512, 513, 575, 576, 1023, 1024, 1025, 1600];

pub fn random_ask(random: &mut Random) -> Ask {
    let count = random.one_of(&EDGES).saturating_add_signed(random.below(5) as i32 - 2);
    let kinds = random.one_of(&[1, 2, 3, 1000]);
    let longest = random.one_of(&[1, 2, 9, 700]);
    let mut lines = Vec::new();
    while lines.len() < count as usize {
        let (line, run) = (random.below(kinds) as u32 + 1, random.below(longest) + 1);
        lines.resize((lines.len() + run).min(count as usize), line);
    }
    let len = (4 * count as usize + random.below(9)).saturating_sub(random.one_of(&[0, 0, 0, 0, 4, 5]));
    let words = (words_needed(count) + random.below(3)).saturating_sub(random.one_of(&[0, 0, 0, 0, 1, 9]));
    let (before, at) = (questions(random, count), questions(random, count));
    Ask { lines, len, count, words, before, at }
}

fn questions(random: &mut Random, count: u32) -> Vec<u32> {
    let mut question = || {
        let any = random.below(count as usize + 1) as u32;
        random.one_of(&[0, 1, 2, any, any, count, count.saturating_add(1), u32::MAX])
    };
    (0..6).map(|_| question()).collect()
}

/// Words that no building made: any, sparse ones, and those of an index with one of them changed.
fn hold_any_words(tally: &mut Tally, random: &mut Random) {
    let asked = random_ask(random);
    let mut index = index_of(&asked);
    match random.below(3) {
        0 => index.iter_mut().for_each(|word| *word = random.word()),
        1 => index.iter_mut().for_each(|word| *word = random.word() & random.word() & random.word() & 0xFFFF),
        _ => {
            let at = random.below(index.len());
            let any = random.word();
            index[at] = random.one_of(&[0, 1, u64::MAX, any]);
        }
    }
    let lent = Lent::of(&index);
    for (n, k) in asked.before.iter().zip(&asked.at) {
        let (before, at) = of_any_words(&index, asked.count, *n, *k);
        let told = Answer { built: [0; 3], before: vec![before], at: vec![at] };
        let ask = Ask { before: vec![*n], at: vec![*k], ..asked.clone() };
        tally.count("words that no building made", check_questions(lent.cells(), &ask, &told));
    }
}

/// Every instruction and every start of records around the edges of words and blocks, then random ones, then any words.
pub fn hold(seed: u64, random: usize) -> bool {
    let mut tally = Tally::new("starts");
    let mut ask = |ask: &Ask| {
        let answer = by_the_model(ask);
        tally.count(Starts::class(ask, &answer), held::<Starts>(ask, &answer));
    };
    for count in EDGES {
        for row in [1, 2, 64, 2000] {
            let lines = (0..count).map(|i| i / row).collect();
            let (len, words) = (4 * count as usize, words_needed(count));
            ask(&Ask { lines, len, count, words, before: (0..count + 2).collect(), at: (0..count + 2).collect() });
        }
    }
    let mut chance = Random::new(seed);
    for _ in 0..random {
        ask(&random_ask(&mut chance));
    }
    for _ in 0..random {
        hold_any_words(&mut tally, &mut chance);
    }
    tally.finish()
}
