//! What a subject of the rig is: a kind of question that the port answers, and that something else answers too. With it
//! goes what is done with any subject: compare with the carried Rust, list the Rust's answers, replay a list.
#[cfg(carried)]
use crate::shares;
use crate::tally::Tally;
use std::fs;

pub trait Subject {
    /// Names the subject's lines of output and its lists.
    const NAME: &'static str;
    type Ask;
    type Answer;

    /// The class that the case is counted under.
    fn class(ask: &Self::Ask, answer: &Self::Answer) -> &'static str;

    /// Asks the port, in several sizes of the lent stores, and says where it departs from the answer.
    fn check(ask: &Self::Ask, answer: &Self::Answer) -> Result<(), String>;

    /// A case as a line of a list.
    fn row(ask: &Self::Ask, answer: &Self::Answer) -> String;

    /// The case that a line of a list stands for, unless it is malformed.
    fn of_row(row: &str) -> Option<(Self::Ask, Self::Answer)>;
}

/// A subject that the carried Rust answers.
#[cfg(carried)]
pub trait Carried: Subject {
    fn by_the_rust(ask: &Self::Ask) -> Self::Answer;

    /// Smaller questions of the same kind, to try where this one shows a difference.
    fn smaller(_: &Self::Ask) -> Vec<Self::Ask> {
        Vec::new()
    }
}

pub fn held<S: Subject>(ask: &S::Ask, answer: &S::Answer) -> Result<(), String> {
    S::check(ask, answer).map_err(|difference| {
        let row: String = S::row(ask, answer).chars().take(2000).collect();
        format!("{row}; {difference}")
    })
}

/// Compares with the carried Rust, shared out over the processors, up to the first difference.
#[cfg(carried)]
pub fn compare<S: Carried, I: Iterator<Item = S::Ask>>(asks: impl Fn() -> I + Sync) -> bool {
    let name = format!("rust {}", S::NAME);
    let tally = shares::tallied(&name, |share, tally| {
        for ask in share.cases(asks()) {
            compare_one::<S>(tally, ask);
            if !tally.none_failed() {
                share.stop();
            }
        }
    });
    tally.finish()
}

#[cfg(carried)]
fn compare_one<S: Carried>(tally: &mut Tally, ask: S::Ask) {
    let answer = S::by_the_rust(&ask);
    let class = S::class(&ask, &answer);
    let outcome = held::<S>(&ask, &answer);
    let first = outcome.is_err() && tally.none_failed();
    tally.count(class, if first { smallest::<S>(ask, outcome) } else { outcome });
}

/// The difference that the smallest question shows to which this one can be shortened.
#[cfg(carried)]
fn smallest<S: Carried>(mut ask: S::Ask, mut outcome: Result<(), String>) -> Result<(), String> {
    loop {
        let mut tried = S::smaller(&ask).into_iter().map(|ask| {
            let outcome = held::<S>(&ask, &S::by_the_rust(&ask));
            (ask, outcome)
        });
        match tried.find(|(_, outcome)| outcome.is_err()) {
            None => return outcome,
            Some(found) => (ask, outcome) = found,
        }
    }
}

/// Writes the Rust's answers; the list is whole or not there.
#[cfg(carried)]
pub fn write_list<S: Carried>(folder: &str, asks: impl Iterator<Item = S::Ask>) -> Result<(), String> {
    let mut text = format!(
        "# {}: what the carried Rust (rustpython-compiler-core 0.6.0, unchanged, built with overflow checks) answers.\n\
         # What it does not show (whole or cut, where from, at which entry) the rig tells from the input's shape.\n\
         # Made by `rig --write-fixed`; replayed against the port without the Rust.\n",
        S::NAME
    );
    for ask in asks {
        text += &S::row(&ask, &S::by_the_rust(&ask));
        text.push('\n');
    }
    let path = format!("{folder}/{}.txt", S::NAME);
    let part = format!("{path}.part");
    fs::write(&part, text).and_then(|()| fs::rename(&part, &path)).map_err(|error| format!("{path}: {error}"))
}

/// Holds the port to every case of a list.
pub fn replay<S: Subject>(folder: &str) -> bool {
    let path = format!("tests/{folder}/{}.txt", S::NAME);
    let mut tally = Tally::new(format!("{folder} {}", S::NAME));
    match fs::read_to_string(&path) {
        Err(error) => tally.count("", Err(format!("{path}: {error} (the rig runs from the repository's root)"))),
        Ok(text) => {
            for row in text.lines().filter(|row| !row.starts_with('#')) {
                replay_row::<S>(&mut tally, row);
            }
        }
    }
    tally.finish()
}

fn replay_row<S: Subject>(tally: &mut Tally, row: &str) {
    match S::of_row(row) {
        None => tally.count("", Err(format!("malformed: {row}"))),
        Some((ask, answer)) => tally.count(S::class(&ask, &answer), held::<S>(&ask, &answer)),
    }
}
