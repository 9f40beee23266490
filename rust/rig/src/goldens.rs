//! Golden files: every value of every file, read, asked for its leaves, written, split and located by the Rust and by the
//! port. Of each file it is said whether it lies in document 01's domain of comparison, and if not, why.
use crate::lent::{Lent, Part};
use crate::linetable::{self, LineTables};
use crate::localsplus::{self, LocalNames};
use crate::panics::unless_overflow;
use crate::read::{self, Reads, Verdict, carried_side::first_decimal_float};
use crate::reading::{Held, Node, Reading, Shown, ample, read};
use crate::subject::{Carried, Subject, held};
use crate::tally::Tally;
use crate::trace::Trace;
use crate::tree::text_of;
use crate::write::Writes;
use bags::{Notes, Tree, TreeBag};
use carried::marshal::deserialize_value_within;
use sillgarland_sys::refusals::{self, ACCEPTED, MOST_BYTES, MOST_NESTING};
use sillgarland_sys::sill_locate_node;
use std::collections::BTreeSet;
use std::fs;
use std::path::{Path, PathBuf};

/// Values are compared as text, which for values that share much may grow past all bounds: up to here.
const WHOLE: usize = 1 << 28;

pub const HELP: &str = "\
usage: tools/rig --goldens PATH..

Runs the carried Rust and the port on golden files and compares them. PATH is a file, or a folder: then every file in it and
below it. A file holds one marshalled value or several back to back; each is read by both, its leaves are asked for, it is
written by both and what was written is read again, and the local names and line table of each of its code objects are split
and located by both. One line a file:

  alike      the two gave the same answers, or differ as docs/DIFFERENCES.md says; with how many values and code objects,
             and how the last value is refused if it is (by both, with the same number; places count from the file's start)
  DIFFERENT  some answer differs otherwise: the line below says which, with the bytes

and whether the file lies in document 01's domain of comparison. Outside it:

  code bytes        that the crate refuses: the Rust's reader is run without that test, the rest is compared
  flags             that the crate drops: compared without them
  surrogates        in a code's strings, which the crate replaces: compared as it shows them
  a line table      over which the Rust panics: the port refuses it 18; the rest is compared
  an argument sum   over which the Rust panics: the port refuses the code 18
  decimal floats    (letters f and x), which the port refuses 15
  above 16 MiB      which the port refuses 14

Then come the counts by class, and a last line. Exit status: 0 all alike, 1 a difference or a file that cannot be read, 2 called
wrongly.";

pub fn hold(paths: &[String]) -> bool {
    let mut counts = Counts::new();
    let (mut inside, mut outside, mut different, mut unread) = (0, 0, 0, 0);
    let files = find(paths, &mut unread);
    for path in &files {
        let bytes = match fs::read(path) {
            Ok(bytes) => bytes,
            Err(error) => {
                println!("{}: {error}", path.display());
                unread += 1;
                continue;
            }
        };
        let seen = File::of(&bytes, &mut counts);
        println!("{}  {}: {}", if seen.differs() { "DIFFERENT" } else { "alike    " }, path.display(), seen.told());
        seen.differences.iter().for_each(|difference| println!("           {difference}"));
        inside += usize::from(seen.reasons.is_empty());
        outside += usize::from(!seen.reasons.is_empty());
        different += usize::from(seen.differs());
    }
    let held = counts.finish();
    println!(
        "goldens: {} files, {inside} in document 01's domain, {outside} out of it; {different} different, {unread} not read",
        inside + outside
    );
    held && different == 0 && unread == 0 && !files.is_empty()
}

/// Every path that is no folder as it is; of a folder, every file in it and below it, by name.
fn find(paths: &[String], unread: &mut usize) -> Vec<PathBuf> {
    let mut files = Vec::new();
    for path in paths {
        if let Err(error) = add(Path::new(path), &mut files) {
            println!("{path}: {error}");
            *unread += 1;
        }
    }
    files
}

fn add(path: &Path, files: &mut Vec<PathBuf>) -> std::io::Result<()> {
    if !fs::metadata(path)?.is_dir() {
        files.push(path.to_path_buf());
        return Ok(());
    }
    let mut members: Vec<_> = fs::read_dir(path)?.map(|member| Ok(member?.path())).collect::<std::io::Result<_>>()?;
    members.sort();
    members.iter().try_for_each(|member| add(member, files))
}

struct Counts {
    reads: Tally,
    leaves: Tally,
    writes: Tally,
    splits: Tally,
    lines: Tally,
}

impl Counts {
    fn new() -> Self {
        let [reads, leaves, writes, splits, lines] = ["read", "leaf", "write", "split", "locate"].map(Tally::new);
        Self { reads, leaves, writes, splits, lines }
    }

    /// What was never asked, as code objects where there are none, is left out.
    fn finish(self) -> bool {
        let all = [self.reads, self.leaves, self.writes, self.splits, self.lines];
        all.into_iter().filter(Tally::was_asked).map(Tally::finish).fold(true, |all, held| all && held)
    }
}

/// What was seen of one file.
#[derive(Default)]
struct File {
    values: usize,
    codes: usize,
    refused: Option<(u32, usize)>,
    reasons: BTreeSet<&'static str>,
    differences: Vec<String>,
}

impl File {
    fn of(bytes: &[u8], counts: &mut Counts) -> Self {
        let (mut seen, mut start) = (Self::default(), 0);
        loop {
            match seen.value(&bytes[start..], start, counts) {
                Some(consumed) if start + consumed < bytes.len() => start += consumed,
                _ => return seen,
            }
        }
    }

    fn differs(&self) -> bool {
        !self.differences.is_empty()
    }

    fn told(&self) -> String {
        let s = |count: usize| if count == 1 { "" } else { "s" };
        let mut told = format!("{} value{}, {} code object{}", self.values, s(self.values), self.codes, s(self.codes));
        if let Some((number, place)) = self.refused {
            told += &format!(", then refused {number} at byte {place}");
        }
        if self.reasons.is_empty() {
            return told + "; in the domain";
        }
        told + "; out of the domain: " + &self.reasons.iter().copied().collect::<Vec<_>>().join(", ")
    }

    fn count(&mut self, tally: &mut Tally, class: &'static str, start: usize, outcome: Result<(), String>) {
        if let Err(difference) = &outcome {
            self.differences.push(format!("value at byte {start}: {difference}"));
        }
        tally.count(class, outcome);
    }

    /// One value at the start of the bytes; answers how many of them it took, unless it is refused.
    fn value(&mut self, bytes: &[u8], start: usize, counts: &mut Counts) -> Option<usize> {
        let ask = read::Ask { input: bytes.to_vec(), nesting: MOST_NESTING };
        self.note_side(bytes);
        let answer = Reads::by_the_rust(&ask);
        let outcome = held::<Reads>(&ask, &answer).and_then(|()| hold_whole(bytes, &answer));
        self.count(&mut counts.reads, Reads::class(&ask, &answer), start, outcome);
        let reading = read(&Part::new(bytes), MOST_NESTING, ample(bytes));
        if reading.answer.refusal != ACCEPTED {
            self.refused = Some((reading.answer.refusal, start + reading.answer.place as usize));
            return None;
        }
        self.values += 1;
        let value = read::Ask { input: bytes[..reading.answer.consumed as usize].to_vec(), ..ask };
        let answer = Writes::by_the_rust(&value);
        self.count(&mut counts.writes, Writes::class(&value, &answer), start, held::<Writes>(&value, &answer));
        self.parts(&value.input, &reading, start, counts);
        Some(value.input.len())
    }

    /// Every leaf, and of every code object the local names and the line table.
    fn parts(&mut self, input: &[u8], reading: &Reading, start: usize, counts: &mut Counts) {
        let held = Held { input, reading };
        for number in 0..reading.answer.nodes {
            let leaf = held.leaf(number);
            let class =
                if leaf.kind == 0 { "nodes that are no leaf" } else { "leaves, each as the Rust's value shows it" };
            let outcome =
                if leaf.refusal == ACCEPTED { Ok(()) } else { Err(format!("leaf of node {number}: {leaf:?}")) };
            self.count(&mut counts.leaves, class, start, outcome);
            if let Ok(node) = held.node(number)
                && node.letter == b'c'
            {
                self.codes += 1;
                match code_asks(&held, &node) {
                    Ok((split, lines)) => self.code(&held, split, lines, start, counts),
                    Err(fault) => self.differences.push(format!("value at byte {start}: node {number}: {fault}")),
                }
            }
        }
    }

    fn code(
        &mut self,
        held_: &Held,
        split: localsplus::Ask,
        lines: (u32, linetable::Ask),
        start: usize,
        counts: &mut Counts,
    ) {
        let answer = LocalNames::by_the_rust(&split);
        self.count(&mut counts.splits, LocalNames::class(&split, &answer), start, held::<LocalNames>(&split, &answer));
        let (node, lines) = lines;
        let answer = LineTables::by_the_rust(&lines);
        let outcome = held::<LineTables>(&lines, &answer).and_then(|()| hold_by_node(held_, node, &lines));
        self.count(&mut counts.lines, LineTables::class(&lines, &answer), start, outcome);
    }

    /// What of this value lies outside the domain.
    fn note_side(&mut self, input: &[u8]) {
        if input.len() > MOST_BYTES as usize {
            self.reasons.insert("above 16 MiB");
            return;
        }
        let notes = Notes::default();
        let mut trace = Trace::new(input, &notes);
        let read = unless_overflow(|| trace.value(MOST_NESTING as usize).is_ok());
        let decimal = first_decimal_float(input, &trace, MOST_NESTING).is_some();
        let met = [
            (notes.opcodes.get(), "code bytes"),
            (trace.other_flags, "flags"),
            (notes.surrogates.get(), "surrogates"),
            (notes.lines.get(), "a line table"),
            (read.is_none(), "an argument sum"),
            (decimal, "decimal floats"),
        ];
        self.reasons.extend(met.into_iter().filter(|(is_met, _)| *is_met).map(|(_, reason)| reason));
    }
}

/// The value in full; and in the domain as the Rust gives it by default, too.
fn hold_whole(input: &[u8], answer: &read::Answer) -> Result<(), String> {
    let Verdict::Accepted { .. } = answer.verdict else { return Ok(()) };
    let reading = read(&Part::new(input), MOST_NESTING, ample(input));
    let port = Held { input, reading: &reading }.text(Shown::AsTheRust, WHOLE)?;
    let notes = Notes::default();
    let noting = Trace::new(input, &notes).value(MOST_NESTING as usize);
    let differs = |tree: &Tree| text_of(tree, WHOLE) != port;
    if !noting.is_ok_and(|tree| !differs(&tree)) {
        return Err("the value differs further on".to_string());
    }
    let by_default = || deserialize_value_within(&mut &input[..], TreeBag::default(), MOST_NESTING as usize);
    if answer.inside && !by_default().is_ok_and(|tree| !differs(&tree)) {
        return Err("the Rust by default gives another value".to_string());
    }
    Ok(())
}

/// What a code object asks of the split, and of its line table, with the table's node.
fn code_asks(held: &Held, code: &Node) -> Result<(localsplus::Ask, (u32, linetable::Ask)), String> {
    let parts = held.children(code)?;
    let number = |at: usize| u32::from_le_bytes(held.input[at..at + 4].try_into().unwrap());
    let [args, kwonly, flags] = [0, 8, 16].map(|at| number(code.place + at));
    let part = |i: usize| held.node(parts[i]);
    let split =
        localsplus::Ask { kinds: held.contents(&part(4)?).to_vec(), names: part(3)?.count, args, kwonly, flags };
    let lines = linetable::Ask {
        table: held.contents(&part(8)?).to_vec(),
        first_line: number(code.place + code.size) as i32,
        count: part(0)?.size as u32 / 2,
    };
    Ok((split, (parts[8], lines)))
}

/// By its node the table gives what it gives as bytes of its own.
fn hold_by_node(held: &Held, node: u32, ask: &linetable::Ask) -> Result<(), String> {
    let (expected, records) = linetable::locate(ask, &Part::new(&ask.table), 4 * ask.count as usize);
    let (input, nodes) = (held.input, held.reading.stores[0].cells());
    let mut out = Lent::new(4 * ask.count as usize);
    // SAFETY: input and stores are lent for their lengths.
    let answered = unsafe {
        let (nodes, len, used) = (nodes.as_ptr(), nodes.len(), held.reading.answer.nodes);
        let (records, room) = (out.pointer(), out.len());
        sill_locate_node(input.as_ptr(), input.len(), nodes, len, used, node, ask.first_line, ask.count, records, room)
    };
    if answered != expected {
        return Err(format!("by node {node}: {answered:?} and not {expected:?}"));
    }
    let written = if answered.refusal == refusals::ACCEPTED { records.cells() } else { &[] };
    out.holds("records by node", written)
}
