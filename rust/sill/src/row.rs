//! `sill row`: which instructions of which code objects start a row, by an index of row starts.
use crate::options::Arguments;
use crate::words::{self, Within};
use crate::{Outcome, complaints, files, looks, text};
use sillgarland::{Code, Reader, Records, Refused, Starts};
use std::io::{self, Write};
use std::path::Path;

pub fn run(arguments: &Arguments, out: &mut dyn Write) -> io::Result<Outcome> {
    let path = Path::new(&arguments.operands()[0]);
    let word = arguments.operands()[1].to_string_lossy();
    let Some(row) = word.parse().ok().filter(|row| *row > 0) else {
        complaints::say(format_args!(
            "row: '{word}' is no row: a number from 1 on; sill row --help says how to call it"
        ));
        return Ok(Outcome::Trouble);
    };
    let Some(input) = files::read(path) else { return Ok(Outcome::Trouble) };
    let (mut records, mut outcome, mut found) = (Records::default(), Outcome::Good, false);
    let from = looks::skipped(&input, arguments.has("pyc"));
    let ended = files::for_each_value_from(from, &mut Reader::new(), &input, |start, golden| {
        for code in golden.code_objects() {
            match asked(&code, row, &mut records) {
                Ok(told) => found |= told.show(out, start, &code)?,
                Err(refused) => {
                    let told = words::told(&refused, Within::LineTable(code), start);
                    writeln!(out, "{}: line table refused: {told}", named(start, &code))?;
                    outcome = Outcome::Bad;
                }
            }
        }
        Ok::<(), io::Error>(())
    })?;
    if let Some(refused) = ended.refused {
        writeln!(out, "refused: {}", words::of_file(&refused, &input))?;
        outcome = Outcome::Bad;
    }
    if !found {
        writeln!(out, "row {row}: no instruction starts it")?;
        outcome = outcome.max(Outcome::Bad);
    }
    Ok(outcome)
}

fn named(start: usize, code: &Code) -> String {
    format!("code object {} at byte {}", text::name(code.qualified_name()), start + code.value().place())
}

/// What one code object tells of a row.
struct Told {
    /// Instructions that start it, and how many are of it from each on.
    starts: Vec<(usize, usize)>,
    /// Instructions that show it without a sure row.
    unsure: usize,
}

/// Only starts are looked at; the instructions of a row end where the next start is.
fn asked(code: &Code, row: u32, records: &mut Records) -> Result<Told, Refused> {
    let locations = code.lines(records)?.whole_or_not();
    let sure: Vec<bool> = locations.iter().map(|located| located.source().is_sure()).collect();
    let starts = locations.starts();
    let mut told = Told { starts: Vec::new(), unsure: 0 };
    for k in 1..=starts.len() {
        let Some(first) = starts.at(k).filter(|_| starts.line(k) == Some(row)) else { continue };
        let of_row = first..end_of(&starts, k);
        told.unsure += sure[of_row.clone()].iter().filter(|sure| !**sure).count();
        if let Some(start) = of_row.clone().find(|at| sure[*at]) {
            told.starts.push((start, sure[of_row].iter().filter(|sure| **sure).count()));
        }
    }
    Ok(told)
}

fn end_of(starts: &Starts, k: usize) -> usize {
    starts.at(k + 1).unwrap_or(starts.locations().len())
}

impl Told {
    /// Whether any instruction starts the row.
    fn show(&self, out: &mut dyn Write, start: usize, code: &Code) -> io::Result<bool> {
        if self.starts.is_empty() && self.unsure == 0 {
            return Ok(false);
        }
        writeln!(out, "{}, file {}:", named(start, code), text::name(code.file()))?;
        for (at, many) in &self.starts {
            writeln!(out, "  instruction {at} starts it, {} of it", text::count(*many, "instruction"))?;
        }
        if self.unsure > 0 {
            writeln!(out, "  without a sure row, and not counted: {}", text::count(self.unsure, "instruction"))?;
        }
        Ok(!self.starts.is_empty())
    }
}
