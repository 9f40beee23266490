//! `sill totals`: exact counts over many files, and sums of such counts.
use crate::glob::Filter;
use crate::options::Arguments;
use crate::terminal::Progress;
use crate::{Outcome, complaints, files};
use sillgarland::{Reader, Refusal, Totals};
use std::ffi::{OsStr, OsString};
use std::io::{self, BufRead, Write};
use std::os::unix::ffi::OsStrExt;
use std::path::Path;

pub fn run(arguments: &Arguments, out: &mut dyn Write) -> io::Result<Outcome> {
    let outcome = if arguments.has("add") { added(arguments.operands()) } else { counted(arguments) };
    match outcome {
        Some((totals, outcome)) => write!(out, "{totals}").map(|()| outcome),
        None => Ok(Outcome::Trouble),
    }
}

/// How many outcomes are counted at once.
const AT_ONCE: usize = 4096;

/// The totals of files; a file that cannot be read is told, and in no count.
fn counted(arguments: &Arguments) -> Option<(Totals, Outcome)> {
    let (paths, listed) = with_standard_input(arguments.operands());
    let items = files::find(&paths, &Filter::of(arguments));
    let mut outcome = if listed { Outcome::Good } else { Outcome::Trouble };
    let mut progress = Progress::new(items.len());
    let (mut reader, mut buffer, mut outcomes) = (Reader::new(), Vec::new(), Vec::new());
    let mut totals = Totals::default();
    for (at, item) in items.into_iter().enumerate() {
        progress.show(at);
        match item.trouble.map_or_else(|| files::read_into(&item.path, &mut buffer), Err) {
            Ok(()) => outcomes.push(first_refusal(&mut reader, &buffer)),
            Err(error) => {
                progress.clear();
                complaints::about(&item.path, &error);
                outcome = Outcome::Trouble;
            }
        }
        if outcomes.len() == AT_ONCE {
            totals = summed(totals.counting(&outcomes))?;
            outcomes.clear();
        }
    }
    progress.clear();
    summed(totals.counting(&outcomes)).map(|totals| (totals, outcome))
}

/// A `-` among the operands stands for the paths that standard input lists, one a line; false where it cannot be read.
fn with_standard_input(operands: &[OsString]) -> (Vec<OsString>, bool) {
    let (mut paths, mut whole) = (Vec::new(), true);
    for operand in operands {
        if operand != "-" {
            paths.push(operand.clone());
            continue;
        }
        for line in io::stdin().lock().split(b'\n') {
            match line {
                Ok(line) if line.is_empty() => {}
                Ok(line) => paths.push(OsStr::from_bytes(&line).to_os_string()),
                Err(error) => {
                    complaints::about(Path::new("standard input"), &error);
                    whole = false;
                    break;
                }
            }
        }
    }
    (paths, whole)
}

/// Nothing where all values of a file are read to its end, else why the first is not.
fn first_refusal(reader: &mut Reader, input: &[u8]) -> Option<Refusal> {
    let ended = files::for_each_value(reader, input, |_, _| Ok::<(), std::convert::Infallible>(()));
    match ended {
        Ok(ended) => ended.refused.map(|refused| refused.refusal),
        Err(never) => match never {},
    }
}

/// The sum of printed totals.
fn added(operands: &[OsString]) -> Option<(Totals, Outcome)> {
    let mut sum = Totals::default();
    for path in operands.iter().map(Path::new) {
        let text = files::read(path)?;
        let totals = std::str::from_utf8(&text).ok().and_then(|text| text.parse::<Totals>().ok());
        let Some(totals) = totals else {
            complaints::about(path, &io::Error::other("these are no printed totals"));
            return None;
        };
        sum = summed(sum.plus(&totals))?;
    }
    Some((sum, Outcome::Good))
}

fn summed(totals: Result<Totals, sillgarland::Refused>) -> Option<Totals> {
    totals.map_err(|refused| complaints::say(format_args!("totals: {refused}"))).ok()
}
