//! `sill lines`: where each instruction of each code object comes from, and which handler guards it.
mod json;
mod table;

pub use table::sure_rows;

use crate::files::{self, Item};
use crate::glob::Filter;
use crate::options::Arguments;
use crate::terminal::Colours;
use crate::{Outcome, complaints, looks, words};
use sillgarland::{Code, Lines, Located, Reader, Records, Refused};
use std::io::{self, Write};
use std::path::Path;

pub fn run(arguments: &Arguments, out: &mut dyn Write) -> io::Result<Outcome> {
    let items = files::find(arguments.operands(), &Filter::of(arguments));
    let asked = Asked {
        json: arguments.has("json"),
        not_whole: arguments.has("not-whole"),
        pyc: arguments.has("pyc"),
        headed: items.len() > 1,
        colours: Colours::of(arguments),
    };
    let (mut outcome, mut buffer) = (Outcome::Good, Vec::new());
    for Item { path, trouble } in items {
        match trouble.map_or_else(|| files::read_into(&path, &mut buffer), Err) {
            Ok(()) => outcome = outcome.max(show_file(&asked, &path, &buffer, out)?),
            Err(error) => {
                complaints::about(&path, &error);
                outcome = Outcome::Trouble;
            }
        }
    }
    Ok(outcome)
}

/// What is asked of every file.
struct Asked {
    json: bool,
    /// Only code objects whose line table is not whole, or refused.
    not_whole: bool,
    pyc: bool,
    /// Whether a file's path stands before what is shown of it.
    headed: bool,
    colours: Colours,
}

/// A code object of a file, and what its line table gives.
struct Shown<'a> {
    path: &'a Path,
    /// Where the value that it stands in begins.
    start: usize,
    code: &'a Code<'a>,
    lines: Result<Lines<'a>, Refused>,
}

fn show_file(asked: &Asked, path: &Path, input: &[u8], out: &mut dyn Write) -> io::Result<Outcome> {
    let (mut records, mut outcome, mut unheaded) = (Records::default(), Outcome::Good, asked.headed && !asked.json);
    let from = looks::skipped(input, asked.pyc);
    let ended = files::for_each_value_from(from, &mut Reader::new(), input, |start, golden| {
        for code in golden.code_objects() {
            let shown = Shown { path, start, code: &code, lines: code.lines(&mut records) };
            let whole = shown.lines.as_ref().is_ok_and(|lines| lines.whole().is_some());
            if !whole || code.handlers().is_err() {
                outcome = Outcome::Bad;
            }
            if !whole || !asked.not_whole {
                head(&mut unheaded, path, out)?;
                if asked.json { json::show(&shown, out)? } else { table::show(&shown, asked.colours, out)? }
            }
        }
        Ok::<(), io::Error>(())
    })?;
    if let Some(refused) = ended.refused {
        outcome = Outcome::Bad;
        head(&mut unheaded, path, out)?;
        match asked.json {
            true => writeln!(out, "{}", crate::json::of_file(crate::json::path(path), &refused, input).end())?,
            false => writeln!(out, "refused: {}", words::of_file(&refused, input))?,
        }
    }
    Ok(outcome)
}

/// A file's path, once, before what is shown of it.
fn head(unheaded: &mut bool, path: &Path, out: &mut dyn Write) -> io::Result<()> {
    if std::mem::take(unheaded) { writeln!(out, "{}:", crate::text::path(path)) } else { Ok(()) }
}

/// Why the row that is shown is not one that an entry gave.
#[derive(Clone, Copy, PartialEq, Eq)]
pub enum Why {
    LeftOver,
    CutEntry,
    NoPlace,
    BelowOne,
}

pub fn why_not_sure(located: Located) -> Option<Why> {
    match located.source() {
        source if source.is_sure() => None,
        source if !source.is_from_entry() => Some(Why::LeftOver),
        source if source.is_cut() => Some(Why::CutEntry),
        source if !source.has_line() => Some(Why::NoPlace),
        _ => Some(Why::BelowOne),
    }
}

impl Why {
    /// In words; of a line below 1 the line, where it is known.
    fn told(self, stored: Option<&(i64, i64)>) -> String {
        match (self, stored) {
            (Why::LeftOver, _) => "left over".to_string(),
            (Why::CutEntry, _) => "cut entry".to_string(),
            (Why::NoPlace, _) => "no place".to_string(),
            (Why::BelowOne, Some((line, _))) if *line < 1 => format!("line {line} shown as 1"),
            (Why::BelowOne, Some((_, end))) => format!("end line {end} shown as 1"),
            (Why::BelowOne, None) => "line below 1 shown as 1".to_string(),
        }
    }
}

/// Lines as they are stored, where one of them is shown as 1.
pub fn stored(code: &Code, locations: sillgarland::Locations) -> Option<Vec<(i64, i64)>> {
    let below = locations.iter().any(|located| why_not_sure(located) == Some(Why::BelowOne));
    if below { code.stored_lines(&mut Records::default()) } else { None }
}
