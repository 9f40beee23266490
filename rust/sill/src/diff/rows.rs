//! Two line tables that differ, as the rows of their instructions.
use super::places::child;
use crate::text;
use crate::words::{self, Within};
use sillgarland::{Code, Difference, Golden, Lines, Located, Location, Records, Step, Value};
use std::io::{self, Write};

/// Which part of a code object the line table is.
const LINE_TABLE: usize = 8;

/// The two code objects, where what differs is their line tables.
pub fn tables<'a>(difference: &Difference, goldens: [Golden<'a>; 2]) -> Option<[Code<'a>; 2]> {
    let (last, way) = difference.path.0.split_last()?;
    let code = |golden: Golden<'a>| {
        let parent = way.iter().try_fold(golden.root(), |value, step| child(value, *step));
        parent.and_then(Value::as_code)
    };
    let [one, other] = goldens.map(code);
    one.zip(other).filter(|_| *last == Step::Part(LINE_TABLE)).map(|(one, other)| [one, other])
}

/// What a side's table comes to.
pub fn summary(code: &Code, start: usize) -> String {
    let all = text::count(code.instructions(), "instruction");
    match code.lines(&mut Records::default()) {
        Err(refused) => format!("line table refused: {}", words::told(&refused, Within::LineTable(*code), start)),
        Ok(Lines::Whole(_)) => format!("line table of {all}, whole"),
        Ok(Lines::NotWhole(locations)) => {
            format!("line table of {all}, NOT WHOLE: it places {} of them", locations.from_entries())
        }
    }
}

/// How many instructions are shown where not all are asked for.
const MOST_SHOWN: usize = 8;

/// Tells the instructions whose row or place is another; true where none is.
pub fn tell(codes: [Code; 2], all: bool, out: &mut dyn Write) -> io::Result<bool> {
    let mut records = [Records::default(), Records::default()];
    let [first, second] = &mut records;
    let (Ok(left), Ok(right)) = (codes[0].lines(first), codes[1].lines(second)) else { return Ok(false) };
    let (mut left, mut right) = (left.whole_or_not().iter(), right.whole_or_not().iter());
    let mut differ = 0;
    for at in 0.. {
        let pair = [left.next(), right.next()];
        if pair == [None, None] {
            break;
        }
        let [one, other] = told(pair);
        if one != other {
            differ += 1;
            if all || differ <= MOST_SHOWN {
                writeln!(out, "  instruction {at}: {one} / {other}")?;
            }
        }
    }
    if !all && differ > MOST_SHOWN {
        writeln!(out, "  and {} more", text::count(differ - MOST_SHOWN, "instruction"))?;
    }
    Ok(differ == 0)
}

/// The rows of an instruction on both sides; where these are the same, the places.
fn told(pair: [Option<Located>; 2]) -> [String; 2] {
    let rows = pair.map(|located| match located.map(Located::row) {
        None => "no instruction".to_string(),
        Some(None) => "no row".to_string(),
        Some(Some(row)) => row.to_string(),
    });
    if rows[0] != rows[1] || pair[0].and_then(Located::row).is_none() {
        return rows;
    }
    pair.map(|located| {
        let place = located.map(Located::location).map(|Location { line, column, end_line, end_column }| {
            format!("{line}:{column} to {end_line}:{end_column}")
        });
        place.unwrap_or_default()
    })
}
