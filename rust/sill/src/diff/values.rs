//! The values of two files, one pair after another.
use super::places::path_in;
use super::{Asked, rows};
use crate::by_bytes::{self, Told};
use crate::{complaints, files, looks, text, words};
use sillgarland::{
    Code, Content, Difference, Form, Golden, NUMBERS, Reader, Refused, Value, What, each_difference, first_difference,
};
use std::io::{self, Write};
use std::ops::Range;
use std::path::{Path, PathBuf};

/// A file, how far it has been compared, and whether only one of its values is.
pub struct Side {
    pub path: PathBuf,
    pub input: Vec<u8>,
    /// Where the next value begins, and its number.
    pub at: usize,
    pub value: usize,
    only: Option<usize>,
    done: bool,
    /// Where the values of a golden in fields stand, or why it is none; nothing of values back to back.
    fields: Option<Result<[Range<usize>; 2], Refused>>,
}

/// What two files come to.
pub enum Compared {
    /// With whether all are written as the same bytes.
    Same {
        values: usize,
        by_bytes: bool,
    },
    Different,
    Trouble,
}

impl Side {
    pub fn new(path: &Path, input: Vec<u8>, only: Option<usize>, pyc: bool) -> Self {
        let fields = (Form::of(&input) == Form::Fields)
            .then(|| Reader::new().golden_parts(&input).map(|parts| [parts.code, parts.result]));
        let at = match &fields {
            Some(Ok([code, _])) => code.start,
            _ => looks::skipped(&input, pyc),
        };
        Self { path: path.to_path_buf(), input, at, value: 1, only, done: false, fields }
    }

    /// Whether a value follows. An empty file has a first value to be asked for too: the answer is a refusal.
    pub fn has_more(&self) -> bool {
        !self.done && (self.at < self.input.len() || self.value == 1)
    }

    /// Behind a value of so many bytes: in fields, at the start of the next field's contents.
    fn pass(&mut self, consumed: usize) {
        self.at += consumed;
        if let (Some(Ok([code, result])), 1) = (&self.fields, self.value) {
            debug_assert_eq!(self.at, code.end);
            self.at = result.start;
        }
        self.value += 1;
    }

    pub fn read<'r>(&'r self, reader: &'r mut Reader) -> Result<Golden<'r>, Refused> {
        match &self.fields {
            None => files::read_value(reader, &self.input, self.at),
            Some(Err(refused)) => Err(*refused),
            Some(Ok(parts)) => {
                let end = parts[self.value.min(2) - 1].end;
                reader.read(&self.input[self.at..end]).map_err(|refused| refused.after(self.at))
            }
        }
    }

    /// Behind a value of so many bytes.
    pub fn go_on(&mut self, consumed: usize) {
        self.pass(consumed);
        self.done = self.only.is_some();
    }

    /// Up to the value that alone is asked for; false where there is none.
    pub fn skip(&mut self, reader: &mut Reader) -> Result<bool, Refused> {
        let only = self.only.unwrap_or(1);
        while self.value < only && self.has_more() {
            let consumed = self.read(reader)?.consumed();
            self.pass(consumed);
        }
        Ok(self.value == only && self.has_more())
    }

    /// Tells that there is no value of the number that is asked for.
    pub fn complain(&self) {
        let told = format!("has no value {}", self.only.unwrap_or(1));
        complaints::about(&self.path, &io::Error::other(told));
    }

    fn tell_refused(&self, refused: &Refused, out: &mut dyn Write) -> io::Result<()> {
        writeln!(out, "refused  {}: {}", text::path(&self.path), words::of_file(refused, &self.input))
    }
}

/// Tells the first difference, or all of them.
pub fn compare(sides: &mut [Side; 2], asked: Asked, out: &mut dyn Write) -> io::Result<Compared> {
    let mut readers = [Reader::new(), Reader::new()];
    for (side, reader) in sides.iter_mut().zip(&mut readers) {
        match side.skip(reader) {
            Ok(true) => {}
            Ok(false) => {
                side.complain();
                return Ok(Compared::Trouble);
            }
            Err(refused) => return side.tell_refused(&refused, out).map(|()| Compared::Different),
        }
    }
    let (mut values, mut same, mut by_bytes) = (0, true, true);
    while (same || asked.all) && sides.iter().all(Side::has_more) {
        let Some((judged, consumed)) = compare_values(sides, &mut readers, asked, out)? else {
            return Ok(Compared::Different);
        };
        (same, by_bytes) = (same && judged != Judged::Different, by_bytes && judged == Judged::SameBytes);
        values += 1;
        sides.iter_mut().zip(consumed).for_each(|(side, consumed)| side.go_on(consumed));
    }
    if !same && !asked.all {
        return Ok(Compared::Different);
    }
    let longer = sides.iter().find(|side| side.has_more());
    if let Some(side) = longer {
        let (alike, longer) = (if same { "alike up" } else { "compared up" }, text::path(&side.path));
        writeln!(out, "different: {alike} to value {values}, and {longer} goes on at byte {}", side.at)?;
    }
    Ok(if same && longer.is_none() { Compared::Same { values, by_bytes } } else { Compared::Different })
}

/// Whether the next two values are the same, and how many bytes each takes; nothing where one is refused, which is told.
fn compare_values(
    sides: &[Side; 2],
    readers: &mut [Reader; 2],
    asked: Asked,
    out: &mut dyn Write,
) -> io::Result<Option<(Judged, [usize; 2])>> {
    let [one, other] = readers;
    match (sides[0].read(one), sides[1].read(other)) {
        (Ok(left), Ok(right)) => {
            let judged = judge([left, right], sides, asked, out)?;
            Ok(Some((judged, [left.consumed(), right.consumed()])))
        }
        (left, right) => {
            for (side, refused) in sides.iter().zip([left.err(), right.err()]) {
                refused.map_or(Ok(()), |refused| side.tell_refused(&refused, out))?;
            }
            Ok(None)
        }
    }
}

/// By what two values were found the same, or that they are not.
#[derive(Clone, Copy, PartialEq, Eq)]
enum Judged {
    SameBytes,
    SameParts,
    Different,
}

/// The written bytes decide. The comparison part by part only says where two values differ; where the bytes say nothing it
/// decides, and that is told.
fn judge(goldens: [Golden; 2], sides: &[Side; 2], asked: Asked, out: &mut dyn Write) -> io::Result<Judged> {
    let (told, value) = (by_bytes::tell(goldens[0], goldens[1]), number(sides));
    match &told {
        Told::Same => return Ok(Judged::SameBytes),
        Told::Different { .. } => {}
        Told::Nothing(why) => writeln!(out, "{value} is compared part by part, not by its written bytes: {why}")?,
    }
    match (tell_differences(goldens, sides, asked, out)?, told) {
        (true, _) => {}
        (false, Told::Different { from }) => writeln!(out, "different in {value}: written, from byte {from} on")?,
        (false, _) => return Ok(Judged::SameParts),
    }
    Ok(Judged::Different)
}

/// Tells the first difference of two values, or all of them; whether there is one.
fn tell_differences(goldens: [Golden; 2], sides: &[Side; 2], asked: Asked, out: &mut dyn Write) -> io::Result<bool> {
    let [left, right] = goldens.map(Golden::root);
    if !asked.all {
        let first = first_difference(left, right);
        return match &first {
            Some(difference) => tell(difference, goldens, sides, asked, out).map(|()| true),
            None => Ok(false),
        };
    }
    let (mut differ, mut told) = (false, Ok(()));
    each_difference(left, right, |difference| {
        differ = true;
        if told.is_ok() {
            told = tell(&difference, goldens, sides, asked, out);
        }
    });
    told.map(|()| differ)
}

/// Which values are compared.
pub fn number(sides: &[Side; 2]) -> String {
    match [sides[0].value, sides[1].value] {
        [one, other] if one == other => format!("value {one}"),
        [one, other] => format!("values {one} and {other}"),
    }
}

fn tell(
    difference: &Difference,
    goldens: [Golden; 2],
    sides: &[Side; 2],
    asked: Asked,
    out: &mut dyn Write,
) -> io::Result<()> {
    writeln!(out, "different in {}, at {}", number(sides), path_in(goldens[0].root(), &difference.path))?;
    let tables = rows::tables(difference, goldens);
    for (at, value) in [difference.left, difference.right].into_iter().enumerate() {
        let side = &sides[at];
        let shown = match &tables {
            Some(codes) => rows::summary(&codes[at], side.at),
            None => shown(value, difference.what),
        };
        let (place, span) = (side.at + value.place(), value.span());
        let bytes = format!("bytes {} to {}", side.at + span.start, side.at + span.end - 1);
        writeln!(out, "  {} at byte {place}, {bytes}: {shown}", text::path(&side.path))?;
    }
    let same_rows = tables.map_or(Ok(true), |codes| rows::tell(codes, asked.all, out))?;
    match first_different_byte(difference.left, difference.right).filter(|_| same_rows) {
        Some(at) => writeln!(out, "  their contents differ from their byte {at} on"),
        None => Ok(()),
    }
}

/// The side of a difference that a value is.
fn shown(value: Value, what: What) -> String {
    match (what, value.as_code()) {
        (What::Number(name), Some(code)) => {
            format!("code object {}, {name} {}", text::name(code.qualified_name()), number_named(&code, name))
        }
        _ => text::holds(value),
    }
}

/// A number of a code object, its first line among them.
pub fn number_named(code: &Code, name: &str) -> i64 {
    let at = NUMBERS.iter().position(|number| *number == name);
    at.map_or(i64::from(code.first_line()), |at| i64::from(code.numbers()[at]))
}

/// Of two texts, or two lots of bytes: a long one is not shown whole, so this says where to look.
pub fn first_different_byte(left: Value, right: Value) -> Option<usize> {
    let (left, right) = match (left.content(), right.content()) {
        (Content::Bytes(left), Content::Bytes(right)) => (left, right),
        (Content::Text(left), Content::Text(right)) => (left.bytes(), right.bytes()),
        _ => return None,
    };
    Some(by_bytes::alike(left, right))
}
