//! What a refusal means where it stands: the same number has several cases, and people are told the one at hand.
use crate::looks;
use sillgarland::{Code, Content, Form, Place, Refusal, Refused};

/// What was being read.
#[derive(Clone, Copy)]
pub enum Within<'a> {
    /// A value, of a file with these bytes.
    Value(&'a [u8]),
    /// The line table of a code object.
    LineTable(Code<'a>),
    /// An exception table.
    ExceptionTable,
}

/// Number, name, place and meaning, on one line; the refusal stands so many bytes further on in the file.
pub fn told(refused: &Refused, within: Within, start: usize) -> String {
    sentence(&refused.after(start), meaning(refused, within))
}

/// A file that is refused, with a hint where it looks like something else.
pub fn of_file(refused: &Refused, input: &[u8]) -> String {
    told(refused, Within::Value(input), 0) + &looks::hinted(looks::hint(input))
}

/// The same of a refusal whose place and meaning are known.
pub fn sentence(refused: &Refused, meaning: &str) -> String {
    format!("{} at {}: {meaning}", refused.refusal, refused.place)
}

/// What is wrong at the place of the refusal, and what is expected there.
pub fn meaning(refused: &Refused, within: Within) -> &'static str {
    match (refused.refusal, within, refused.place) {
        (Refusal::NumberRange, Within::Value(_), _) => {
            "the argument counts of the code object that starts here add up to 2^32 or more"
        }
        (Refusal::InputTooLong, Within::Value(_), _) => "the value that starts here is longer than 16,777,216 bytes",
        (Refusal::InvalidBytecode, Within::Value(input), Place::Byte(at)) => unsound(&input[at..]),
        (Refusal::NoSuchField, Within::Value(_), _) => {
            "a golden in fields has edition 1 (tag 1), code (tag 2) and result (tag 3), exactly these in that order"
        }
        (Refusal::BadType, Within::Value(input), Place::Byte(at)) if at == first_value(input) => {
            "the first value of a golden is a code object, and the one that starts here is none"
        }
        (Refusal::NumberRange, Within::LineTable(code), Place::Byte(at)) => out_of_range(entry(code, at)),
        (Refusal::NumberRange, Within::ExceptionTable, _) => {
            "the number of the exception table that starts here is 2^32 or more"
        }
        (Refusal::DataTooShort, Within::ExceptionTable, _) => {
            "a number of an entry is expected here, and the exception table ends before it is whole"
        }
        (refusal, ..) => refusal.meaning(),
    }
}

/// Where the first value of a file begins: no part of a code object can begin there.
fn first_value(input: &[u8]) -> usize {
    if Form::of(input) == Form::Fields { 7 } else { 0 }
}

/// A digit, or a code object. A code object whose argument count may be taken for a digit is told as either.
fn unsound(there: &[u8]) -> &'static str {
    let digit = there.first_chunk().map_or(0, |digit| u16::from_le_bytes(*digit));
    match (there.first().map(|letter| letter & 0x7F), digit) {
        (Some(b'c'), ..0x8000) => {
            "a code object has as many kinds as local names and an even number of code bytes, and the one that starts \
             here has not"
        }
        (Some(b'c'), _) => Refusal::InvalidBytecode.meaning(),
        (_, 0x8000..) => "a digit of a whole number is below 32,768, and the one here is not",
        _ => "the last digit of a whole number is not 0, and the one here is",
    }
}

/// The bytes of a line table from an entry on.
fn entry(code: Code<'_>, at: usize) -> &[u8] {
    let Content::Bytes(table) = code.line_table().content() else { return &[] };
    table.get(at.saturating_sub(code.line_table().place())..).unwrap_or_default()
}

/// Which of a line table's numbers leaves its range: one that is stored, or the line that they lead to.
fn out_of_range(entry: &[u8]) -> &'static str {
    let numbers = match entry.first().map(|first| first >> 3 & 15) {
        Some(13) => 1,
        Some(14) => 4,
        _ => 0,
    };
    let mut left = entry.get(1..).unwrap_or_default();
    for _ in 0..numbers {
        let bytes = left.iter().position(|byte| byte & 0x40 == 0).map_or(left.len(), |last| last + 1);
        let number = left[..bytes.min(6)].iter().rev().fold(0, |number, byte| number << 6 | u64::from(byte & 0x3F));
        if number >= 1 << 32 {
            return "a number of the line table's entry that starts here is 2^32 or more";
        }
        if bytes > 6 {
            return "a number of the line table's entry that starts here has more than six bytes";
        }
        left = &left[bytes..];
    }
    "the line table's entry that starts here leads to a line that 32 bits do not hold"
}
