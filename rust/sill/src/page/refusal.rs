//! A refusal as pages show it: what it is, where it stands, the way to it, and the bytes about it.
use super::trail::way_to;
use super::ways::way;
use crate::json::{self, Object};
use crate::looks;
use crate::words::{self, Within};
use sillgarland::{Place, Refused};

/// How many bytes a line has, and how many lines are shown before the one with the byte, and behind it.
const A_LINE: usize = 16;
const LINES_ABOUT: usize = 2;

/// Number, name, place and meaning, the way, and bytes from a line's first on.
pub fn refusal(refused: &Refused, meaning: &str, input: &[u8], way: &str) -> Object {
    let object = json::refused(refused, meaning).text("way", way);
    let Place::Byte(at) = refused.place else { return object };
    let line = at - at % A_LINE;
    let from = line.saturating_sub(LINES_ABOUT * A_LINE);
    let to = (line + (LINES_ABOUT + 1) * A_LINE).min(input.len());
    let shown = json::hex(input.get(from..to).unwrap_or_default());
    object.with("from", from).text("bytes", &shown).with("length", input.len())
}

/// Of the value of this number, which begins at a byte of the file: the way leads through it.
pub fn refused_value(refused: &Refused, input: &[u8], number: usize, start: usize) -> Object {
    let steps = match refused.place {
        Place::Byte(at) => way_to(input, start, at),
        _ => String::new(),
    };
    let meaning = words::meaning(refused, Within::Value(input));
    refusal(refused, meaning, input, &way(number, &steps)).or_null("hint", looks::hint(input).map(json::string))
}
