//! Values, names and counts as they stand in a line for people.
use sillgarland::{Content, Handler, Text, Value};
use std::path::Path;

/// How much of a text, and of bytes, a line shows.
const MOST_LETTERS: usize = 72;
const MOST_BYTES_SHOWN: usize = 24;

/// A path; what a terminal could take for a command is escaped.
pub fn path(path: &Path) -> String {
    shown(path.to_string_lossy().chars())
}

/// `1 file`, `2 files`.
pub fn count(number: usize, thing: &str) -> String {
    format!("{number} {thing}{}", if number == 1 { "" } else { "s" })
}

/// A name without quotes; a very long one is cut.
pub fn name(text: Text) -> String {
    match text.as_str() {
        Some(text) => short(text),
        None => shortened(text, false),
    }
}

/// The same of a name that is text.
pub fn short(text: &str) -> String {
    let is_plain = |byte: &u8| matches!(byte, b' '..=b'~');
    if text.len() <= MOST_LETTERS && text.as_bytes().iter().all(is_plain) {
        return text.to_string();
    }
    let rest = if text.chars().nth(MOST_LETTERS).is_some() { "…" } else { "" };
    shown(text.chars().take(MOST_LETTERS)) + rest
}

fn shown(letters: impl Iterator<Item = char>) -> String {
    letters.fold(String::new(), |mut shown, letter| {
        match letter {
            ' '..='~' => shown.push(letter),
            _ => shown += &visible(letter),
        }
        shown
    })
}

/// What a value holds, in one line; long texts and bytes are cut.
pub fn holds(value: Value) -> String {
    match value.content() {
        Content::None => "None".to_string(),
        Content::Stop => "StopIteration".to_string(),
        Content::Ellipsis => "Ellipsis".to_string(),
        Content::Truth(truth) => if truth { "True" } else { "False" }.to_string(),
        Content::Whole(number) => number.to_string(),
        Content::Wide(number) => cut(&number.to_string()),
        Content::Float(number) => float(number),
        Content::Complex(real, imaginary) => format!("complex {}, {}", float(real), float(imaginary)),
        Content::Bytes(bytes) => hex_of(bytes),
        Content::Text(text) => format!("\"{}\"", shortened(text, true)),
        Content::Tuple(children) => format!("tuple of {}", children.len()),
        Content::List(children) => format!("list of {}", children.len()),
        Content::Set(children) => format!("set of {}", children.len()),
        Content::FrozenSet(children) => format!("frozenset of {}", children.len()),
        Content::Slice(_) => "slice".to_string(),
        Content::Dict(children) => format!("dict of {}", count(children.len() / 2, "pair")),
        Content::Code(code) => {
            let instructions = count(code.instructions(), "instruction");
            format!("code object {}, first line {}, {instructions}", name(code.qualified_name()), code.first_line())
        }
    }
}

/// An entry of an exception table.
pub fn handler(handler: &Handler) -> String {
    let Handler { start, length, target, depth, lasti } = handler;
    let guards = match length {
        0 => "no instruction".to_string(),
        1 => format!("instruction {start}"),
        _ => format!("instructions {start} to {}", handler.end() - 1),
    };
    let pushed = if *lasti { ", the last instruction pushed" } else { "" };
    format!("handler at instruction {target} for {guards}, depth {depth}{pushed}")
}

/// A float as it reads back; of a NaN its bits, which are more than one.
pub fn float(number: f64) -> String {
    if number.is_nan() { format!("NaN with bits {:016x}", number.to_bits()) } else { format!("{number:?}") }
}

fn hex_of(bytes: &[u8]) -> String {
    let shown: String = bytes.iter().take(MOST_BYTES_SHOWN).map(|byte| format!(" {byte:02x}")).collect();
    let rest = if bytes.len() > MOST_BYTES_SHOWN { " …" } else { "" };
    format!("{}{shown}{rest}", count(bytes.len(), "byte"))
}

fn shortened(text: Text, quoted: bool) -> String {
    let mut points = text.code_points();
    let letters = points.by_ref().take(MOST_LETTERS).map(|point| match char::from_u32(point) {
        Some(letter @ ('"' | '\\')) if quoted => format!("\\{letter}"),
        Some(letter) => visible(letter),
        None => format!("\\u{point:04x}"),
    });
    let shown: String = letters.collect();
    if points.next().is_some() { format!("{shown}…") } else { shown }
}

fn cut(shown: &str) -> String {
    if shown.len() > MOST_LETTERS {
        format!("{}… ({} digits)", &shown[..MOST_LETTERS], shown.len())
    } else {
        shown.to_string()
    }
}

fn visible(letter: char) -> String {
    match letter {
        '\'' | '"' | '\\' => letter.to_string(),
        _ => letter.escape_debug().to_string(),
    }
}

#[cfg(test)]
mod tests {
    use super::*;
    use sillgarland::Reader;

    fn shown(input: &[u8]) -> String {
        holds(Reader::new().read(input).unwrap().root())
    }

    #[test]
    fn one_line_each() {
        assert_eq!(shown(b"T"), "True");
        assert_eq!(shown(b"{NN0"), "dict of 1 pair");
        assert_eq!(shown(b">\0\0\0\0"), "frozenset of 0");
        assert_eq!(shown(b"g\0\0\0\0\0\0\xF8\x3F"), "1.5");
        assert_eq!(shown(b"g\x01\0\0\0\0\0\xF8\x7F"), "NaN with bits 7ff8000000000001");
        assert_eq!(shown(b"s\x02\0\0\0a\xFF"), "2 bytes 61 ff");
        assert_eq!(shown(b"z\x06a\"\\\n'b"), r#""a\"\\\n'b""#);
        assert_eq!(shown(b"z\x03\xED\xB2\x80"), "\"\\udc80\"");
    }

    #[test]
    fn handlers_in_words() {
        let shown = |start, length, lasti| handler(&Handler { start, length, target: 9, depth: 2, lasti });
        assert_eq!(shown(4, 3, false), "handler at instruction 9 for instructions 4 to 6, depth 2");
        assert_eq!(
            shown(4, 1, true),
            "handler at instruction 9 for instruction 4, depth 2, the last instruction pushed"
        );
        assert_eq!(shown(4, 0, false), "handler at instruction 9 for no instruction, depth 2");
    }

    #[test]
    fn what_is_long_is_cut() {
        assert_eq!(shown(&[b"z\x49".as_slice(), &[b'x'; 73]].concat()), format!("\"{}…\"", "x".repeat(72)));
        assert_eq!(shown(&[b"s\x19\0\0\0".as_slice(), &[0; 25]].concat()), format!("25 bytes{} …", " 00".repeat(24)));
    }

    #[test]
    fn a_path_stays_on_its_line() {
        assert_eq!(path(Path::new("a\nb\u{1b}[1m'c")), "a\\nb\\u{1b}[1m'c");
    }
}
