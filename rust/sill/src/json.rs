//! JSON, made in one place: strings, objects and refusals.
use crate::looks;
use crate::words::{self, Within};
use sillgarland::{Place, Refused, Text};
use std::fmt::{Display, Write};
use std::path::Path;

/// An object that is being written: its fields in the order in which they are given.
pub struct Object(String);

impl Object {
    pub fn new() -> Self {
        Self(String::from("{"))
    }

    /// A field whose value is JSON already: a number, a truth, a list, an object.
    pub fn with(mut self, name: &str, value: impl Display) -> Self {
        let comma = if self.0.len() > 1 { "," } else { "" };
        let _ = write!(self.0, "{comma}\"{name}\":{value}");
        self
    }

    /// A field that is a string.
    pub fn text(self, name: &str, value: &str) -> Self {
        self.with(name, string(value))
    }

    /// A field that is null where there is nothing.
    pub fn or_null(self, name: &str, value: Option<impl Display>) -> Self {
        match value {
            Some(value) => self.with(name, value),
            None => self.with(name, "null"),
        }
    }

    /// The fields of another object after these.
    pub fn and(self, other: Object) -> Self {
        let fields = &other.0[1..];
        let comma = if self.0.len() > 1 && !fields.is_empty() { "," } else { "" };
        Self(format!("{}{comma}{fields}", self.0))
    }

    /// How many bytes its fields have so far.
    pub fn size(&self) -> usize {
        self.0.len() - 1
    }

    pub fn end(self) -> String {
        self.0 + "}"
    }
}

/// A list of what is JSON already.
pub fn list<T: Display>(items: impl IntoIterator<Item = T>) -> String {
    let mut shown = String::from("[");
    for item in items {
        let comma = if shown.len() > 1 { "," } else { "" };
        let _ = write!(shown, "{comma}{item}");
    }
    shown + "]"
}

pub fn string(text: &str) -> String {
    let is_plain = |byte: &u8| matches!(byte, b' '..=b'~') && !matches!(byte, b'"' | b'\\');
    if text.as_bytes().iter().all(is_plain) { format!("\"{text}\"") } else { quoted(text.chars().map(u32::from)) }
}

/// Surrogates are written as JSON escapes, which is how Python's json reads them back.
pub fn quoted(points: impl Iterator<Item = u32>) -> String {
    let mut shown = String::from("\"");
    for point in points {
        match char::from_u32(point) {
            Some(letter @ ('"' | '\\')) => shown.extend(['\\', letter]),
            Some(letter) if letter >= ' ' && letter != '\u{7F}' => shown.push(letter),
            _ => {
                let _ = write!(shown, "\\u{point:04x}");
            }
        }
    }
    shown + "\""
}

/// A text's fields. JSON cannot tell two surrogates from the one character they would make together: the bytes beside it can.
pub fn text(object: Object, name: &str, text: Text) -> Object {
    let object = object.with(name, quoted(text.code_points()));
    if text.as_str().is_some() { object } else { object.with("bytes", format_args!("\"{}\"", hex(text.bytes()))) }
}

/// A path's fields: where it is no UTF-8, its bytes stand beside it.
pub fn path(path: &Path) -> Object {
    let object = Object::new().text("path", &path.to_string_lossy());
    match path.to_str() {
        Some(_) => object,
        None => object.text("path_bytes", &hex(path.as_os_str().as_encoded_bytes())),
    }
}

/// A refusal's fields, with what it means where it stands.
pub fn refused(refused: &Refused, meaning: &str) -> Object {
    let object = Object::new().with("number", refused.refusal.number()).text("name", &format!("{:?}", refused.refusal));
    let object = match refused.place {
        Place::Byte(at) => object.with("byte", at),
        other => object.text("place", &other.to_string()),
    };
    object.text("meaning", meaning)
}

/// A file that is refused, with a hint where it looks like something else.
pub fn of_file(object: Object, refused: &Refused, input: &[u8]) -> Object {
    let told = self::refused(refused, words::meaning(refused, Within::Value(input)));
    let told = match looks::hint(input) {
        Some(hint) => told.text("hint", hint),
        None => told,
    };
    object.with("refused", told.end())
}

pub fn hex(bytes: &[u8]) -> String {
    bytes.iter().fold(String::with_capacity(2 * bytes.len()), |mut shown, byte| {
        let _ = write!(shown, "{byte:02x}");
        shown
    })
}

#[cfg(test)]
mod tests {
    use super::*;

    #[test]
    fn objects_lists_and_strings() {
        let object = Object::new().with("a", 1).text("b", "\"\n\u{7F}\\").or_null("c", None::<u32>);
        assert_eq!(object.end(), r#"{"a":1,"b":"\"\u000a\u007f\\","c":null}"#);
        assert_eq!(Object::new().and(Object::new().with("a", 1)).and(Object::new()).end(), r#"{"a":1}"#);
        assert_eq!((list([1, 2]), list::<u8>([])), ("[1,2]".to_string(), "[]".to_string()));
    }

    #[test]
    fn paths_that_are_no_text() {
        use std::os::unix::ffi::OsStrExt;
        let odd = Path::new(std::ffi::OsStr::from_bytes(b"a\xFF"));
        assert_eq!(path(odd).end(), "{\"path\":\"a\u{FFFD}\",\"path_bytes\":\"61ff\"}");
    }
}
