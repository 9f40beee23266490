//! The way to a difference, with keys by what they are.
use crate::text;
use sillgarland::{Content, Path, Step, Value};

/// `["rows"][2]`, `.constants[0]`; a step to a key itself has no better name than its number.
pub fn path_in(root: Value, path: &Path) -> String {
    if path.0.is_empty() {
        return path.to_string();
    }
    let mut value = root;
    path.0.iter().fold(String::new(), |shown, step| {
        let key = match step {
            Step::ValueOf(at) => value.children().nth(2 * at),
            _ => None,
        };
        let told = named_step(*step, key);
        value = child(value, *step).unwrap_or(value);
        shown + &told
    })
}

/// A step, that to a dict's value by its key, where that is known.
pub fn named_step(step: Step, key: Option<Value>) -> String {
    match (step, key) {
        (Step::ValueOf(_), Some(key)) => format!("[{}]", shown_key(key)),
        _ => step.to_string(),
    }
}

/// The child that a step leads to.
pub fn child(value: Value, step: Step) -> Option<Value> {
    let at = match step {
        Step::Member(at) | Step::Part(at) => at,
        Step::Key(at) => 2 * at,
        Step::ValueOf(at) => 2 * at + 1,
    };
    value.children().nth(at)
}

/// How many members of a tuple, and how many bytes, a key shows.
const MOST_MEMBERS: usize = 4;
const MOST_BYTES: usize = 24;

/// A key as Python would write it, where it is short; tuples of what is no container are.
fn shown_key(key: Value) -> String {
    let is_plain = |value: Value| value.children().len() == 0;
    match key.content() {
        Content::Tuple(members) if members.len() <= MOST_MEMBERS && key.children().all(is_plain) => {
            let comma = if members.len() == 1 { "," } else { "" };
            format!("({}{comma})", members.map(text::holds).collect::<Vec<_>>().join(", "))
        }
        Content::Bytes(bytes) if bytes.len() <= MOST_BYTES => format!("b\"{}\"", bytes.escape_ascii()),
        _ => text::holds(key),
    }
}
