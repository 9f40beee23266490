//! The tree for people: place, bytes, letter, and what the value holds, indented.
use super::Input;
use super::walk::{Entered, Parted, walk};
use crate::text;
use crate::words::{self, Within};
use sillgarland::{NUMBERS, Value};
use std::io::{self, Write};

/// Shows a file's values, and says whether reading was refused.
pub fn show(input: &Input, depth: usize, out: &mut dyn Write) -> io::Result<bool> {
    let mut values = 0;
    let refused = input.each_value(|start, golden| {
        values += 1;
        writeln!(out, "value {values}, bytes {start} to {}", start + golden.consumed() - 1)?;
        walk(golden, depth, |entered| show_line(&entered, start, out))
    })?;
    if let Some(refused) = refused {
        writeln!(out, "refused: {}", words::of_file(&refused, input.bytes))?;
    }
    Ok(refused.is_some())
}

fn show_line(entered: &Entered, start: usize, out: &mut dyn Write) -> io::Result<()> {
    let Entered { value, depth, step, parted } = entered;
    let place = start + value.place();
    let span = format!("{} to {}", start + value.span().start, start + value.span().end - 1);
    write!(out, "{place:>9}  {span:<17}  {}  {:indent$}", value.letter(), "", indent = 2 * depth)?;
    if let Some(step) = step {
        write!(out, "{step}: ")?;
    }
    match parted {
        Parted::Again => writeln!(out, "the same as at byte {place}: {}", text::holds(*value)),
        Parted::Cut => writeln!(out, "{} …", holds(*value, start)),
        Parted::Leaf | Parted::Whole => writeln!(out, "{}", holds(*value, start)),
    }
}

/// What it holds; of a code object also its numbers and its handlers.
fn holds(value: Value, start: usize) -> String {
    let shown = text::holds(value);
    let Some(code) = value.as_code() else { return shown };
    let numbers: String =
        NUMBERS.iter().zip(code.numbers()).map(|(name, number)| format!(", {name} {number}")).collect();
    let handlers = match code.handlers() {
        Err(refused) => format!("; exception table refused: {}", words::told(&refused, Within::ExceptionTable, start)),
        Ok(handlers) => handlers.iter().map(|handler| format!("; {}", text::handler(handler))).collect(),
    };
    shown + &numbers + &handlers
}
