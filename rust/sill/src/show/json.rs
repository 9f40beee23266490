//! The values as JSON, nothing cut but by --depth: nodes are one flat list, so that no parser meets deep nesting.
use super::Input;
use crate::json::{self, Object};
use crate::words::{self, Within};
use sillgarland::{Code, Content, Counts, Golden, Handler, NUMBERS, Records, Refused, Value};
use std::io::{self, Write};

/// Shows a file's values, and says whether reading was refused.
pub fn show(input: &Input, depth: usize, out: &mut dyn Write) -> io::Result<bool> {
    let mut before = "[\n";
    let refused = input.each_value(|start, golden| {
        write!(out, "{before}")?;
        before = ",\n";
        show_value(start, golden, depth, out)
    })?;
    if let Some(refused) = refused {
        write!(out, "{before}{}", json::of_file(Object::new(), &refused, input.bytes).end())?;
    }
    writeln!(out, "\n]")?;
    Ok(refused.is_some())
}

fn show_value(start: usize, golden: Golden, depth: usize, out: &mut dyn Write) -> io::Result<()> {
    let size = golden.consumed();
    write!(out, "{{\"from\":{start},\"to\":{},\"size\":{size},\"nodes\":[", start + size - 1)?;
    let levels = levels(golden, depth);
    let mut before = "\n";
    for value in golden.values().filter(|value| levels[value.node() as usize] <= depth) {
        let cut = levels[value.node() as usize] == depth;
        write!(out, "{before}{}", node(value, cut, start))?;
        before = ",\n";
    }
    write!(out, "\n]}}")
}

/// How many values each node stands in, by the shortest way; more than the depth where it is not asked for.
fn levels(golden: Golden, depth: usize) -> Vec<usize> {
    let mut levels = vec![if depth == usize::MAX { 0 } else { usize::MAX }; golden.values().len()];
    let mut level = if depth == usize::MAX { Vec::new() } else { vec![golden.root()] };
    let mut down = 0;
    while !level.is_empty() && down <= depth {
        level.retain(|value| {
            let known = &mut levels[value.node() as usize];
            std::mem::replace(known, down.min(*known)) == usize::MAX
        });
        level = level.iter().flat_map(|value| value.children()).collect();
        down += 1;
    }
    levels
}

fn node(value: Value, cut: bool, start: usize) -> String {
    let object = Object::new().with("node", value.node()).text("letter", &value.letter().to_string());
    let object = object.with("place", start + value.place()).with("size", value.size());
    let object = object.with("from", start + value.span().start).with("to", start + value.span().end - 1);
    let object = holds(value, object, start);
    if !"()[<>:{c".contains(value.letter()) {
        return object.end();
    }
    match cut && value.children().len() > 0 {
        true => object.with("cut", true).end(),
        false => object.with("children", json::list(value.children().map(Value::node))).end(),
    }
}

/// A value's type, and what it holds.
fn holds(value: Value, object: Object, start: usize) -> Object {
    let kind = |kind| object.text("type", kind);
    match value.content() {
        Content::None => kind("none"),
        Content::Stop => kind("stop"),
        Content::Ellipsis => kind("ellipsis"),
        Content::Truth(truth) => kind("truth").with("value", truth),
        Content::Whole(number) => kind("whole").with("value", number),
        Content::Wide(number) => kind("whole").text("value", &number.to_string()),
        Content::Float(number) => float(kind("float"), "", number),
        Content::Complex(real, imaginary) => float(float(kind("complex"), "real_", real), "imaginary_", imaginary),
        Content::Bytes(bytes) => kind("bytes").text("value", &json::hex(bytes)),
        Content::Text(text) => json::text(kind("text"), "value", text),
        Content::Tuple(_) => kind("tuple"),
        Content::List(_) => kind("list"),
        Content::Set(_) => kind("set"),
        Content::FrozenSet(_) => kind("frozenset"),
        Content::Slice(_) => kind("slice"),
        Content::Dict(_) => kind("dict"),
        Content::Code(code) => code_object(kind("code"), &code, start),
    }
}

fn code_object(object: Object, code: &Code, start: usize) -> Object {
    let numbers = NUMBERS.iter().zip(code.numbers());
    let object = numbers.fold(object, |object, (name, number)| object.with(&name.replace('-', "_"), number));
    handlers(rows(object.with("first_line", code.first_line()), code, start), code, start)
}

/// How many of its instructions have what from the line table, and the last row placed; or null and the refusal.
fn rows(object: Object, code: &Code, start: usize) -> Object {
    let mut records = Records::default();
    let lines = match code.lines(&mut records) {
        Ok(lines) => lines,
        Err(refused) => return damaged(object, "lines", &refused, Within::LineTable(*code), start),
    };
    let locations = lines.whole_or_not();
    let Counts { from_entries, with_line, with_columns, sure } = locations.counts();
    let lines = Object::new()
        .with("whole", lines.whole().is_some())
        .with("instructions", locations.len())
        .with("from_entries", from_entries)
        .with("with_line", with_line)
        .with("with_columns", with_columns)
        .with("sure", sure)
        .or_null("last_row", locations.last_row())
        .with("without_line_at_the_end", locations.without_line_at_the_end());
    object.with("lines", lines.end())
}

/// The entries of the exception table, or null and the refusal.
fn handlers(object: Object, code: &Code, start: usize) -> Object {
    match code.handlers() {
        Err(refused) => damaged(object, "handlers", &refused, Within::ExceptionTable, start),
        Ok(handlers) => object.with("handlers", json::list(handlers.iter().map(|entry| handler(entry).end()))),
    }
}

/// A table that is null, and why.
pub fn damaged(object: Object, name: &str, refused: &Refused, within: Within, start: usize) -> Object {
    let why = json::refused(&refused.after(start), words::meaning(refused, within)).end();
    object.with(name, "null").with(&format!("{name}_refused"), why)
}

pub fn handler(handler: &Handler) -> Object {
    let Handler { start, length, target, depth, lasti } = handler;
    let object = Object::new().with("start", start).with("length", length).with("target", target);
    object.with("depth", depth).with("lasti", lasti)
}

/// JSON has no NaN and no infinity: these are null, and the bits say which.
fn float(object: Object, prefix: &str, number: f64) -> Object {
    let value = number.is_finite().then(|| format!("{number:?}"));
    let bits = format!("{:016x}", number.to_bits());
    object.or_null(&format!("{prefix}value"), value).text(&format!("{prefix}bits"), &bits)
}
