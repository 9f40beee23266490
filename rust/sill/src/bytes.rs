//! `sill bytes`: the bytes of one value of a file, as a value of their own where no reference in them names a value outside.
use crate::options::Arguments;
use crate::write::{beside_output, may_be_replaced, put};
use crate::{Outcome, complaints, files, looks, text, words};
use sillgarland::{Golden, NotAlone, Reader, Value};
use std::io::{self, Write};
use std::ops::Range;
use std::path::Path;

/// What was found at the place.
struct Found {
    /// What the value is, and its bytes in the file.
    told: String,
    span: Range<usize>,
    lowered_by: usize,
    bytes: Result<Vec<u8>, NotAlone>,
}

pub fn run(arguments: &Arguments, out: &mut dyn Write) -> io::Result<Outcome> {
    let [path, place] = [0, 1].map(|at| Path::new(&arguments.operands()[at]));
    let target = arguments.word_of("output").map_or(Path::new("-"), Path::new);
    let Some(place) = place.to_str().and_then(|word| word.parse::<usize>().ok()) else {
        complaints::say("bytes: PLACE is a byte of FILE, counted from 0; sill bytes --help says how to call it");
        return Ok(Outcome::Trouble);
    };
    if let Err(error) = may_be_replaced(path, target) {
        complaints::about(target, &error);
        return Ok(Outcome::Trouble);
    }
    let Some(input) = files::read(path) else { return Ok(Outcome::Trouble) };
    let from = looks::skipped(&input, arguments.has("pyc"));
    let found = match found(&input, from, place, arguments.has("as-is")) {
        Ok(found) => found,
        Err(reason) => {
            let told = format!("refused  {}: {reason}; nothing is written", text::path(path));
            return beside_output(target, out, &told).map(|()| Outcome::Bad);
        }
    };
    let Found { told, span, lowered_by, bytes } = found;
    let whole = format!("{told}, bytes {} to {}", span.start, span.end - 1);
    let bytes = match bytes {
        Ok(bytes) => bytes,
        Err(not) => {
            let told = format!("not alone  {}: {whole}: {not}; nothing is written", text::path(path));
            return beside_output(target, out, &told).map(|()| Outcome::Bad);
        }
    };
    if let Err(error) = put(target, &bytes, out) {
        complaints::about(target, &error);
        return Ok(Outcome::Trouble);
    }
    let lowered = if lowered_by > 0 { format!("; indices lowered by {lowered_by}") } else { String::new() };
    let told = format!("written  {}: {}: {whole}{lowered}", text::path(target), text::count(bytes.len(), "byte"));
    beside_output(target, out, &told).map(|()| Outcome::Good)
}

/// The innermost value that has the byte, or why there is none.
fn found(input: &[u8], from: usize, place: usize, as_is: bool) -> Result<Found, String> {
    let ended = files::for_each_value_from(from, &mut Reader::new(), input, |start, golden| {
        let has_it = (start..start + golden.consumed()).contains(&place);
        if has_it { Err(found_in(golden, start, place - start, as_is)) } else { Ok(()) }
    });
    match ended {
        Err(found) => Ok(found),
        Ok(ended) => Err(match ended.refused {
            Some(refused) if place >= ended.end => words::of_file(&refused, input),
            _ => format!("there is no value at byte {place}"),
        }),
    }
}

fn found_in(golden: Golden, start: usize, place: usize, as_is: bool) -> Found {
    let holds_it = |value: &Value| value.span().contains(&place);
    let value = golden.values().filter(holds_it).last().unwrap_or(golden.root());
    let (span, standing) = (value.span(), value.standing());
    let in_file = start + span.start..start + span.end;
    let moved = |not: NotAlone| NotAlone {
        reference: start + not.reference,
        names: start + not.names.start..start + not.names.end,
    };
    let bytes = if as_is { Ok(golden.bytes_of(span)) } else { value.alone().map_err(moved) };
    let refers = standing.closed && !as_is && bytes.as_ref().is_ok_and(|bytes| *bytes != golden.bytes_of(value.span()));
    Found { told: text::holds(value), span: in_file, lowered_by: if refers { standing.slots_before } else { 0 }, bytes }
}

#[cfg(test)]
mod tests {
    use super::*;
    use crate::samples;
    use sillgarland::first_difference;

    /// The bytes of a value are its root's; what stands alone reads as the same value.
    #[test]
    fn spans_of_samples() {
        for (path, input) in samples::all() {
            samples::each_value(&input, |start, golden| {
                assert_eq!(golden.root().span(), 0..golden.consumed(), "{path}");
                for value in golden.values() {
                    let span = value.span();
                    let found = found(&input, 0, start + span.end - 1, false).unwrap();
                    assert!(found.span.end == start + span.end || value.children().len() > 0, "{path}");
                    let Ok(alone) = value.alone() else { continue };
                    let mut reader = Reader::new();
                    let again = reader.read(&alone).unwrap();
                    assert_eq!((again.consumed(), again.root().letter()), (span.len(), value.letter()), "{path}");
                    assert!(first_difference(value, again.root()).is_none(), "{path} at {}", span.start);
                }
            });
        }
    }
}
