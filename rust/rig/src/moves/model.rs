//! A model of the two forms of a golden, from the sentences of document 02; a value is read by the model of the plain reading.
use super::{Answer, Ask, Way};
use crate::plain::{End, Plain};
use crate::settings::fields;
use sillgarland_sys::refusals;

type Fault = (u32, usize);

/// A part of the file: where it starts, and its bytes.
type Span<'a> = (usize, &'a [u8]);

/// The longest contents of a field.
const MOST_CONTENTS: usize = 65_535;

pub fn by_the_model(ask: &Ask) -> Answer {
    match moved(ask) {
        Ok(bytes) => Answer::Written(bytes),
        Err((number, place)) => Answer::Refused { number, place: place as u32 },
    }
}

fn moved(ask: &Ask) -> Result<Vec<u8>, Fault> {
    let bytes = match ask.way {
        Way::ToFields => in_fields(old_parts(ask)?)?,
        Way::FromFields => new_parts(ask)?.map(|(_, bytes)| bytes).concat(),
    };
    if bytes.len() > ask.room { Err((refusals::NO_ROOM, ask.room)) } else { Ok(bytes) }
}

/// How many bytes the value takes that a part begins with, all the room its own.
fn read(ask: &Ask, (start, part): Span) -> Result<usize, Fault> {
    let plain = Plain::of(part);
    let [nodes, entries, slots] = ask.rooms;
    if let Some(refused) = plain.with([ask.nesting, nodes, entries, slots]) {
        return Err((refused.number, start + refused.place));
    }
    match plain.end {
        End::Read { consumed } => Ok(consumed),
        _ => unreachable!("more is claimed than any room has, and no room is short"),
    }
}

/// Both values are read; then the first must be a code, and nothing may be behind either.
fn judged<'a>(parts: [Span<'a>; 2], sizes: [usize; 2]) -> Result<[Span<'a>; 2], Fault> {
    let (header, code) = parts[0];
    if code[0] % 128 != b'c' {
        return Err((refusals::BAD_TYPE, header));
    }
    for ((start, bytes), size) in parts.into_iter().zip(sizes) {
        if size < bytes.len() {
            return Err((refusals::TRAILING_BYTES, start + size));
        }
    }
    Ok(parts)
}

fn old_parts(ask: &Ask) -> Result<[Span<'_>; 2], Fault> {
    let code = read(ask, (0, &ask.golden))?;
    let result = (code, &ask.golden[code..]);
    let size = read(ask, result)?;
    judged([(0, &ask.golden[..code]), result], [code, size])
}

fn new_parts(ask: &Ask) -> Result<[Span<'_>; 2], Fault> {
    let (found, fault) = fields(&ask.golden);
    if let Some(fault) = fault {
        return Err(fault);
    }
    let [(_, 1, [1]), (c, 2, code), (r, 3, result)] = found[..] else {
        return Err((refusals::NO_SUCH_FIELD, 0));
    };
    let parts = [(c + 3, code), (r + 3, result)];
    let sizes = [read(ask, parts[0])?, read(ask, parts[1])?];
    judged(parts, sizes)
}

fn in_fields(parts: [Span; 2]) -> Result<Vec<u8>, Fault> {
    if let Some((start, _)) = parts.iter().find(|(_, bytes)| bytes.len() > MOST_CONTENTS) {
        return Err((refusals::VALUE_TOO_LONG, *start));
    }
    let [(_, code), (_, result)] = parts;
    let length = |bytes: &[u8]| (bytes.len() as u16).to_le_bytes();
    Ok([&[1, 1, 0, 1, 2], &length(code)[..], code, &[3], &length(result), result].concat())
}
