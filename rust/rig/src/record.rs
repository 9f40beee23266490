//! A node's record, judged by document 01's list of what it must be, and not by the port.
use crate::plain::is_text;

/// What the leaf question answers of a record, kind and values, if the record is as it must be: no chain and no parts are
/// looked at.
pub fn kind_of(input: &[u8], record: &[u32]) -> Option<(u32, u64, u64)> {
    let [letter, place, size, _, count, _, _] = record.iter().map(|cell| *cell as usize).collect::<Vec<_>>()[..] else {
        return None;
    };
    let span = input.get(place..place + size)?;
    let length = |at: usize| Some(u32::from_le_bytes(input.get(at..at + 4)?.try_into().ok()?));
    let eight = |at: usize| Some(u64::from_le_bytes(span.get(at..at + 8)?.try_into().ok()?));
    let letter = u8::try_from(letter).ok()?;
    let (fits, kind) = match letter {
        b'N' => (size == 0, (1, 0, 0)),
        b'F' | b'T' => (size == 0, (2, u64::from(letter == b'T'), 0)),
        b'.' => (size == 0, (3, 0, 0)),
        b'S' => (size == 0, (4, 0, 0)),
        b'i' => (size == 4, (5, i64::from(length(place)? as i32) as u64, 0)),
        b'I' => (size == 8, (5, eight(0)?, 0)),
        b'g' => (size == 8, (6, eight(0)?, 0)),
        b'y' => (size == 16, (7, eight(0)?, eight(8)?)),
        b'l' => (true, long(span)?),
        b's' => (true, (0, 0, 0)),
        b'u' | b't' | b'a' | b'A' => (is_text(span), (0, 0, 0)),
        b'z' | b'Z' => (is_text(span) && size < 256, (0, 0, 0)),
        b'(' | b'[' | b'<' | b'>' => {
            return (size == 4 && length(place)? as usize == count && count < 1 << 31).then_some((0, 0, 0));
        }
        b')' => return (size == 1 && usize::from(span[0]) == count).then_some((0, 0, 0)),
        b'{' => return (size == 0 && count % 2 == 0).then_some((0, 0, 0)),
        b':' => return (size == 0 && count == 3).then_some((0, 0, 0)),
        b'c' => {
            let _first_line = length(place + size)?;
            let numbers = [0, 8, 16].map(|at| length(place + at).map(u64::from));
            let [Some(args), Some(kwonly), Some(flags)] = numbers else { return None };
            let sum = args + kwonly + (flags >> 2 & 1) + (flags >> 3 & 1);
            return (size >= 20 && count == 10 && sum < 1 << 32).then_some((0, 0, 0));
        }
        _ => return None,
    };
    (fits && count == 0).then_some(kind)
}

/// A long's digits, judged and put together: whole within 64 bits, else wide.
fn long(span: &[u8]) -> Option<(u32, u64, u64)> {
    let count = i32::from_le_bytes(span.get(..4)?.try_into().ok()?);
    let digits: Vec<u16> =
        span[4..].chunks(2).map(|two| Some(u16::from_le_bytes(two.try_into().ok()?))).collect::<Option<_>>()?;
    if digits.len() != count.unsigned_abs() as usize
        || digits.last() == Some(&0)
        || digits.iter().any(|digit| *digit > 0x7FFF)
    {
        return None;
    }
    if digits.len() > 5 {
        return Some((8, 0, 0));
    }
    let magnitude = digits.iter().rev().fold(0i128, |sum, digit| sum << 15 | i128::from(*digit));
    let value = if count < 0 { -magnitude } else { magnitude };
    Some(i64::try_from(value).map_or((8, 0, 0), |value| (5, value as u64, 0)))
}
