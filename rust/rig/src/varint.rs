//! Varints: the four writers and the two readers of varint.rs.
use crate::lent::{Lent, Part};
use crate::subject::Subject;
use crate::text::{hex, of_hex};
use sillgarland_sys::{self as sys, Found, Written, refusals};

#[derive(Clone, Copy, PartialEq, Eq)]
pub enum Writer {
    Little,
    Signed,
    Big,
    WithStart,
}

pub const WRITERS: [Writer; 4] = [Writer::Little, Writer::Signed, Writer::Big, Writer::WithStart];

pub enum Ask {
    /// A number to write; of a signed one, its bits.
    Write(Writer, u32),
    /// A place to read at, with the marker or without.
    Read(Reader, Vec<u8>, usize),
}

#[derive(Clone, Copy, PartialEq, Eq)]
pub enum Reader {
    Plain,
    Marked,
}

pub const READERS: [Reader; 2] = [Reader::Plain, Reader::Marked];

pub enum Answer {
    Bytes(Vec<u8>),
    Number(Number),
}

/// What a reading says. A refusal's place is the place asked for.
#[derive(Clone, Copy, PartialEq, Eq, Debug)]
pub enum Number {
    None,
    Found { value: u32, next: usize },
    Refused(u32),
}

pub struct Varints;

impl Subject for Varints {
    const NAME: &'static str = "varint";
    type Ask = Ask;
    type Answer = Answer;

    fn class(ask: &Ask, answer: &Answer) -> &'static str {
        match (ask, answer) {
            (ask, _) if is_smallest(ask) => {
                "listed difference: the smallest 32-bit integer is refused (the Rust writes 1)"
            }
            (Ask::Write(Writer::Little, _), _) => "write_varint",
            (Ask::Write(Writer::Signed, _), _) => "write_signed_varint",
            (Ask::Write(Writer::Big, _), _) => "write_varint_be",
            (Ask::Write(Writer::WithStart, _), _) => "write_varint_with_start",
            (_, Answer::Number(Number::Refused(refusals::DATA_TOO_SHORT))) => {
                "listed difference: a cut number is refused (the Rust gives its partial value)"
            }
            (_, Answer::Number(Number::Refused(_))) => {
                "listed difference: a number of 2^32 or more is refused (the Rust drops its high bits)"
            }
            (_, Answer::Number(Number::None)) => "read: none",
            (Ask::Read(Reader::Plain, ..), _) => "read_varint",
            (Ask::Read(Reader::Marked, ..), _) => "read_varint_with_start",
        }
    }

    fn check(ask: &Ask, answer: &Answer) -> Result<(), String> {
        match (ask, answer) {
            (ask, Answer::Bytes(bytes)) if is_smallest(ask) => check_smallest(bytes),
            (Ask::Write(writer, value), Answer::Bytes(bytes)) => check_written(*writer, *value, bytes),
            (Ask::Read(reader, data, at), Answer::Number(number)) => {
                check_read(*reader, &Part::new(data), *at, *number)
            }
            _ => Err("the answer is of another kind than the question".to_string()),
        }
    }

    fn row(ask: &Ask, answer: &Answer) -> String {
        let asked = match ask {
            Ask::Write(Writer::Signed, value) => format!("signed {}", *value as i32),
            Ask::Write(writer, value) => format!("{} {value}", word(*writer)),
            Ask::Read(Reader::Plain, data, at) => format!("read {} {at}", hex(data)),
            Ask::Read(Reader::Marked, data, at) => format!("marked {} {at}", hex(data)),
        };
        match answer {
            Answer::Bytes(bytes) => format!("{asked} {}", hex(bytes)),
            Answer::Number(number) => format!("{asked} {}", shown(*number)),
        }
    }

    fn of_row(row: &str) -> Option<(Ask, Answer)> {
        match row.split(' ').collect::<Vec<_>>()[..] {
            [name @ ("read" | "marked"), data, at, number] => {
                let reader = if name == "read" { Reader::Plain } else { Reader::Marked };
                Some((Ask::Read(reader, of_hex(data)?, at.parse().ok()?), Answer::Number(of_shown(number)?)))
            }
            ["signed", value, bytes] => {
                let bits = value.parse::<i32>().ok()? as u32;
                Some((Ask::Write(Writer::Signed, bits), Answer::Bytes(of_hex(bytes)?)))
            }
            [name, value, bytes] => {
                let writer = WRITERS.into_iter().find(|writer| word(*writer) == name)?;
                Some((Ask::Write(writer, value.parse().ok()?), Answer::Bytes(of_hex(bytes)?)))
            }
            _ => None,
        }
    }
}

fn is_smallest(ask: &Ask) -> bool {
    matches!(ask, Ask::Write(Writer::Signed, value) if *value as i32 == i32::MIN)
}

/// The Rust writes 1 here; the port refuses, whatever the room.
fn check_smallest(bytes_of_the_rust: &[u8]) -> Result<(), String> {
    if bytes_of_the_rust != [1] {
        return Err("the listed difference says that the Rust writes 1".to_string());
    }
    for room in [0, 1, 6] {
        let refused = Written { refusal: refusals::NUMBER_RANGE, place: 0, written: 0 };
        check_room(Writer::Signed, i32::MIN as u32, room, refused, &[])?;
    }
    Ok(())
}

/// Exact room, more room (zeros follow), one byte less and none at all (no room, at the capacity).
fn check_written(writer: Writer, value: u32, bytes: &[u8]) -> Result<(), String> {
    let written = Written { refusal: refusals::ACCEPTED, place: 0, written: bytes.len() as u32 };
    for room in [bytes.len(), bytes.len() + 1, bytes.len() + 7] {
        check_room(writer, value, room, written, bytes)?;
    }
    for room in [0, bytes.len() - 1] {
        let refused = Written { refusal: refusals::NO_ROOM, place: room as u32, written: 0 };
        check_room(writer, value, room, refused, &[])?;
    }
    Ok(())
}

fn check_room(writer: Writer, value: u32, room: usize, expected: Written, bytes: &[u8]) -> Result<(), String> {
    let mut out = Lent::<u8>::new(room);
    let (pointer, len) = (out.pointer(), out.len());
    // SAFETY: the store is lent for the length given.
    let answered = unsafe {
        match writer {
            Writer::Little => sys::sill_write_varint(pointer, len, value),
            Writer::Signed => sys::sill_write_signed_varint(pointer, len, value as i32),
            Writer::Big => sys::sill_write_varint_be(pointer, len, value),
            Writer::WithStart => sys::sill_write_varint_with_start(pointer, len, value),
        }
    };
    if answered != expected {
        return Err(format!("with room {room}: {answered:?} and not {expected:?}"));
    }
    out.holds("out", bytes)
}

fn check_read(reader: Reader, part: &Part, at: usize, number: Number) -> Result<(), String> {
    let data = part.bytes();
    let (name, read): (_, unsafe extern "C" fn(*const u8, usize, usize) -> Found) = match reader {
        Reader::Plain => ("read_varint", sys::sill_read_varint),
        Reader::Marked => ("read_varint_with_start", sys::sill_read_varint_with_start),
    };
    // SAFETY: the bytes are lent for the length given.
    let answered = unsafe { read(data.as_ptr(), data.len(), at) };
    let none = Found { refusal: refusals::ACCEPTED, found: 0, value: 0, pad: 0, place: 0, next: at as u64 };
    let expected = match number {
        Number::None => none,
        Number::Found { value, next } => Found { found: 1, value, next: next as u64, ..none },
        Number::Refused(refusal) => Found { refusal, place: at as u64, ..none },
    };
    if answered != expected {
        return Err(format!("{name}: {answered:?} and not {expected:?}"));
    }
    Ok(())
}

fn word(writer: Writer) -> &'static str {
    match writer {
        Writer::Little => "little",
        Writer::Signed => "signed",
        Writer::Big => "big",
        Writer::WithStart => "start",
    }
}

fn shown(number: Number) -> String {
    match number {
        Number::None => "none".to_string(),
        Number::Found { value, next } => format!("{value}:{next}"),
        Number::Refused(refusal) => format!("refused:{refusal}"),
    }
}

fn of_shown(text: &str) -> Option<Number> {
    match text.split(':').collect::<Vec<_>>()[..] {
        ["none"] => Some(Number::None),
        ["refused", refusal] => Some(Number::Refused(refusal.parse().ok()?)),
        [value, next] => Some(Number::Found { value: value.parse().ok()?, next: next.parse().ok()? }),
        _ => None,
    }
}

#[cfg(carried)]
pub mod carried_side {
    //! The Rust's answers, and the questions put to both.
    use super::{Answer, Ask, Number, READERS, Reader, Varints, WRITERS, Writer};
    use crate::random::Random;
    use crate::shrink::smaller;
    use crate::subject::Carried;
    use carried::varint;
    use sillgarland_sys::refusals;

    impl Carried for Varints {
        fn by_the_rust(ask: &Ask) -> Answer {
            match ask {
                Ask::Write(writer, value) => Answer::Bytes(written(*writer, *value)),
                Ask::Read(Reader::Plain, data, at) => Answer::Number(read(varint::read_varint, data, *at)),
                Ask::Read(Reader::Marked, data, at) => Answer::Number(read(varint::read_varint_with_start, data, *at)),
            }
        }

        fn smaller(ask: &Ask) -> Vec<Ask> {
            match ask {
                Ask::Write(writer, value) => [value / 2, value.saturating_sub(1)]
                    .into_iter()
                    .filter(|less| less < value)
                    .map(|less| Ask::Write(*writer, less))
                    .collect(),
                Ask::Read(reader, data, at) => smaller(data).map(|data| Ask::Read(*reader, data, *at)).collect(),
            }
        }
    }

    fn written(writer: Writer, value: u32) -> Vec<u8> {
        let mut bytes = Vec::new();
        match writer {
            Writer::Little => drop(varint::write_varint(&mut bytes, value)),
            Writer::Signed => drop(varint::write_signed_varint(&mut bytes, value as i32)),
            Writer::Big => drop(varint::write_varint_be(&mut bytes, value)),
            Writer::WithStart => varint::write_varint_with_start(&mut bytes, value),
        }
        bytes
    }

    /// Where the Rust gives what a cut number came to, or what is left of one of 2^32 or more, the port refuses. Which numbers
    /// those are, the bytes that the Rust used tell; what it gives for them is held to be just that.
    fn read(reader: fn(&[u8], &mut usize) -> Option<u32>, data: &[u8], at: usize) -> Number {
        let mut next = at;
        let Some(value) = reader(data, &mut next) else {
            return Number::None;
        };
        let used = &data[at..next];
        let low = used.iter().fold(0u32, |low, byte| low << 6 | u32::from(byte & 0x3F));
        assert_eq!(value, low, "the listed differences say that the Rust drops the high bits of {used:02x?}");
        let is_large = used.iter().fold(0u64, |sum, byte| (sum << 6 | u64::from(byte & 0x3F)).min(1 << 32)) == 1 << 32;
        match used.last() {
            Some(last) if last & 0x40 != 0 => Number::Refused(refusals::DATA_TOO_SHORT),
            _ if is_large => Number::Refused(refusals::NUMBER_RANGE),
            _ => Number::Found { value, next },
        }
    }

    /// Every value around a power of two and all strings up to three bytes; then so many random ones of each.
    pub fn asks(random: usize) -> impl Iterator<Item = Ask> {
        let strings = (0..=3).flat_map(strings_of).flat_map(both_at_0);
        around_powers().chain(strings).chain(random_writes(1, random)).chain(random_reads(2, random))
    }

    /// Of one round of the long form.
    pub fn asks_of_round(round: u64, random: usize) -> impl Iterator<Item = Ask> {
        random_writes(1000 + round, random).chain(random_reads(2000 + round, random))
    }

    /// A selection of the above for the list in the repository.
    pub fn asks_to_list() -> impl Iterator<Item = Ask> {
        let strings = (0..=1).flat_map(strings_of).flat_map(both_at_0);
        around_powers().chain(strings).chain(random_writes(1, 1000)).chain(random_reads(2, 3000))
    }

    fn around_powers() -> impl Iterator<Item = Ask> {
        let values = (0..=32).flat_map(|power| (-3..=3).map(move |step| ((1i64 << power) + step) as u32));
        values
            .flat_map(|value| [value, value.wrapping_neg()])
            .flat_map(|value| WRITERS.map(|writer| Ask::Write(writer, value)))
    }

    fn both_at_0(data: Vec<u8>) -> [Ask; 2] {
        READERS.map(|reader| Ask::Read(reader, data.clone(), 0))
    }

    pub fn strings_of(len: u32) -> impl Iterator<Item = Vec<u8>> {
        (0..1u32 << (8 * len)).map(move |number| number.to_be_bytes()[4 - len as usize..].to_vec())
    }

    fn random_writes(seed: u64, count: usize) -> impl Iterator<Item = Ask> {
        let mut random = Random::new(seed);
        (0..count).map(move |_| Ask::Write(random.one_of(&WRITERS), random.of_any_width()))
    }

    /// Strings in which most bytes say "more", some behind zero groups, read at any place, also beyond the end.
    fn random_reads(seed: u64, count: usize) -> impl Iterator<Item = Ask> {
        let mut random = Random::new(seed);
        (0..count).map(move |_| {
            let len = random.below(12);
            let zeros = if random.below(4) == 0 { random.below(9) } else { 0 };
            let mut data = vec![random.one_of(&[0x40, 0xC0]); zeros];
            data.extend((0..len).map(|_| random.byte() | random.one_of(&[0, 0x40, 0x40, 0x80])));
            let len = data.len();
            let at = match random.below(20) {
                0 => usize::MAX - random.below(3),
                1 => len + random.below(3),
                _ => random.below(len + 1),
            };
            Ask::Read(random.one_of(&READERS), data, at)
        })
    }
}
