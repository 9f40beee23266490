//! Reading values: deserialize_value, with the leaf question and the chains of children that give the value back.
use crate::lent::Part;
use crate::reading::{Held, Reading, STORES, Shown, WIDTHS, ample, counts, read};
use crate::subject::Subject;
use crate::text::{hex, of_hex};
use sillgarland_sys::{Read, refusals};

#[derive(Clone, Debug)]
pub struct Ask {
    pub input: Vec<u8>,
    pub nesting: u32,
}

pub struct Answer {
    pub verdict: Verdict,
    /// Within document 01's domain of comparison.
    pub inside: bool,
}

pub enum Verdict {
    Refused { number: u32, place: u32 },
    Accepted { consumed: u32, value: String },
}

/// Values whose text is longer are compared up to here.
pub const LONGEST_TEXT: usize = 100_000;

pub struct Reads;

impl Subject for Reads {
    const NAME: &'static str = "read";
    type Ask = Ask;
    type Answer = Answer;

    fn class(_: &Ask, answer: &Answer) -> &'static str {
        if let Verdict::Accepted { value, .. } = &answer.verdict
            && value.contains("c(")
        {
            return if answer.inside {
                "in the domain: code objects alike"
            } else {
                "out of the domain: code objects alike"
            };
        }
        let number = match answer.verdict {
            Verdict::Accepted { .. } => 0,
            Verdict::Refused { number, .. } => number as usize,
        };
        if answer.inside { INSIDE[number] } else { OUTSIDE[number] }
    }

    fn check(ask: &Ask, answer: &Answer) -> Result<(), String> {
        let part = Part::new(&ask.input);
        let lens = ample(&ask.input);
        let reading = read(&part, ask.nesting, lens);
        match &answer.verdict {
            Verdict::Refused { number, place } => {
                hold_refused(&reading, *number, *place)?;
                hold_refused_with_less(ask, &part, &reading.answer, lens)
            }
            Verdict::Accepted { consumed, value } => {
                hold_accepted(&part, &reading, *consumed, value)?;
                hold_rooms(ask, &part, &reading)
            }
        }
    }

    fn row(ask: &Ask, answer: &Answer) -> String {
        let side = if answer.inside { "inside" } else { "outside" };
        let asked = format!("read {} {} {side}", hex(&ask.input), ask.nesting);
        match &answer.verdict {
            Verdict::Accepted { consumed, value } => format!("{asked} {consumed} {value}"),
            Verdict::Refused { number, place } => format!("{asked} refused {number} {place}"),
        }
    }

    fn of_row(row: &str) -> Option<(Ask, Answer)> {
        let ["read", input, nesting, side, rest @ ..] = &row.split(' ').collect::<Vec<_>>()[..] else {
            return None;
        };
        let verdict = match rest {
            ["refused", number, place] => Verdict::Refused { number: number.parse().ok()?, place: place.parse().ok()? },
            [consumed, value] => Verdict::Accepted { consumed: consumed.parse().ok()?, value: value.to_string() },
            _ => return None,
        };
        let ask = Ask { input: of_hex(input)?, nesting: nesting.parse().ok()? };
        Some((ask, Answer { verdict, inside: *side == "inside" }))
    }
}

/// The classes by number, in the domain and out of it; 0 is an accepted value. A refusal's place is always alike too.
const INSIDE: [&str; 19] = [
    "in the domain: values alike, and bytes consumed",
    "in the domain: refused 1 (EofObject)",
    "in the domain: refused 2 (Eof, DataTooShort)",
    "in the domain: refused 3 (UnknownType)",
    "in the domain: refused 4 (NullObject)",
    "in the domain: refused 5 (InvalidRef)",
    "in the domain: refused 6 (BadSize)",
    "in the domain: refused 7 (BadType)",
    "in the domain: refused 8 (InvalidBytecode)",
    "in the domain: refused 9 (InvalidUtf8)",
    "in the domain: refused 10 (InvalidBytecode, for nesting)",
    "11",
    "12",
    "13",
    "listed difference: an input above 16 MiB is refused (the Rust reads it)",
    "listed difference: f and x are refused 15 (the Rust reads decimal floats)",
    "16",
    "17",
    "18",
];
const OUTSIDE: [&str; 19] = [
    "out of the domain: values alike, and bytes consumed",
    "out of the domain: refused 1 (EofObject)",
    "out of the domain: refused 2 (Eof, DataTooShort)",
    "out of the domain: refused 3 (UnknownType)",
    "out of the domain: refused 4 (NullObject)",
    "out of the domain: refused 5 (InvalidRef)",
    "out of the domain: refused 6 (BadSize)",
    "out of the domain: refused 7 (BadType)",
    "out of the domain: refused 8 (InvalidBytecode)",
    "out of the domain: refused 9 (InvalidUtf8)",
    "out of the domain: refused 10 (InvalidBytecode, for nesting)",
    "11",
    "12",
    "13",
    "listed difference: an input above 16 MiB is refused (the Rust reads it)",
    "listed difference: f and x are refused 15 (the Rust reads decimal floats)",
    "16",
    "17",
    "out of the domain: refused 18 (there the checked Rust panics)",
];

fn hold_refused(reading: &Reading, number: u32, place: u32) -> Result<(), String> {
    let expected = Read { refusal: number, place, consumed: 0, nodes: 0, entries: 0, slots: 0 };
    if reading.answer != expected {
        return Err(format!("{:?} and not {number} at {place}", reading.answer));
    }
    all_zero(reading)
}

fn all_zero(reading: &Reading) -> Result<(), String> {
    reading.stores.iter().zip(STORES).try_for_each(|(store, name)| store.holds(name, &[]))
}

/// With less room the same refusal comes, or one for want of room, and never an acceptance.
fn hold_refused_with_less(ask: &Ask, part: &Part, full: &Read, lens: [usize; 3]) -> Result<(), String> {
    for divisor in [2, 7, usize::MAX] {
        let reading = read(part, ask.nesting, lens.map(|len| len / divisor));
        let want_of_room = matches!(reading.answer.refusal, 11..=13)
            && (reading.answer.place as usize) < ask.input.len()
            && reading.answer.consumed == 0;
        if reading.answer != *full && !want_of_room {
            return Err(format!("with lengths {lens:?} / {divisor}: {:?} and not {full:?}", reading.answer));
        }
        all_zero(&reading)?;
    }
    Ok(())
}

fn hold_accepted(part: &Part, reading: &Reading, consumed: u32, value: &str) -> Result<(), String> {
    let answer = reading.answer;
    if answer.refusal != refusals::ACCEPTED || answer.place != 0 || answer.consumed != consumed {
        return Err(format!("{answer:?} and not {consumed} bytes consumed"));
    }
    let held = Held { input: part.bytes(), reading }.text(Shown::AsTheRust, LONGEST_TEXT)?;
    if held != value {
        return Err(format!("the port holds {}", &held[..held.len().min(2000)]));
    }
    let used = counts(&answer);
    for ((store, name), used) in reading.stores.iter().zip(STORES).zip([WIDTHS[0] * used[0], 2 * used[1], used[2]]) {
        let written = store.cells().get(..used).ok_or(format!("more {name} than fit: {answer:?}"))?;
        store.holds(name, written)?;
    }
    Ok(())
}

/// In stores that are just long enough the answer and the contents are the same; one record short of any, it is refused
/// for want of that one.
pub fn hold_rooms(ask: &Ask, part: &Part, reading: &Reading) -> Result<(), String> {
    let used = counts(&reading.answer);
    let exact = [0, 1, 2].map(|i| used[i] * WIDTHS[i]);
    let tight = read(part, ask.nesting, exact);
    if tight.answer != reading.answer {
        return Err(format!("with just enough room: {:?} and not {:?}", tight.answer, reading.answer));
    }
    for i in 0..3 {
        tight.stores[i].holds(STORES[i], &reading.stores[i].cells()[..exact[i]])?;
    }
    (0..3).filter(|i| used[*i] > 0).try_for_each(|i| hold_short(ask, part, reading, exact, i))
}

fn hold_short(ask: &Ask, part: &Part, reading: &Reading, exact: [usize; 3], i: usize) -> Result<(), String> {
    let mut lens = exact;
    lens[i] -= 1;
    let short = read(part, ask.nesting, lens);
    let held = Held { input: part.bytes(), reading };
    let place = short.answer.place as usize;
    let placed = match i {
        0 => place == held.header(reading.answer.nodes - 1)?,
        2 => place == held.header(reading.stores[2].cells()[lens[2]] - 1)?,
        _ => {
            let child = reading.stores[1].cells()[exact[1] - 2];
            place == held.header(child)? || part.bytes().get(place).is_some_and(|byte| byte & 0x7F == b'r')
        }
    };
    let number = [refusals::NO_NODE, refusals::NO_ENTRY, refusals::NO_SLOT][i];
    if short.answer.refusal != number || short.answer.consumed != 0 || !placed {
        return Err(format!("one short of {}: {:?}", STORES[i], short.answer));
    }
    all_zero(&short)
}

#[cfg(carried)]
pub mod carried_side {
    //! The Rust's answers.
    use super::{Answer, Ask, LONGEST_TEXT, Reads, Verdict};
    use crate::panics::unless_overflow;
    use crate::shrink::smaller;
    use crate::subject::Carried;
    use crate::trace::Trace;
    use crate::tree::text_of;
    use bags::Notes;
    use carried::marshal::MarshalError;
    use sillgarland_sys::refusals;

    impl Carried for Reads {
        fn by_the_rust(ask: &Ask) -> Answer {
            if ask.input.len() > refusals::MOST_BYTES as usize {
                return listed(refusals::INPUT_TOO_LONG, 0);
            }
            let nesting = ask.nesting.min(refusals::MOST_NESTING);
            let notes = Notes::default();
            let mut trace = Trace::new(&ask.input, &notes);
            let read = unless_overflow(|| trace.value(nesting as usize).map(|tree| text_of(&tree, LONGEST_TEXT)));
            if let Some(place) = first_decimal_float(&ask.input, &trace, nesting) {
                return listed(refusals::NOT_CARRIED, place);
            }
            let inside = notes.none() && !trace.other_flags && nesting == refusals::MOST_NESTING && read.is_some();
            let verdict = match read {
                None => refused(refusals::NUMBER_RANGE, trace.code()),
                Some(Ok(value)) => Verdict::Accepted { consumed: trace.position as u32, value },
                Some(Err(MarshalError::InvalidBytecode)) => of_bytecode(&ask.input, nesting, &mut trace, &notes),
                Some(Err(error)) => of_error(error, &mut trace),
            };
            Answer { verdict, inside }
        }

        fn smaller(ask: &Ask) -> Vec<Ask> {
            smaller(&ask.input).map(|input| Ask { input, ..*ask }).collect()
        }
    }

    fn refused(number: u32, place: usize) -> Verdict {
        Verdict::Refused { number, place: place as u32 }
    }

    fn listed(number: u32, place: usize) -> Answer {
        Answer { verdict: refused(number, place), inside: false }
    }

    fn of_error(error: MarshalError, trace: &mut Trace) -> Verdict {
        match error {
            MarshalError::EofObject => refused(refusals::EOF_OBJECT, trace.last()),
            MarshalError::UnknownType => refused(refusals::UNKNOWN_TYPE, trace.last()),
            MarshalError::NullObject => refused(refusals::NULL_OBJECT, trace.last()),
            MarshalError::InvalidRef => refused(refusals::INVALID_REF, trace.last()),
            MarshalError::BadSize(_) => refused(refusals::BAD_SIZE, trace.last()),
            MarshalError::BadType => refused(refusals::BAD_TYPE, trace.part()),
            MarshalError::InvalidUtf8 => refused(refusals::INVALID_UTF8, trace.last()),
            _ => refused(refusals::DATA_TOO_SHORT, trace.field()),
        }
    }

    /// InvalidBytecode is said at the end of a code, at a digit, and where the nesting is spent.
    fn of_bytecode(input: &[u8], nesting: u32, trace: &mut Trace, notes: &Notes) -> Verdict {
        if notes.at_part.get() {
            return refused(refusals::INVALID_BYTECODE, trace.code());
        }
        if trace.last_is_digit() {
            return refused(refusals::INVALID_BYTECODE, trace.last());
        }
        let at_key = is_too_deep(input, trace.last(), nesting);
        refused(refusals::TOO_DEEP, if at_key { trace.last() } else { trace.position })
    }

    /// Where the reading met a value with letter `f` or `x`.
    pub fn first_decimal_float(input: &[u8], trace: &Trace, nesting: u32) -> Option<usize> {
        trace.like_decimal.iter().find(|at| is_decimal_float(input, **at, nesting)).copied()
    }

    /// Whether a value with letter `f` or `x` begins here: the Rust wants an object here if the bytes end before it.
    fn is_decimal_float(input: &[u8], at: usize, nesting: u32) -> bool {
        let notes = Notes::default();
        let mut trace = Trace::new(&input[..at], &notes);
        let ended = unless_overflow(|| trace.value(nesting as usize));
        matches!(ended, Some(Err(MarshalError::EofObject))) && !is_too_deep(input, at, nesting)
    }

    /// Whether a dict's key begins here for which the nesting is spent: of a key the Rust reads the header before it
    /// tests that. Then none in its place is refused too, and the byte that ends a dict is not.
    fn is_too_deep(input: &[u8], at: usize, nesting: u32) -> bool {
        let is_spent = |byte: u8| {
            let other = [&input[..at], &[byte]].concat();
            let notes = Notes::default();
            let mut trace = Trace::new(&other, &notes);
            let ended = unless_overflow(|| trace.value(nesting as usize));
            let refused = matches!(ended, Some(Err(MarshalError::InvalidBytecode)));
            refused && trace.last() == at && !notes.at_part.get()
        };
        is_spent(b'N') && !is_spent(b'0')
    }
}
