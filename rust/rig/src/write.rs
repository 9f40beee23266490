//! Writing values: serialize_value. What the port reads it writes; the Rust writes what the Rust read; the bytes are
//! compared, and the port's are read and written again. Every writing is held to the model too.
use crate::lent::Part;
use crate::read::Ask;
use crate::reading::{NODE_WIDTH, ample, read};
use crate::subject::Subject;
use crate::text::{hex, of_hex, of_numbers};
use crate::write_model::{self as model, Refused};
use crate::write_same::{Back, expected_back, hold_back};
use crate::writing::{Case, Source, no_room};
use sillgarland_sys::refusals::{ACCEPTED, MOST_NESTING};

/// Which side of document 01's domain of comparison a value is on, and what of it the Rust's writer keeps.
#[derive(Clone, Copy, Debug, PartialEq, Eq)]
pub enum Side {
    Inside,
    /// Code bytes that the crate accepts and rewrites: compared but for these.
    Rewritten,
    /// Code bytes that the crate refuses, line tables over which it panics: compared but for the code bytes.
    Outside,
    /// Flags that the Rust drops, or surrogates that it replaces: held to the model only.
    Unlike,
}

const SIDES: [(Side, &str); 4] =
    [(Side::Inside, "inside"), (Side::Rewritten, "rewritten"), (Side::Outside, "outside"), (Side::Unlike, "unlike")];

pub struct Answer {
    pub side: Side,
    pub bytes: Vec<u8>,
}

pub struct Writes;

impl Subject for Writes {
    const NAME: &'static str = "write";
    type Ask = Ask;
    type Answer = Answer;

    fn class(ask: &Ask, answer: &Answer) -> &'static str {
        match answer.side {
            Side::Inside => class_inside(ask),
            Side::Rewritten => "listed difference: code bytes as read (the Rust rewrites them), all others alike",
            Side::Outside => "out of the domain: all bytes but the code bytes alike",
            Side::Unlike => "out of the domain: held to the model",
        }
    }

    fn check(ask: &Ask, answer: &Answer) -> Result<(), String> {
        let reading = read(&Part::new(&ask.input), ask.nesting, ample(&ask.input));
        if reading.answer.refusal != ACCEPTED {
            return Err(format!("not read: {:?}", reading.answer));
        }
        let source = Source::of_reading(&ask.input, &reading);
        let store = source.store();
        let Ok(bytes) = model::write(&store, 0, MOST_NESTING, usize::MAX) else {
            return hold_deep(&source);
        };
        if answer.side != Side::Unlike && bytes != answer.bytes {
            return Err(format!("the model writes {}", hex(&bytes)));
        }
        hold_rooms(&source, &bytes)?;
        hold_nestings(&source, ask.nesting, bytes.len())?;
        hold_back(&store, 0, &bytes).map(drop)
    }

    fn row(ask: &Ask, answer: &Answer) -> String {
        let side = SIDES.iter().find(|(side, _)| *side == answer.side).map_or("", |(_, word)| *word);
        format!("write {} {} {side} {}", hex(&ask.input), ask.nesting, hex(&answer.bytes))
    }

    fn of_row(row: &str) -> Option<(Ask, Answer)> {
        let ["write", input, nesting, side, bytes] = row.split(' ').collect::<Vec<_>>()[..] else {
            return None;
        };
        let ask = Ask { input: of_hex(input)?, nesting: nesting.parse().ok()? };
        let (side, _) = SIDES.into_iter().find(|(_, word)| *word == side)?;
        Some((ask, Answer { side, bytes: of_hex(bytes)? }))
    }
}

fn class_inside(ask: &Ask) -> &'static str {
    let reading = read(&Part::new(&ask.input), ask.nesting, ample(&ask.input));
    if !reading.stores[0].cells().chunks(NODE_WIDTH).any(|node| node[0] == u32::from(b'c')) {
        return "in the domain: bytes alike, read again the same value, written again the same bytes";
    }
    match expected_back(&Source::of_reading(&ask.input, &reading).store(), 0) {
        Back::Same => "in the domain: bytes of code objects alike, the same value again, the same bytes again",
        Back::Reordered => "in the domain: bytes of code objects alike, out of name order, read again as written",
        Back::Unreadable => "in the domain: bytes of code objects alike, out of name order, read again refused 8",
    }
}

/// Values whose shared parts nest deeper, written out, than is written: refused as the model says.
fn hold_deep(source: &Source) -> Result<(), String> {
    let expected = model::write(&source.store(), 0, MOST_NESTING, 4096);
    source.hold((0, MOST_NESTING, 4096), expected.as_deref().map_err(|refused| *refused))
}

/// In just as much room as the bytes want, and in more (zeros follow); with less it is refused, at the capacity.
fn hold_rooms(source: &Source, bytes: &[u8]) -> Result<(), String> {
    for room in [bytes.len(), bytes.len() + 9] {
        source.hold((0, MOST_NESTING, room), Ok(bytes))?;
    }
    let short: Vec<usize> = match bytes.len() {
        len @ ..=24 => (0..len).collect(),
        len => vec![0, 1, 2, 5, 21, len / 3, len / 2, len - 2, len - 1],
    };
    short.into_iter().try_for_each(|room| source.hold((0, MOST_NESTING, room), Err(no_room(room))))
}

/// With the nesting asked for, and with little: as the model says.
fn hold_nestings(source: &Source, nesting: u32, len: usize) -> Result<(), String> {
    let nestings: &[u32] = if len < 4096 { &[nesting, 0, 1, 2, 3, 4, 5, MOST_NESTING + 1] } else { &[3, 5] };
    for nesting in nestings {
        let expected = model::write(&source.store(), 0, *nesting, len);
        source.hold((0, *nesting, len), expected.as_deref().map_err(|refused| *refused))?;
    }
    Ok(())
}

pub struct StoresAsk {
    case: Case,
    capacity: usize,
}

/// Vectors for writing: any stores, and an independent model's answers.
pub struct WriteStores;

impl Subject for WriteStores {
    const NAME: &'static str = "write";
    type Ask = StoresAsk;
    type Answer = Result<Vec<u8>, Refused>;

    fn class(_: &StoresAsk, answer: &Self::Answer) -> &'static str {
        match answer {
            Ok(_) => "accepted",
            Err(Refused { number: 10, .. }) => "refused 10",
            Err(Refused { number: 14, .. }) => "refused 14",
            Err(Refused { number: 16, .. }) => "refused 16",
            Err(Refused { number: 17, .. }) => "refused 17",
            Err(_) => "refused otherwise",
        }
    }

    fn check(ask: &StoresAsk, answer: &Self::Answer) -> Result<(), String> {
        let StoresAsk { case, capacity } = ask;
        let ours = model::write(&case.store(), case.root, case.nesting, *capacity);
        if ours != *answer {
            return Err(format!("our own model: {ours:?}"));
        }
        let asked = (case.root, case.nesting, *capacity);
        Source::new(&case.store()).hold(asked, answer.as_deref().map_err(|refused| *refused))
    }

    fn row(ask: &StoresAsk, answer: &Self::Answer) -> String {
        let asked = ask.case.row(ask.capacity);
        match answer {
            Ok(bytes) => format!("{asked} {}", hex(bytes)),
            Err(Refused { number, place }) => format!("{asked} refused {number} {place}"),
        }
    }

    fn of_row(row: &str) -> Option<(StoresAsk, Self::Answer)> {
        let ["write", input, nodes, entries, used, root, nesting, capacity, rest @ ..] =
            &row.split(' ').collect::<Vec<_>>()[..]
        else {
            return None;
        };
        let case = Case {
            input: of_hex(input)?,
            nodes: of_numbers(nodes)?,
            entries: of_numbers(entries)?,
            used: of_numbers(used)?.try_into().ok()?,
            root: root.parse().ok()?,
            nesting: nesting.parse().ok()?,
        };
        let ask = StoresAsk { case, capacity: capacity.parse().ok()? };
        let answer = match rest {
            ["refused", number, place] => Err(Refused { number: number.parse().ok()?, place: place.parse().ok()? }),
            [bytes] => Ok(of_hex(bytes)?),
            _ => return None,
        };
        Some((ask, answer))
    }
}

#[cfg(carried)]
pub mod carried_side {
    //! The Rust's answers, and the questions put to both.
    use super::{Answer, Side, Writes};
    use crate::lent::Part;
    use crate::panics::unless_overflow;
    use crate::read::Ask;
    use crate::reading::{NODE_WIDTH, ample, read};
    use crate::subject::Carried;
    use crate::trace::Trace;
    use crate::values;
    use bags::{CodeBytes, Notes, written};
    use carried::bytecode::CodeUnits;
    use sillgarland_sys::refusals;

    impl Carried for Writes {
        fn by_the_rust(ask: &Ask) -> Answer {
            let notes = Notes::default();
            let mut trace = Trace::new(&ask.input, &notes);
            let allowance = ask.nesting.min(refusals::MOST_NESTING) as usize;
            let Some(Ok(tree)) = unless_overflow(|| trace.value(allowance)) else {
                return Answer { side: Side::Inside, bytes: Vec::new() };
            };
            let written = written(&tree);
            let side = match written.code_bytes {
                _ if trace.other_flags || notes.surrogates.get() => Side::Unlike,
                CodeBytes::Refused => Side::Outside,
                _ if notes.lines.get() => Side::Outside,
                CodeBytes::Rewritten => Side::Rewritten,
                CodeBytes::Kept => Side::Inside,
            };
            Answer { side, bytes: written.bytes }
        }

        fn smaller(ask: &Ask) -> Vec<Ask> {
            crate::read::Reads::smaller(ask).into_iter().filter(is_read).collect()
        }
    }

    fn is_read(ask: &Ask) -> bool {
        read(&Part::new(&ask.input), ask.nesting, ample(&ask.input)).answer.refusal == refusals::ACCEPTED
    }

    /// The questions of the readers that the port reads; and those with code once more, with instructions that the Rust
    /// writes as they are.
    pub fn asks(random: usize, modules: &[Ask]) -> impl Iterator<Item = Ask> {
        twice(values::asks_of_the_writer(random, modules))
    }

    /// A selection of the above for the list in the repository.
    pub fn asks_to_list() -> impl Iterator<Item = Ask> {
        twice(values::asks_to_list().chain(values::code_strings().step_by(7)))
    }

    pub fn random_asks(seed: u64, count: usize) -> impl Iterator<Item = Ask> {
        twice(values::random_inputs(seed, count))
    }

    fn twice(asks: impl Iterator<Item = Ask>) -> impl Iterator<Item = Ask> {
        let kept: Vec<u8> = (0..=255).filter(|opcode| is_kept(&[*opcode, 0])).collect();
        asks.filter(is_read).flat_map(move |ask| [with_instructions(&ask, &kept), Some(ask)]).flatten()
    }

    fn is_kept(bytes: &[u8]) -> bool {
        CodeUnits::try_from(bytes).is_ok_and(|units| units.original_bytes() == bytes)
    }

    /// Each opcode of a code's bytes replaced by one of these; none where nothing changes, or where what changes served as
    /// something else as well and is read no more.
    fn with_instructions(ask: &Ask, kept: &[u8]) -> Option<Ask> {
        let reading = read(&Part::new(&ask.input), ask.nesting, ample(&ask.input));
        let [nodes, entries, _] = reading.stores.each_ref().map(|store| store.cells());
        let mut changed = ask.clone();
        for code in nodes.chunks(NODE_WIDTH).filter(|node| node[0] == u32::from(b'c')) {
            let bytes = &nodes[NODE_WIDTH * entries[2 * code[3] as usize] as usize..][..NODE_WIDTH];
            let span = bytes[1] as usize..(bytes[1] + bytes[2]) as usize;
            for unit in changed.input[span].chunks_mut(2).filter(|unit| !is_kept(unit)) {
                unit[0] = kept[usize::from(unit[0]) % kept.len()];
            }
        }
        (changed.input != ask.input && is_read(&changed)).then_some(changed)
    }
}
