//! Golden files moved into fields and back (document 02, K13), held to a model of its own and to what is promised: what one move
//! accepts, the other gives back byte for byte; the stores are zero after every call.
mod model;
mod questions;

pub use model::by_the_model;
pub use questions::random_asks;

use crate::lent::{Lent, Part};
use crate::reading::{STORES, WIDTHS};
use crate::shares;
use crate::subject::{Subject, held};
use crate::text::{hex, of_hex};
use questions::{extremes, sheets, short_asks, small_code};
use sillgarland_sys::{self as sys, Moved, refusals};

/// Which way a golden is moved.
#[derive(Clone, Copy, Debug, PartialEq, Eq)]
pub enum Way {
    ToFields,
    FromFields,
}

#[derive(Clone, Debug)]
pub struct Ask {
    pub way: Way,
    pub golden: Vec<u8>,
    pub nesting: u32,
    /// How many nodes, entries and slots each reading has room for.
    pub rooms: [u32; 3],
    pub room: usize,
}

#[derive(Clone, Debug, PartialEq, Eq)]
pub enum Answer {
    Refused { number: u32, place: u32 },
    Written(Vec<u8>),
}

pub struct Moves;

impl Subject for Moves {
    const NAME: &'static str = "moves";
    type Ask = Ask;
    type Answer = Answer;

    fn class(ask: &Ask, answer: &Answer) -> &'static str {
        match answer {
            Answer::Written(_) if ask.way == Way::ToFields => "moved into fields",
            Answer::Written(_) => "moved out of fields",
            Answer::Refused { number, .. } => match *number {
                refusals::REPEATED_TAG => "refused: a tag is repeated",
                refusals::NO_SUCH_FIELD => "refused: other fields or edition",
                refusals::EOF_OBJECT => "refused: no value where one is to be",
                refusals::DATA_TOO_SHORT if ask.way == Way::FromFields => "refused: a field or a value in it is cut",
                refusals::DATA_TOO_SHORT => "refused: a value is cut",
                refusals::BAD_TYPE => "refused: no code, or a part of one is of the wrong kind",
                refusals::TRAILING_BYTES => "refused: trailing bytes",
                refusals::VALUE_TOO_LONG => "refused: a value above 65,535 bytes",
                refusals::NO_ROOM => "refused: no room",
                refusals::TOO_DEEP | refusals::NO_NODE | refusals::NO_ENTRY | refusals::NO_SLOT => {
                    "refused: nested too deep, or no room for a value"
                }
                refusals::INPUT_TOO_LONG => "refused: above 16 MiB",
                _ => "refused: a value's own refusal",
            },
        }
    }

    fn check(ask: &Ask, answer: &Answer) -> Result<(), String> {
        check_move(ask, answer)?;
        let Answer::Written(bytes) = answer else { return Ok(()) };
        check_no_room(ask, bytes.len())?;
        check_back(ask, bytes)
    }

    fn row(ask: &Ask, answer: &Answer) -> String {
        let way = if ask.way == Way::ToFields { "to-fields" } else { "from-fields" };
        let rooms = ask.rooms.map(|room| room.to_string()).join(":");
        let asked = format!("{way} {} {} {rooms} {}", hex(&ask.golden), ask.nesting, ask.room);
        match answer {
            Answer::Refused { number, place } => format!("{asked} refused {number} {place}"),
            Answer::Written(bytes) => format!("{asked} {}", hex(bytes)),
        }
    }

    fn of_row(row: &str) -> Option<(Ask, Answer)> {
        let words: Vec<&str> = row.split(' ').collect();
        let [way, golden, nesting, rooms, room, ref told @ ..] = words[..] else { return None };
        let way = match way {
            "to-fields" => Way::ToFields,
            "from-fields" => Way::FromFields,
            _ => return None,
        };
        let rooms: Option<Vec<u32>> = rooms.split(':').map(|room| room.parse().ok()).collect();
        let rooms = rooms?.try_into().ok()?;
        let ask = Ask { way, golden: of_hex(golden)?, nesting: nesting.parse().ok()?, rooms, room: room.parse().ok()? };
        let answer = match told {
            ["refused", number, place] => Answer::Refused { number: number.parse().ok()?, place: place.parse().ok()? },
            [bytes] => Answer::Written(of_hex(bytes)?),
            _ => return None,
        };
        Some((ask, answer))
    }
}

/// The move's answer, its output, and the three stores.
fn moved(ask: &Ask) -> (Moved, Lent<u8>, [Lent<u32>; 3]) {
    let golden = Part::new(&ask.golden);
    let mut out = Lent::new(ask.room);
    let mut stores = [0, 1, 2].map(|i| Lent::new(ask.rooms[i] as usize * WIDTHS[i] + (WIDTHS[i] - 1).min(1)));
    let lens = stores.each_ref().map(Lent::len);
    let [nodes, entries, slots] = stores.each_mut().map(|store| store.pointer());
    let s = golden.bytes();
    let call = match ask.way {
        Way::ToFields => sys::sill_golden_to_fields,
        Way::FromFields => sys::sill_golden_from_fields,
    };
    // SAFETY: golden, stores and output are lent for the lengths given.
    let answer = unsafe {
        let (out, room) = (out.pointer(), out.len());
        call(s.as_ptr(), s.len(), nodes, lens[0], entries, lens[1], slots, lens[2], ask.nesting, out, room)
    };
    (answer, out, stores)
}

/// A golden whose result is this value, made ready to be moved into fields and, where a field holds it, back.
pub fn deep(result: &[u8]) -> Box<dyn Fn() -> Result<(), String>> {
    let plain = [&small_code(), result].concat();
    let rooms = [plain.len() as u32; 3];
    let ask = Ask { way: Way::ToFields, nesting: refusals::MOST_NESTING, rooms, room: plain.len() + 10, golden: plain };
    Box::new(move || {
        let (told, out, _) = moved(&ask);
        if told.refusal == refusals::VALUE_TOO_LONG {
            return Ok(());
        }
        let golden = out.cells()[..told.written as usize].to_vec();
        let (back, ..) = moved(&Ask { way: Way::FromFields, golden, ..ask.clone() });
        let answers = [told.refusal, back.refusal];
        if answers == [refusals::ACCEPTED; 2] { Ok(()) } else { Err(format!("{answers:?}")) }
    })
}

fn check_move(ask: &Ask, answer: &Answer) -> Result<(), String> {
    let (told, out, stores) = moved(ask);
    let (refusal, place, bytes): (u32, u32, &[u8]) = match answer {
        Answer::Refused { number, place } => (*number, *place, &[]),
        Answer::Written(bytes) => (refusals::ACCEPTED, 0, bytes),
    };
    let expected = Moved { refusal, place, written: bytes.len() as u32 };
    if told != expected {
        return Err(format!("{told:?} and not {expected:?}"));
    }
    out.holds("out", bytes)?;
    stores.iter().zip(STORES).try_for_each(|(store, name)| store.holds(name, &[]))
}

/// One byte short: refused at that many, and the output is all zero.
fn check_no_room(ask: &Ask, written: usize) -> Result<(), String> {
    let short = Ask { room: written - 1, ..ask.clone() };
    check_move(&short, &Answer::Refused { number: refusals::NO_ROOM, place: written as u32 - 1 })
}

/// The other move gives the golden back, byte for byte.
fn check_back(ask: &Ask, bytes: &[u8]) -> Result<(), String> {
    let way = if ask.way == Way::ToFields { Way::FromFields } else { Way::ToFields };
    let back = Ask { way, golden: bytes.to_vec(), room: ask.golden.len(), ..ask.clone() };
    check_move(&back, &Answer::Written(ask.golden.clone())).map_err(|difference| format!("and back: {difference}"))
}

fn hold_asks<I: Iterator<Item = Ask>>(asks: impl Fn() -> I + Sync) -> bool {
    let tally = shares::tallied("moves", |share, tally| {
        for ask in share.cases(asks()) {
            let answer = by_the_model(&ask);
            tally.count(Moves::class(&ask, &answer), held::<Moves>(&ask, &answer));
            if !tally.none_failed() {
                share.stop();
            }
        }
    });
    tally.finish()
}

pub fn hold(seed: u64, random: usize) -> bool {
    hold_asks(|| sheets().into_iter().chain(short_asks()).chain(random_asks(seed, random)).chain(extremes()))
}

/// Of one round of the long form.
#[cfg(carried)]
pub fn hold_round(seed: u64, random: usize) -> bool {
    hold_asks(|| random_asks(seed, random))
}
