//! Settings files and their editions (document 02, K8), held to a model of its own and to what is promised: an unchanged field is the
//! same bytes where it stood, a rewriting with no changes gives the file back, a save leaves every edition what it was.
mod archives;
mod model;
mod promised;
mod questions;

pub use model::{by_the_model, fields};
pub use questions::{field, random_asks};

use crate::lent::{Lent, Part};
use crate::shares;
use crate::subject::{Subject, held};
use crate::text::{hex, of_hex};
use promised::{check_rewritten, check_saved};
use questions::{extremes, short_asks};
use sillgarland_sys::{self as sys, Edition, Rewritten, Saved, Setting, refusals};

#[derive(Clone, Debug)]
pub enum Ask {
    Look { own: Vec<u8>, fallback: Vec<u8>, tag: u32 },
    Rewrite { file: Vec<u8>, changes: Vec<u8>, room: usize },
    Save { archive: Vec<u8>, file: Vec<u8>, room: usize },
    Edition { archive: Vec<u8>, edition: Vec<u8> },
}

#[derive(Clone, Debug, PartialEq, Eq)]
pub enum Answer {
    Refused {
        number: u32,
        place: u32,
    },
    /// Which file, from where, how many bytes.
    Found([u32; 3]),
    Written(Vec<u8>),
    /// From where in the archive, how many bytes.
    Saved([u32; 2]),
}

pub struct SettingsFiles;

impl Subject for SettingsFiles {
    const NAME: &'static str = "settings";
    type Ask = Ask;
    type Answer = Answer;

    fn class(ask: &Ask, answer: &Answer) -> &'static str {
        match (ask, answer) {
            (_, Answer::Refused { number: refusals::REPEATED_TAG, .. }) => "refused: a tag is repeated",
            (_, Answer::Refused { number: refusals::DATA_TOO_SHORT, .. }) => "refused: a field or a record is cut",
            (_, Answer::Refused { number: refusals::NO_ROOM, .. }) => "refused: no room",
            (Ask::Look { .. }, Answer::Refused { .. }) => "refused: a tag in neither",
            (Ask::Save { .. }, Answer::Refused { .. }) => "refused: no edition, or saved already",
            (_, Answer::Refused { .. }) => "refused: no such edition",
            (_, Answer::Found([0, ..])) => "found in the override",
            (_, Answer::Found(_)) => "found in the default",
            (Ask::Rewrite { changes, .. }, _) if changes.is_empty() => "rewritten without changes",
            (Ask::Rewrite { .. }, _) => "rewritten",
            (Ask::Save { .. }, _) => "saved",
            _ => "rolled back",
        }
    }

    fn check(ask: &Ask, answer: &Answer) -> Result<(), String> {
        match ask {
            Ask::Look { own, fallback, tag } => check_look(own, fallback, *tag, answer),
            Ask::Edition { archive, edition } => check_edition(archive, edition, answer),
            Ask::Rewrite { .. } | Ask::Save { .. } => {
                check_writing(ask, room_of(ask), answer)?;
                let Answer::Written(bytes) = answer else { return Ok(()) };
                check_no_room(ask, bytes.len())?;
                match ask {
                    Ask::Rewrite { file, changes, .. } => check_rewritten(file, changes, bytes),
                    Ask::Save { archive, file, .. } => check_saved(archive, file, bytes),
                    _ => Ok(()),
                }
            }
        }
    }

    fn row(ask: &Ask, answer: &Answer) -> String {
        let asked = match ask {
            Ask::Look { own, fallback, tag } => format!("look {} {} {tag}", hex(own), hex(fallback)),
            Ask::Rewrite { file, changes, room } => format!("rewrite {} {} {room}", hex(file), hex(changes)),
            Ask::Save { archive, file, room } => format!("save {} {} {room}", hex(archive), hex(file)),
            Ask::Edition { archive, edition } => format!("edition {} {}", hex(archive), hex(edition)),
        };
        match answer {
            Answer::Refused { number, place } => format!("{asked} refused {number} {place}"),
            Answer::Found([file, start, size]) => format!("{asked} {file}:{start}:{size}"),
            Answer::Written(bytes) => format!("{asked} {}", hex(bytes)),
            Answer::Saved([start, size]) => format!("{asked} {start}:{size}"),
        }
    }

    fn of_row(row: &str) -> Option<(Ask, Answer)> {
        let words: Vec<&str> = row.split(' ').collect();
        let (ask, rest) = match words[..] {
            ["look", own, fallback, tag, ..] => {
                (Ask::Look { own: of_hex(own)?, fallback: of_hex(fallback)?, tag: tag.parse().ok()? }, &words[4..])
            }
            ["rewrite", file, changes, room, ..] => {
                let (file, changes) = (of_hex(file)?, of_hex(changes)?);
                (Ask::Rewrite { file, changes, room: room.parse().ok()? }, &words[4..])
            }
            ["save", archive, file, room, ..] => {
                (Ask::Save { archive: of_hex(archive)?, file: of_hex(file)?, room: room.parse().ok()? }, &words[4..])
            }
            ["edition", archive, edition, ..] => {
                (Ask::Edition { archive: of_hex(archive)?, edition: of_hex(edition)? }, &words[3..])
            }
            _ => return None,
        };
        let numbers = |text: &str| text.split(':').map(|number| number.parse().ok()).collect::<Option<Vec<u32>>>();
        let answer = match (&ask, rest) {
            (_, ["refused", number, place]) => {
                Answer::Refused { number: number.parse().ok()?, place: place.parse().ok()? }
            }
            (Ask::Look { .. }, [told]) => Answer::Found(numbers(told)?.try_into().ok()?),
            (Ask::Edition { .. }, [told]) => Answer::Saved(numbers(told)?.try_into().ok()?),
            (_, [bytes]) => Answer::Written(of_hex(bytes)?),
            _ => return None,
        };
        Some((ask, answer))
    }
}

fn same<T: PartialEq + std::fmt::Debug>(name: &str, answered: T, expected: T) -> Result<(), String> {
    if answered != expected {
        return Err(format!("{name}: {answered:?} and not {expected:?}"));
    }
    Ok(())
}

fn look(own: &[u8], fallback: &[u8], tag: u32) -> Setting {
    let (own, fallback) = (Part::new(own), Part::new(fallback));
    let (s, t) = (own.bytes(), fallback.bytes());
    // SAFETY: both files are lent for the lengths given.
    unsafe { sys::sill_setting(s.as_ptr(), s.len(), t.as_ptr(), t.len(), tag) }
}

fn edition(archive: &[u8], wanted: &[u8]) -> Edition {
    let (archive, wanted) = (Part::new(archive), Part::new(wanted));
    let (s, t) = (archive.bytes(), wanted.bytes());
    // SAFETY: archive and edition are lent for the lengths given.
    unsafe { sys::sill_edition(s.as_ptr(), s.len(), t.as_ptr(), t.len()) }
}

/// A rewriting or a save: refusal, place, how many bytes, and the output.
fn write(ask: &Ask, room: usize) -> ([u32; 3], Lent<u8>) {
    let mut out = Lent::new(room);
    let told = match ask {
        Ask::Rewrite { file, changes, .. } => {
            let (file, changes) = (Part::new(file), Part::new(changes));
            let (s, t) = (file.bytes(), changes.bytes());
            // SAFETY: both files and the output are lent for the lengths given.
            let Rewritten { refusal, place, written } = unsafe {
                sys::sill_rewrite_settings(s.as_ptr(), s.len(), t.as_ptr(), t.len(), out.pointer(), out.len())
            };
            [refusal, place, written]
        }
        Ask::Save { archive, file, .. } => {
            let (archive, file) = (Part::new(archive), Part::new(file));
            let (s, t) = (archive.bytes(), file.bytes());
            // SAFETY: archive, file and output are lent for the lengths given.
            let Saved { refusal, place, written } =
                unsafe { sys::sill_save_edition(s.as_ptr(), s.len(), t.as_ptr(), t.len(), out.pointer(), out.len()) };
            [refusal, place, written]
        }
        Ask::Look { .. } | Ask::Edition { .. } => unreachable!("they write nothing"),
    };
    (told, out)
}

fn room_of(ask: &Ask) -> usize {
    match ask {
        Ask::Rewrite { room, .. } | Ask::Save { room, .. } => *room,
        Ask::Look { .. } | Ask::Edition { .. } => 0,
    }
}

fn check_look(own: &[u8], fallback: &[u8], tag: u32, answer: &Answer) -> Result<(), String> {
    let (refusal, place, [file, start, size]) = match *answer {
        Answer::Refused { number, place } => (number, place, [0; 3]),
        Answer::Found(found) => (refusals::ACCEPTED, 0, found),
        _ => return Err("a lookup has no such answer".to_string()),
    };
    same("sill_setting", look(own, fallback, tag), Setting { refusal, place, file, start, size })
}

fn check_edition(archive: &[u8], wanted: &[u8], answer: &Answer) -> Result<(), String> {
    let (refusal, place, [start, size]) = match *answer {
        Answer::Refused { number, place } => (number, place, [0; 2]),
        Answer::Saved(part) => (refusals::ACCEPTED, 0, part),
        _ => return Err("an edition has no such answer".to_string()),
    };
    same("sill_edition", edition(archive, wanted), Edition { refusal, place, start, size })
}

fn check_writing(ask: &Ask, room: usize, answer: &Answer) -> Result<(), String> {
    let (told, out) = write(ask, room);
    match answer {
        Answer::Refused { number, place } => {
            same("the writing", told, [*number, *place, 0])?;
            out.holds("out", &[])
        }
        Answer::Written(bytes) => {
            same("the writing", told, [refusals::ACCEPTED, 0, bytes.len() as u32])?;
            out.holds("out", bytes)
        }
        _ => Err("a writing has no such answer".to_string()),
    }
}

/// One byte short: refused at that many, and the output is all zero.
fn check_no_room(ask: &Ask, written: usize) -> Result<(), String> {
    if written == 0 {
        return Ok(());
    }
    let short = Answer::Refused { number: refusals::NO_ROOM, place: written as u32 - 1 };
    check_writing(ask, written - 1, &short)
}

fn hold_asks<I: Iterator<Item = Ask>>(asks: impl Fn() -> I + Sync) -> bool {
    let tally = shares::tallied("settings", |share, tally| {
        for ask in share.cases(asks()) {
            let answer = by_the_model(&ask);
            tally.count(SettingsFiles::class(&ask, &answer), held::<SettingsFiles>(&ask, &answer));
            if !tally.none_failed() {
                share.stop();
            }
        }
    });
    tally.finish()
}

pub fn hold(seed: u64, random: usize) -> bool {
    let alone = hold_asks(|| short_asks().chain(random_asks(seed, random)).chain(extremes()));
    archives::hold() && alone
}

/// Of one round of the long form.
#[cfg(carried)]
pub fn hold_round(seed: u64, random: usize) -> bool {
    hold_asks(|| random_asks(seed, random))
}
