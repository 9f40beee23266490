//! Local names: split_localplus.
use crate::lent::{Lent, Part};
use crate::subject::Subject;
use crate::text::{hex, numbers, of_hex, of_numbers};
use sillgarland_sys::{self as sys, Split, refusals};

#[derive(Clone, Debug)]
pub struct Ask {
    pub kinds: Vec<u8>,
    pub names: u32,
    pub args: u32,
    pub kwonly: u32,
    pub flags: u32,
}

pub enum Answer {
    /// Every refusal but no room stands at 0.
    Refused { number: u32 },
    /// What the five stores hold, in the order of the call; the last is empty where the list is absent.
    Accepted { stores: [Vec<u32>; 5] },
}

pub struct LocalNames;

const STORES: [&str; 5] = ["locals", "cells", "frees", "map", "cell_args"];

impl Subject for LocalNames {
    const NAME: &'static str = "localsplus";
    type Ask = Ask;
    type Answer = Answer;

    fn class(ask: &Ask, answer: &Answer) -> &'static str {
        match answer {
            _ if is_too_long(ask) => "listed difference: kinds above 16 MiB are refused (the Rust splits them)",
            Answer::Refused { number: refusals::NUMBER_RANGE } => {
                "refused: the sum of arguments leaves its range (there the checked Rust panics)"
            }
            Answer::Refused { .. } => "refused: names and kinds of unequal length",
            Answer::Accepted { stores } if stores[4].is_empty() => "split, no argument cells",
            Answer::Accepted { .. } => "split, with argument cells",
        }
    }

    fn check(ask: &Ask, answer: &Answer) -> Result<(), String> {
        match answer {
            _ if is_too_long(ask) => check_refused(ask, refusals::INPUT_TOO_LONG),
            Answer::Refused { number } => check_refused(ask, *number),
            Answer::Accepted { stores } => {
                check_accepted(ask, stores)?;
                check_no_room(ask)
            }
        }
    }

    fn row(ask: &Ask, answer: &Answer) -> String {
        let Ask { kinds, names, args, kwonly, flags } = ask;
        let asked = format!("split {} {names} {args} {kwonly} {flags}", hex(kinds));
        match answer {
            Answer::Refused { number } => format!("{asked} refused {number} 0"),
            Answer::Accepted { stores } => format!("{asked} {}", stores.each_ref().map(|s| numbers(s)).join(" ")),
        }
    }

    fn of_row(row: &str) -> Option<(Ask, Answer)> {
        let ["split", kinds, names, args, kwonly, flags, rest @ ..] = &row.split(' ').collect::<Vec<_>>()[..] else {
            return None;
        };
        let ask = Ask {
            kinds: of_hex(kinds)?,
            names: names.parse().ok()?,
            args: args.parse().ok()?,
            kwonly: kwonly.parse().ok()?,
            flags: flags.parse().ok()?,
        };
        let answer = match rest {
            ["refused", number, "0"] => Answer::Refused { number: number.parse().ok()? },
            [a, b, c, d, e] => Answer::Accepted {
                stores: [of_numbers(a)?, of_numbers(b)?, of_numbers(c)?, of_numbers(d)?, of_numbers(e)?],
            },
            _ => return None,
        };
        Some((ask, answer))
    }
}

fn is_too_long(ask: &Ask) -> bool {
    ask.kinds.len() > refusals::MOST_BYTES as usize
}

fn refused(number: u32, place: usize) -> Split {
    Split { refusal: number, place: place as u32, locals: 0, cells: 0, frees: 0, present: 0 }
}

/// The five lists and their counts, in stores of exactly as many numbers as names and in longer ones.
fn check_accepted(ask: &Ask, stores: &[Vec<u32>; 5]) -> Result<(), String> {
    let [locals, cells, frees, _, cell_args] = stores;
    let expected = Split {
        refusal: refusals::ACCEPTED,
        place: 0,
        locals: locals.len() as u32,
        cells: cells.len() as u32,
        frees: frees.len() as u32,
        present: u32::from(!cell_args.is_empty()),
    };
    let names = ask.names as usize;
    for lens in [[names; 5], [0, 3, 1, 4, 2].map(|more| names + more)] {
        hold(ask, lens, expected, stores)?;
    }
    Ok(())
}

/// Refused at 0 before any room is asked for, every store zero.
fn check_refused(ask: &Ask, number: u32) -> Result<(), String> {
    for lens in [[0; 5], [3, 1, 4, 0, 5]] {
        hold(ask, lens, refused(number, 0), &Default::default())?;
    }
    Ok(())
}

/// One store shorter than the names, and all later ones shorter still: refused at the first short one's length.
fn check_no_room(ask: &Ask) -> Result<(), String> {
    let names = ask.names as usize;
    if names < 2 {
        return Ok(());
    }
    for short in 0..STORES.len() {
        let mut lens = [names; 5];
        lens[short] = names - 1;
        lens[short + 1..].fill(names - 2);
        hold(ask, lens, refused(refusals::NO_ROOM, names - 1), &Default::default())?;
    }
    Ok(())
}

fn hold(ask: &Ask, lens: [usize; 5], expected: Split, written: &[Vec<u32>; 5]) -> Result<(), String> {
    let part = Part::new(&ask.kinds);
    let (answered, stores) = split(ask, &part, lens);
    if answered != expected {
        return Err(format!("with stores of {lens:?}: {answered:?} and not {expected:?}"));
    }
    for ((store, name), written) in stores.iter().zip(STORES).zip(written) {
        store.holds(name, written)?;
    }
    Ok(())
}

pub fn split(ask: &Ask, part: &Part, lens: [usize; 5]) -> (Split, [Lent<u32>; 5]) {
    let kinds = part.bytes();
    let mut stores = lens.map(Lent::new);
    let [locals, cells, frees, map, cell_args] = stores.each_mut().map(|store| store.pointer());
    // SAFETY: kinds and stores are lent for the lengths given.
    let answered = unsafe {
        sys::sill_split(
            kinds.as_ptr(),
            kinds.len(),
            ask.names,
            ask.args,
            ask.kwonly,
            ask.flags,
            locals,
            lens[0],
            cells,
            lens[1],
            frees,
            lens[2],
            map,
            lens[3],
            cell_args,
            lens[4],
        )
    };
    (answered, stores)
}

#[cfg(carried)]
pub mod carried_side {
    //! The Rust's answers, and the questions put to both.
    use super::{Answer, Ask, LocalNames};
    use crate::panics::unless_overflow;
    use crate::random::Random;
    use crate::shrink::smaller;
    use crate::subject::Carried;
    use carried::bytecode::CodeFlags;
    use carried::marshal::{LocalsPlusResult, split_localplus};
    use sillgarland_sys::refusals;

    impl Carried for LocalNames {
        /// The Rust splits the names themselves: given their positions as names, it answers with positions.
        fn by_the_rust(ask: &Ask) -> Answer {
            let names: Vec<u32> = (0..ask.names).collect();
            let flags = CodeFlags::from_bits_truncate(ask.flags);
            match unless_overflow(|| split_localplus(&names, &ask.kinds, ask.args, ask.kwonly, flags)) {
                None => Answer::Refused { number: refusals::NUMBER_RANGE },
                Some(Err(_)) => Answer::Refused { number: refusals::INVALID_BYTECODE },
                Some(Ok(split)) => Answer::Accepted { stores: stores(split) },
            }
        }

        /// With a name less, or a kind of no bits.
        fn smaller(ask: &Ask) -> Vec<Ask> {
            let less =
                |kinds: Vec<u8>| Ask { names: ask.names + kinds.len() as u32 - ask.kinds.len() as u32, kinds, ..*ask };
            if (ask.names as usize) < ask.kinds.len() { Vec::new() } else { smaller(&ask.kinds).map(less).collect() }
        }
    }

    fn stores(split: LocalsPlusResult<u32>) -> [Vec<u32>; 5] {
        let cell_args = split.cell2arg.unwrap_or_default().iter().map(|position| *position as u32).collect();
        [split.varnames, split.cellvars, split.freevars, split.deref_map, cell_args]
    }

    const KINDS: [u8; 8] = [0x20, 0x40, 0x60, 0x80, 0xA0, 0xC0, 0xE0, 0x1F];
    const FLAGS: [u32; 5] = [0, 0x04, 0x08, 0x0C, 0xFFFF_FFF3];

    /// All lists of up to so many kinds, for several arguments and flags; kinds above 16 MiB; then random ones.
    pub fn asks(longest: u32, random: usize) -> impl Iterator<Item = Ask> {
        short_lists(longest).chain([too_long()]).chain(random_lists(5, random))
    }

    /// Of one round of the long form.
    pub fn asks_of_round(round: u64, random: usize) -> impl Iterator<Item = Ask> {
        random_lists(1000 + round, random)
    }

    /// A selection of the above for the list in the repository.
    pub fn asks_to_list() -> impl Iterator<Item = Ask> {
        short_lists(2).step_by(3).chain(random_lists(5, 2000).filter(|ask| ask.kinds.len() < 20))
    }

    fn short_lists(longest: u32) -> impl Iterator<Item = Ask> {
        let lists = (0..=longest).flat_map(|len| {
            let digits = move |number: usize| (0..len).map(move |i| KINDS[number >> (3 * i) & 7]).collect();
            (0..1usize << (3 * len)).map(digits)
        });
        lists.flat_map(|kinds: Vec<u8>| {
            let names = kinds.len() as u32;
            let ask = move |(args, kwonly, flags)| Ask { kinds: kinds.clone(), names, args, kwonly, flags };
            let sums = [(0, 0), (1, 0), (0, 1), (1, 1), (2, 1), (u32::MAX, 0), (u32::MAX - 1, 0)];
            sums.into_iter().flat_map(|(args, kwonly)| FLAGS.map(|flags| (args, kwonly, flags))).map(ask)
        })
    }

    fn too_long() -> Ask {
        let names = refusals::MOST_BYTES + 1;
        Ask { kinds: vec![0; names as usize], names, args: 0, kwonly: 0, flags: 0 }
    }

    fn random_lists(seed: u64, count: usize) -> impl Iterator<Item = Ask> {
        let mut random = Random::new(seed);
        (0..count).map(move |_| random_list(&mut random))
    }

    /// Kinds of any bits; arguments few, or so many that the sum is near 2^32; now and then a wrong number of names.
    fn random_list(random: &mut Random) -> Ask {
        let most = random.one_of(&[6, 20, 300]);
        let kinds: Vec<u8> = (0..random.below(most)).map(|_| random.byte()).collect();
        let names = match random.below(20) {
            0 => random.below(12) as u32,
            _ => kinds.len() as u32,
        };
        let (args, kwonly) = match random.below(10) {
            0 => (u32::MAX - random.below(4) as u32, random.below(4) as u32),
            1 => (random.word() as u32, random.word() as u32),
            _ => (random.below(most) as u32 / 2, random.below(4) as u32),
        };
        Ask { kinds, names, args, kwonly, flags: random.one_of(&FLAGS) | random.of_any_width() & !0x0C }
    }
}
