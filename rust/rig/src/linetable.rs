//! Line tables: linetable_to_locations.
use crate::lent::{Lent, Part};
use crate::subject::Subject;
use crate::text::{hex, of_hex, of_runs, runs};
use sillgarland_sys::{self as sys, Located, Location, refusals};

#[derive(Clone, Debug)]
pub struct Ask {
    pub table: Vec<u8>,
    pub first_line: i32,
    pub count: u32,
}

pub enum Answer {
    Refused {
        number: u32,
        place: u32,
    },
    /// A number of 2^32 or more in the entry at `place`: the Rust drops its high bits and shows these records, or panics at
    /// a later entry, and then there are none.
    Dropped {
        place: u32,
        shown: Vec<Location>,
    },
    Accepted {
        records: Vec<Location>,
        origin: Origin,
    },
}

#[derive(Clone, Copy)]
pub struct Origin {
    pub from_entries: u32,
    pub whole: bool,
}

pub struct LineTables;

impl Subject for LineTables {
    const NAME: &'static str = "linetable";
    type Ask = Ask;
    type Answer = Answer;

    fn class(ask: &Ask, answer: &Answer) -> &'static str {
        match answer {
            _ if is_too_long(ask) => "listed difference: a table above 16 MiB is refused (the Rust reads it)",
            Answer::Refused { .. } => "refused: a number leaves its range (there the checked Rust panics)",
            Answer::Dropped { .. } => {
                "listed difference: a number of 2^32 or more is refused (the Rust drops its high bits and shows a line)"
            }
            Answer::Accepted { .. } if ask.table.is_empty() => "an empty table",
            Answer::Accepted { origin, .. } if origin.whole => "every record alike, whole",
            Answer::Accepted { .. } => "every record alike, not whole",
        }
    }

    fn check(ask: &Ask, answer: &Answer) -> Result<(), String> {
        let part = Part::new(&ask.table);
        match answer {
            _ if is_too_long(ask) => check_refused(ask, &part, refusals::INPUT_TOO_LONG, 0),
            Answer::Refused { number, place } => check_refused(ask, &part, *number, *place),
            Answer::Dropped { place, .. } => check_refused(ask, &part, refusals::NUMBER_RANGE, *place),
            Answer::Accepted { records, origin } => check_accepted(ask, &part, records, *origin),
        }?;
        check_no_room(ask, &part)
    }

    fn row(ask: &Ask, answer: &Answer) -> String {
        let asked = format!("locate {} {} {}", hex(&ask.table), ask.first_line, ask.count);
        match answer {
            Answer::Refused { number, place } => format!("{asked} refused {number} {place}"),
            Answer::Dropped { place, shown } => format!("{asked} dropped {place} {}", runs(shown)),
            Answer::Accepted { records, origin: Origin { from_entries, whole } } => {
                format!("{asked} {from_entries}:{} {}", u32::from(*whole), runs(records))
            }
        }
    }

    fn of_row(row: &str) -> Option<(Ask, Answer)> {
        let ["locate", table, first_line, count, rest @ ..] = &row.split(' ').collect::<Vec<_>>()[..] else {
            return None;
        };
        let ask = Ask { table: of_hex(table)?, first_line: first_line.parse().ok()?, count: count.parse().ok()? };
        let answer = match rest {
            ["refused", number, place] => Answer::Refused { number: number.parse().ok()?, place: place.parse().ok()? },
            ["dropped", place, shown] => Answer::Dropped { place: place.parse().ok()?, shown: of_runs(shown)? },
            [origin, records] => Answer::Accepted { records: of_runs(records)?, origin: of_origin(origin)? },
            _ => return None,
        };
        Some((ask, answer))
    }
}

fn of_origin(text: &str) -> Option<Origin> {
    let (from_entries, whole) = text.split_once(':')?;
    Some(Origin { from_entries: from_entries.parse().ok()?, whole: whole == "1" })
}

fn is_too_long(ask: &Ask) -> bool {
    ask.table.len() > refusals::MOST_BYTES as usize
}

fn refused(number: u32, place: u32) -> Located {
    Located { refusal: number, place, from_entries: 0, whole: 0 }
}

/// The records in the flat store and in the store of structs, with zeros after them.
fn check_accepted(ask: &Ask, part: &Part, records: &[Location], origin: Origin) -> Result<(), String> {
    let Origin { from_entries, whole } = origin;
    let expected = Located { refusal: refusals::ACCEPTED, place: 0, from_entries, whole: whole.into() };
    check_both(ask, part, expected, records)
}

/// The same refusal from both, every store zero.
fn check_refused(ask: &Ask, part: &Part, number: u32, place: u32) -> Result<(), String> {
    check_both(ask, part, refused(number, place), &[])
}

fn check_both(ask: &Ask, part: &Part, expected: Located, records: &[Location]) -> Result<(), String> {
    let (count, numbers) = (ask.count as usize, numbers(records));
    let (answered, flat) = locate(ask, part, 4 * count + 3);
    same("sill_locate", answered, expected)?;
    flat.holds("records", &numbers)?;
    let (answered, flat, out) = locations(ask, part, 4 * count, count + 1);
    same("sill_locations", answered, expected)?;
    flat.holds("flat", &numbers)?;
    out.holds("out", records)
}

/// Fewer records than instructions in one store or in both: refused at the smaller capacity, before the table is read.
fn check_no_room(ask: &Ask, part: &Part) -> Result<(), String> {
    if ask.count < 2 || is_too_long(ask) {
        return Ok(());
    }
    let count = ask.count as usize;
    let (answered, flat) = locate(ask, part, 4 * count - 1);
    same("sill_locate without room", answered, refused(refusals::NO_ROOM, ask.count - 1))?;
    flat.holds("records", &[])?;
    for (flat_room, out_room) in
        [(count - 1, count), (count, count - 1), (count - 2, count - 1), (count - 1, count - 2)]
    {
        let (answered, flat, out) = locations(ask, part, 4 * flat_room + 3, out_room);
        let expected = refused(refusals::NO_ROOM, flat_room.min(out_room) as u32);
        same("sill_locations without room", answered, expected)?;
        flat.holds("flat", &[])?;
        out.holds("out", &[])?;
    }
    Ok(())
}

fn same(name: &str, answered: Located, expected: Located) -> Result<(), String> {
    if answered != expected {
        return Err(format!("{name}: {answered:?} and not {expected:?}"));
    }
    Ok(())
}

pub fn locate(ask: &Ask, part: &Part, room: usize) -> (Located, Lent<u32>) {
    let table = part.bytes();
    let mut flat = Lent::new(room);
    // SAFETY: table and store are lent for the lengths given.
    let answered =
        unsafe { sys::sill_locate(table.as_ptr(), table.len(), ask.first_line, ask.count, flat.pointer(), flat.len()) };
    (answered, flat)
}

fn locations(ask: &Ask, part: &Part, flat_len: usize, out_len: usize) -> (Located, Lent<u32>, Lent<Location>) {
    let table = part.bytes();
    let (mut flat, mut out) = (Lent::new(flat_len), Lent::new(out_len));
    // SAFETY: table and stores are lent for the lengths given.
    let answered = unsafe {
        sys::sill_locations(
            table.as_ptr(),
            table.len(),
            ask.first_line,
            ask.count,
            flat.pointer(),
            flat.len(),
            out.pointer(),
            out.len(),
        )
    };
    (answered, flat, out)
}

fn numbers(records: &[Location]) -> Vec<u32> {
    records.iter().flat_map(|record| [record.line, record.column, record.end_line, record.end_column]).collect()
}

#[cfg(carried)]
pub mod carried_side {
    //! The Rust's answers, and the questions put to both.
    use super::{Answer, Ask, LineTables, Origin};
    use crate::panics::unless_overflow;
    use crate::random::Random;
    use crate::shape;
    use crate::shrink::smaller;
    use crate::subject::Carried;
    use crate::varint::carried_side::strings_of;
    use carried::{SourceLocation, marshal, varint};
    use sillgarland_sys::{Location, refusals};

    impl Carried for LineTables {
        /// The Rust shows the records, or panics; at which entry, where records come from, and whether it dropped bits of a
        /// number before it panicked, the table's shape tells.
        fn by_the_rust(ask: &Ask) -> Answer {
            let records = records(ask, &ask.table);
            let panics = records.is_none().then(|| place_of_panic(ask));
            match (dropped_bits(ask), panics) {
                (Some(place), panics) if panics.is_none_or(|panics| place < panics) => {
                    Answer::Dropped { place, shown: records.unwrap_or_default() }
                }
                (_, Some(place)) => Answer::Refused { number: refusals::NUMBER_RANGE, place },
                (_, None) => Answer::Accepted { records: records.unwrap_or_default(), origin: origin(ask) },
            }
        }

        fn smaller(ask: &Ask) -> Vec<Ask> {
            smaller(&ask.table).map(|table| Ask { table, ..*ask }).collect()
        }
    }

    fn records(ask: &Ask, table: &[u8]) -> Option<Vec<Location>> {
        let read = || marshal::linetable_to_locations(table, ask.first_line, ask.count as usize);
        Some(unless_overflow(read)?.iter().map(record).collect())
    }

    /// The start of the first entry with which, but without which not, the Rust panics.
    fn place_of_panic(ask: &Ask) -> u32 {
        let entries = shape::entries(&ask.table, ask.count);
        let panics = |end: usize| records(ask, &ask.table[..end]).is_none();
        entries.iter().find(|entry| panics(entry.end)).expect("some entry panics").start as u32
    }

    /// The start of the first entry of whose numbers the Rust drops bits.
    fn dropped_bits(ask: &Ask) -> Option<u32> {
        let entries = shape::entries(&ask.table, ask.count);
        Some(entries.iter().find(|entry| entry.drops_bits)?.start as u32)
    }

    fn origin(ask: &Ask) -> Origin {
        let placed = shape::placed(&shape::entries(&ask.table, ask.count));
        Origin { from_entries: placed.min(ask.count), whole: shape::is_whole(&ask.table, ask.count) }
    }

    fn record((start, end): &(SourceLocation, SourceLocation)) -> Location {
        Location {
            line: start.line.get() as u32,
            column: start.character_offset.get() as u32,
            end_line: end.line.get() as u32,
            end_column: end.character_offset.get() as u32,
        }
    }

    const FIRST_LINES: [i32; 6] = [10, 0, -1, i32::MAX, i32::MIN, 1];
    const COUNTS: [u32; 5] = [3, 9, 1, 0, 17];

    /// First lines and counts for which all tables of three bytes are tried; the short form takes only the first.
    const OF_THREE: [(i32, u32); 6] = [(10, 3), (i32::MAX, 9), (0, 17), (i32::MIN, 2), (-1, 1), (i32::MAX - 1, 24)];

    /// How much is asked: how many of OF_THREE, and how many random tables.
    #[derive(Clone, Copy)]
    pub struct Extent {
        pub of_three: usize,
        pub random: usize,
    }

    /// Short tables, numbers about 2^32, one table above 16 MiB, random ones, and CPython's own: as they are and damaged.
    pub fn asks(extent: Extent, made: &[Ask]) -> impl Iterator<Item = Ask> {
        let long = sixth_bytes().chain([too_long()]);
        short_tables(extent.of_three).chain(long).chain(random_tables(3, extent.random)).chain(of_made(4, made))
    }

    /// The entry `E8` with five bytes that say "more", all alike, and one or two of any value behind them, or none; as the
    /// last of a code-14 entry's numbers too.
    fn sixth_bytes() -> impl Iterator<Item = Ask> {
        let behind = (0..=1).flat_map(strings_of).chain((0..=255).map(|sixth| vec![sixth, 0x3C]));
        let numbers = behind.flat_map(|behind| [0x40, 0x7F].map(|five| [vec![five; 5], behind.clone()].concat()));
        let tables = numbers.flat_map(|number| [&[0xE8][..], &[0xF0, 0, 0, 0]].map(|entry| [entry, &number].concat()));
        tables.flat_map(|table| {
            [10, 1, i32::MIN, i32::MAX].map(|first_line| Ask { table: table.clone(), first_line, count: 1 })
        })
    }

    /// Of one round of the long form: all tables of three bytes for another first line and count, then random ones.
    pub fn asks_of_round(round: u64, random: usize, made: &[Ask]) -> impl Iterator<Item = Ask> {
        let mut chance = Random::new(round);
        let count = 1 + chance.below(24) as u32;
        let first_line = chance.of_any_width() as i32 ^ chance.one_of(&[0, -1, i32::MIN]);
        let of_three = strings_of(3).map(move |table| Ask { table, first_line, count });
        of_three.chain(random_tables(1000 + round, random)).chain(of_made(2000 + round, made))
    }

    /// All tables of up to two bytes for every first line and count above; of three bytes for some of them.
    fn short_tables(of_three: usize) -> impl Iterator<Item = Ask> {
        let pairs = FIRST_LINES.into_iter().flat_map(|first| COUNTS.map(|count| (first, count)));
        let up_to_two = pairs.flat_map(|pair| (0..=2).flat_map(strings_of).map(move |table| (table, pair)));
        let chosen = OF_THREE.into_iter().take(of_three);
        let of_three = chosen.flat_map(|pair| strings_of(3).map(move |table| (table, pair)));
        up_to_two.chain(of_three).map(|(table, (first_line, count))| Ask { table, first_line, count })
    }

    /// A selection of the above for the list in the repository.
    pub fn asks_to_list(made: &[Ask]) -> impl Iterator<Item = Ask> {
        let one_byte = (0..=1).flat_map(strings_of).map(|table| Ask { table, first_line: 10, count: 3 });
        let short_enough = |ask: &Ask| ask.table.len() < 60 && ask.count < 60;
        let chosen = of_made(4, made).filter(short_enough).step_by(60).take(600);
        one_byte.chain(sixth_bytes().step_by(7)).chain(random_tables(3, 1800)).chain(chosen)
    }

    fn too_long() -> Ask {
        Ask { table: vec![0xF8; refusals::MOST_BYTES as usize + 1], first_line: 1, count: 2 }
    }

    fn random_tables(seed: u64, count: usize) -> impl Iterator<Item = Ask> {
        let mut random = Random::new(seed);
        (0..count).map(move |_| random_table(&mut random))
    }

    /// Some entries with numbers of any width, often damaged; a count near what the entries add up to.
    fn random_table(random: &mut Random) -> Ask {
        let (mut table, mut count) = (Vec::new(), 0);
        for _ in 0..1 + random.below(6) {
            count += entry(random, &mut table);
        }
        let first_line = match random.below(4) {
            0 | 1 => random.one_of(&FIRST_LINES),
            2 => random.word() as i32,
            _ => random.below(100) as i32,
        };
        let ask = Ask { table, first_line, count };
        if random.below(2) == 0 { ask } else { damaged(random, ask) }
    }

    /// Writes one entry and gives its instructions.
    fn entry(random: &mut Random, table: &mut Vec<u8>) -> u32 {
        let (any, length) = (random.below(16) as u8, random.below(8) as u8);
        let code = random.one_of(&[any, any, 13, 14]);
        table.push(0x80 | code << 3 | length);
        match code {
            0..=9 => table.push(random.byte()),
            10..=12 => table.extend([random.byte(), random.byte()]),
            13 => signed_step(random, table),
            14 => {
                signed_step(random, table);
                for _ in 0..3 {
                    let narrow = random.of_any_width() >> random.one_of(&[0, 8, 16, 24]);
                    varint::write_varint(table, narrow);
                }
            }
            _ => {}
        }
        u32::from(length) + 1
    }

    fn signed_step(random: &mut Random, table: &mut Vec<u8>) {
        let step = random.of_any_width() as i32 >> random.one_of(&[0, 8, 16, 24]);
        varint::write_signed_varint(table, step);
    }

    /// Cut, lengthened, with a byte changed, with a run that says "more", or with a number about 2^32; or asked for another
    /// count.
    fn damaged(random: &mut Random, mut ask: Ask) -> Ask {
        let at = random.below(ask.table.len() + 1);
        match random.below(7) {
            0 => ask.table.truncate(at),
            1 => ask.table.push(random.byte()),
            2 => ask.table.splice(at..at, [0x7F; 8][..random.below(8)].iter().copied()).for_each(drop),
            3 => ask.count += 1 + random.below(3) as u32,
            4 => ask.count = ask.count.saturating_sub(1 + random.below(3) as u32),
            5 => ask.table.splice(at..at, number_about_2_32(random)).for_each(drop),
            _ if at < ask.table.len() => ask.table[at] = random.byte(),
            _ => ask.table.insert(0, random.byte()),
        }
        ask
    }

    /// Five bytes that say "more" and a sixth that may be too large.
    fn number_about_2_32(random: &mut Random) -> [u8; 6] {
        let mut number = [0; 6].map(|_| 0x40 | random.byte() & 0x3F);
        number[5] = random.below(8) as u8;
        number
    }

    /// Each table as CPython made it, and the same damaged.
    fn of_made(seed: u64, made: &[Ask]) -> impl Iterator<Item = Ask> {
        let mut random = Random::new(seed);
        made.iter().flat_map(move |ask| [damaged(&mut random, ask.clone()), ask.clone()])
    }
}
