//! What CPython says of its own code, in the file that tools/cpython-tables writes: the positions of every instruction and which
//! of their parts are there, the split of the local names, the entries of the exception tables.
use crate::exceptions;
use crate::join;
use crate::lent::Part;
use crate::linetable::{self, LineTables, Origin, locate};
use crate::localsplus::{self, split};
use crate::marshalled::{Marshalled, Module};
use crate::pieces;
#[cfg(carried)]
use crate::read;
use crate::salvage;
use crate::sources;
use crate::spans;
use crate::subject::Subject;
use crate::tally::Tally;
use crate::text::{of_hex, of_numbers};
use sillgarland_sys::{Location, refusals};

/// Holds the port to every line of the file.
pub fn hold(text: &str) -> bool {
    let mut positions = Tally::new("cpython positions");
    let mut cuts = Tally::new("cpython cut tables");
    let mut names = Tally::new("cpython names");
    let mut handlers = Tally::new("cpython exceptions");
    let mut values = Tally::new("cpython values");
    let mut nodes = Tally::new("cpython positions by node");
    let mut repairs = Tally::new("cpython tables repaired, cut at every byte");
    let mut splits = Tally::new("cpython tables split and joined");
    let mut bytes = Tally::new("cpython tables by piece");
    let mut origins = Tally::new("cpython sources");
    let mut spans = Tally::new("cpython spans");
    let mut module: Option<Module> = None;
    for row in text.lines().filter(|row| !row.starts_with('#')) {
        let tallied = match row.split(' ').next() {
            Some("lines") => of_lines(row).map(|(ask, said)| {
                positions.count("code objects, every position alike", hold_positions(&ask, &said));
                cuts.count("tables cut in the middle, none whole", hold_cut(&ask));
                salvage::hold_cuts(&mut repairs, &ask);
                join::hold_splits(&mut splits, &ask);
                sources::hold_positions(&mut origins, &ask, &said);
                pieces::hold_bytes(&mut bytes, &ask);
                if let Some(module) = &mut module {
                    let held = module.hold_lines(ask.first_line, ask.count, &as_all_shown(&ask, &said));
                    nodes.count("code objects, every position alike", held);
                }
            }),
            Some("made") => of_lines(row).map(|(ask, said)| sources::hold_positions(&mut origins, &ask, &said)),
            Some("names") => of_names(row).map(|(ask, said)| {
                names.count("code objects, names split alike", hold_names(&ask, &said));
            }),
            Some("exceptions") => of_exceptions(row).map(|(table, said)| {
                handlers.count(
                    "exception tables, every entry alike, and written as they were",
                    hold_exceptions(&table, &said),
                );
            }),
            Some("module") => Marshalled::of_row(row).map(|marshalled| {
                spans::of_reading(&mut spans, marshalled.bytes());
                module = counted(&mut values, "modules, values alike", marshalled);
            }),
            Some("body") => Marshalled::of_row(row).map(|marshalled| {
                counted(&mut values, ".pyc bodies, values alike", marshalled);
            }),
            Some("value") => Marshalled::of_row(row).map(|marshalled| {
                spans::of_reading(&mut spans, marshalled.bytes());
                counted(&mut values, "made values alike, versions 0 to 4", marshalled);
            }),
            _ => None,
        };
        if tallied.is_none() {
            let row: String = row.chars().take(300).collect();
            positions.count("", Err(format!("malformed: {row}")));
        }
    }
    [positions, cuts, repairs, splits, bytes, origins, names, handlers, values, nodes, spans]
        .map(Tally::finish)
        .iter()
        .all(|held| *held)
}

fn counted(tally: &mut Tally, class: &'static str, marshalled: Marshalled) -> Option<Module> {
    match marshalled.hold() {
        Ok(module) => {
            tally.count(class, Ok(()));
            Some(module)
        }
        Err(difference) => {
            tally.count(class, Err(difference));
            None
        }
    }
}

/// The line tables of the file, as questions for the comparison with the Rust, and for joins.
pub fn tables(text: &str) -> Vec<linetable::Ask> {
    text.lines().filter(|row| row.starts_with("lines ")).filter_map(of_lines).map(|(ask, _)| ask).collect()
}

/// The modules of the file, as questions for the comparison with the Rust.
#[cfg(carried)]
pub fn modules(text: &str) -> Vec<read::Ask> {
    let marshalled = text.lines().filter(|row| row.starts_with("module ")).filter_map(|row| row.split(' ').nth(1));
    marshalled.filter_map(of_hex).map(|input| read::Ask { input, nesting: refusals::MOST_NESTING }).collect()
}

/// A position as co_positions() gives it: line, end line, column, end column; none is None.
type Position = [Option<i64>; 4];

fn of_lines(row: &str) -> Option<(linetable::Ask, Vec<Position>)> {
    let ["lines" | "made", first_line, count, table, runs] = row.split(' ').collect::<Vec<_>>()[..] else {
        return None;
    };
    let ask =
        linetable::Ask { table: of_hex(table)?, first_line: first_line.parse().ok()?, count: count.parse().ok()? };
    let mut positions = Vec::new();
    for run in runs.split(',').filter(|run| *run != "-") {
        let (count, position) = run.split_once('*')?;
        let parts: Vec<_> = position.split(':').map(|part| part.parse().ok()).collect();
        positions.resize(positions.len() + count.parse::<usize>().ok()?, parts.try_into().ok()?);
    }
    Some((ask, positions))
}

/// Every record as CPython has it, all from entries, and the table whole.
fn hold_positions(ask: &linetable::Ask, said: &[Position]) -> Result<(), String> {
    let records = as_all_shown(ask, said);
    let origin = Origin { from_entries: ask.count, whole: true };
    let answer = linetable::Answer::Accepted { records, origin };
    LineTables::check(ask, &answer).map_err(|difference| format!("{}; {difference}", LineTables::row(ask, &answer)))
}

fn as_all_shown(ask: &linetable::Ask, said: &[Position]) -> Vec<Location> {
    let mut running = i64::from(ask.first_line);
    said.iter().map(|position| as_shown(*position, &mut running)).collect()
}

/// A position as document 01 shows it: lines of 0 or less as 1; columns from 1, none as 1; no place at all as the
/// running line, which is the last line given before, or the first line.
fn as_shown([line, end_line, column, end_column]: Position, running: &mut i64) -> Location {
    *running = line.unwrap_or(*running);
    let from_one = |column: Option<i64>| column.map_or(1, |column| column as u32 + 1);
    Location {
        line: (*running).max(1) as u32,
        column: from_one(column),
        end_line: end_line.unwrap_or(*running).max(1) as u32,
        end_column: from_one(end_column),
    }
}

/// The fault that started it all: a table cut in the middle is never whole, and what does not come from entries shows
/// the first line.
fn hold_cut(ask: &linetable::Ask) -> Result<(), String> {
    let cut = linetable::Ask { table: ask.table[..ask.table.len() * 5 / 8].to_vec(), ..ask.clone() };
    let (answered, records) = locate(&cut, &Part::new(&cut.table), 4 * cut.count as usize);
    let rest = records.cells().get(4 * answered.from_entries as usize..).unwrap_or_default();
    let first_line = cut.first_line.max(1) as u32;
    let shows_first_line = rest.chunks(4).all(|record| record == [first_line, 1, first_line, 1]);
    if answered.refusal != refusals::ACCEPTED || answered.whole != 0 || !shows_first_line {
        return Err(format!("{cut:?}: {answered:?}"));
    }
    Ok(())
}

/// All local names and the three groups of them, each name as a number.
struct Named {
    all: Vec<u32>,
    groups: [Vec<u32>; 3],
}

fn of_names(row: &str) -> Option<(localsplus::Ask, Named)> {
    let ["names", kinds, args, kwonly, flags, all, locals, cells, frees] = row.split(' ').collect::<Vec<_>>()[..]
    else {
        return None;
    };
    let (kinds, all) = (of_hex(kinds)?, of_numbers(all)?);
    let ask = localsplus::Ask {
        kinds,
        names: all.len() as u32,
        args: args.parse().ok()?,
        kwonly: kwonly.parse().ok()?,
        flags: flags.parse().ok()?,
    };
    Some((ask, Named { all, groups: [of_numbers(locals)?, of_numbers(cells)?, of_numbers(frees)?] }))
}

/// The names at the positions that the split gives; CPython has no map and no list of argument cells to compare.
fn hold_names(ask: &localsplus::Ask, said: &Named) -> Result<(), String> {
    let (answered, stores) = split(ask, &Part::new(&ask.kinds), [said.all.len(); 5]);
    let counts = [answered.locals, answered.cells, answered.frees];
    let named = |position: &u32| said.all.get(*position as usize).copied();
    for (i, group) in said.groups.iter().enumerate() {
        let names = stores[i].cells().iter().take(counts[i] as usize).map(named);
        if answered.refusal != refusals::ACCEPTED || !names.eq(group.iter().map(|name| Some(*name))) {
            return Err(format!(
                "{ask:?}: {answered:?}; the names are {group:?}, and not those at {:?}",
                stores[i].cells()
            ));
        }
    }
    Ok(())
}

/// An entry as dis reads it: start, end and target in bytes, depth, whether the last instruction is pushed.
type Entry = [u64; 5];

fn of_exceptions(row: &str) -> Option<(Vec<u8>, Vec<Entry>)> {
    let ["exceptions", table, entries] = row.split(' ').collect::<Vec<_>>()[..] else {
        return None;
    };
    let entry = |text: &str| text.split(':').map(|part| part.parse().ok()).collect::<Option<Vec<_>>>()?.try_into().ok();
    let entries = entries.split(',').filter(|entry| *entry != "-").map(entry).collect::<Option<_>>()?;
    Some((of_hex(table)?, entries))
}

/// Every entry as dis has it, in instructions, and the table's own bytes where the entries are written.
fn hold_exceptions(table: &[u8], said: &[Entry]) -> Result<(), String> {
    let in_instructions = |[start, end, target, depth, last]: &Entry| {
        [start / 2, (end - start) / 2, target / 2, *depth, *last].map(|number| number as u32)
    };
    exceptions::hold_table(table, said.iter().flat_map(in_instructions).collect())
}
