//! The rig: holds the port, called as a static library, to the Rust it carries over, to what CPython says of its own
//! code, and to lists of answers kept in the repository. `rig --help` says how to call it.
#[cfg(carried)]
mod beside;
mod corpus;
mod cpython;
mod equal;
mod exceptions;
mod extremes;
#[cfg(carried)]
mod goldens;
#[cfg(carried)]
mod guard;
mod hostile;
mod join;
mod keep;
mod leaf;
mod lent;
mod limits;
mod linetable;
mod localsplus;
#[cfg(carried)]
mod long;
mod marshalled;
mod memory;
mod more;
mod moves;
mod nested;
mod nulls;
mod numbers;
mod options;
#[cfg(carried)]
mod panics;
mod pieces;
mod plain;
mod random;
mod read;
mod reading;
mod record;
mod salvage;
mod sessions;
mod settings;
#[cfg(carried)]
mod shape;
mod shares;
mod shrink;
mod sources;
mod spans;
mod stack;
mod starts;
mod stores;
mod subject;
mod sweep;
mod tally;
mod text;
mod totals;
#[cfg(carried)]
mod trace;
#[cfg(carried)]
mod tree;
mod value;
mod values;
mod varint;
mod write;
mod write_again;
mod write_model;
mod write_same;
mod writing;

use exceptions::Exceptions;
use join::Joins;
use keep::Keeps;
use linetable::LineTables;
use localsplus::LocalNames;
use more::Mores;
use moves::Moves;
use options::{Options, Task, USAGE};
use pieces::Pieces;
use read::Reads;
use salvage::Salvages;
use settings::SettingsFiles;
use sources::Sources;
use spans::Spans;
use starts::Starts;
use std::process::ExitCode;
use stores::{Leaves, ReadStores};
use subject::replay;
use totals::NightlyTotals;
use varint::Varints;
use write::{WriteStores, Writes};

fn main() -> ExitCode {
    let options = match Options::of(std::env::args().skip(1)) {
        Ok(options) => options,
        Err(fault) => {
            eprintln!("rig: {fault}; rig --help says how to call it");
            return ExitCode::from(2);
        }
    };
    let deep = std::thread::Builder::new().stack_size(shares::DEEP_STACK);
    match deep.spawn(|| run(options)).map(|thread| thread.join()) {
        Ok(Ok(ended)) => exit_code(ended),
        _ => ExitCode::FAILURE,
    }
}

fn exit_code(ended: Result<bool, String>) -> ExitCode {
    match ended {
        Ok(true) => ExitCode::SUCCESS,
        Ok(false) => ExitCode::FAILURE,
        Err(fault) => {
            eprintln!("rig: {fault}");
            ExitCode::FAILURE
        }
    }
}

fn run(options: Options) -> Result<bool, String> {
    match &options.task {
        Task::Help => {
            println!("{USAGE}");
            Ok(true)
        }
        Task::Exceptions => Ok(exceptions::hold(17, EXCEPTIONS)),
        Task::Joins => joins(&options),
        Task::Settings => Ok(settings::hold(20, SETTINGS)),
        Task::Moves => Ok(moves::hold(21, MOVES)),
        Task::Keeps => Ok(keeps()),
        Task::Sources => Ok(sources::hold(17, SOURCES)),
        Task::Spans => spans(),
        Task::Starts => Ok(starts::hold(19, STARTS)),
        Task::Pieces => Ok(pieces::hold(20, PIECES)),
        Task::Totals => Ok(totals::hold(19, TOTALS)),
        Task::Equal => Ok(equal::hold(20, EQUAL)),
        Task::Extremes => Ok(extremes::hold()),
        Task::HasRust => {
            println!("{}", if cfg!(carried) { "yes" } else { "no" });
            Ok(true)
        }
        Task::CPython(file) => Ok(cpython::hold(&contents(file)?)),
        Task::WriteAgain(file, out) => write_again::write_all(&contents(file)?, out),
        Task::Exact => {
            memory::lend(memory::Mode::Exact);
            Ok(all([nulls::hold(), replay_answers()]))
        }
        Task::Replay => Ok(replay_lists()),
        Task::Stack => Ok(stack::hold()),
        Task::Rooms => without_the_rust(),
        Task::Short => Ok(all([beside_the_rust(&options)?, without_the_rust()?, extremes::hold(), replay_lists()])),
        _ => beside_the_rust(&options),
    }
}

#[cfg(carried)]
fn beside_the_rust(options: &Options) -> Result<bool, String> {
    panics::keep_quiet();
    beside::run(options)
}

#[cfg(not(carried))]
fn beside_the_rust(options: &Options) -> Result<bool, String> {
    if options.task != Task::Short {
        return Err("built without the carried Rust, which this asks for".to_string());
    }
    println!("rig: built without the carried Rust, so nothing is compared with it: the fixed lists stand in");
    Ok(true)
}

/// How many random line tables by piece; a hundredth as many in every cutting.
const PIECES: usize = 300_000;

/// How many random indexes of row starts, and how many of any words.
const STARTS: usize = 20_000;

/// How many random exception tables, read and written.
const EXCEPTIONS: usize = 1_000_000;

/// How many random joins and lines.
const JOINS: usize = 1_000_000;

/// Joins alone; with what CPython made, its tables too, split and joined again.
fn joins(options: &Options) -> Result<bool, String> {
    let text = options.tables.as_deref().map_or(Ok(String::new()), contents)?;
    let mut splits = tally::Tally::new("cpython tables split and joined");
    cpython::tables(&text).iter().for_each(|table| join::hold_splits(&mut splits, table));
    Ok(all([join::hold(19, JOINS), text.is_empty() || splits.finish()]))
}

/// How many random line tables, for where places come from.
const SOURCES: usize = 400_000;

/// How many random values, every node of each, and how many stores that no reading made.
const SPANS: [usize; 2] = [150_000, 1_000_000];

fn spans() -> Result<bool, String> {
    let found = corpus::inputs()?.into_iter().map(|input| read::Ask { input, nesting: u32::MAX });
    Ok(spans::hold(21, values::random_inputs(22, SPANS[0]).chain(found), SPANS[1]))
}

/// How many random values, each in two forms and changed in one place.
const EQUAL: usize = 400_000;
/// How many random settings files, looked up, rewritten, saved and rolled back.
const SETTINGS: usize = 1_000_000;

/// How many random golden files, moved from one form into the other.
const MOVES: usize = 600_000;

/// How many random moves of a node, values read behind others, and sessions of both.
const KEEPS: [usize; 3] = [600_000, 600_000, 40_000];

fn keeps() -> bool {
    all([keep::hold(23, KEEPS[0]), more::hold(24, KEEPS[1]), sessions::hold(25, KEEPS[2])])
}

/// How many random totals, counted, added and printed.
const TOTALS: usize = 1_000_000;

/// What documents 01 and 02 alone tell: the leaf question and writing on any stores, exception tables, joins, row starts,
/// settings files, golden files of both forms, values kept and read behind one another, totals, equal values and equal bytes, and demand 3 at every room.
fn without_the_rust() -> Result<bool, String> {
    let found = corpus::inputs()?;
    Ok(all([
        leaf::hold(11, values::random_inputs(12, 250_000)),
        hostile::hold(15, 1_500_000),
        salvage::hold(16, 400_000),
        sources::hold(17, SOURCES),
        spans()?,
        starts::hold(19, STARTS),
        pieces::hold(20, PIECES),
        exceptions::hold(18, EXCEPTIONS),
        join::hold(19, JOINS),
        settings::hold(20, SETTINGS),
        moves::hold(21, MOVES),
        keeps(),
        totals::hold(19, TOTALS),
        equal::hold(20, EQUAL),
        sweep::hold(13, || values::inputs_to_sweep(14, 200_000).chain(found.iter().cloned())),
    ]))
}

fn contents(file: &str) -> Result<String, String> {
    std::fs::read_to_string(file).map_err(|error| format!("{file}: {error}"))
}

fn replay_lists() -> bool {
    all([numbers::hold(), nulls::hold(), limits::hold(), stack::hold(), replay_answers()])
}

fn replay_answers() -> bool {
    let replay_all =
        |folder| all([replay::<Varints>(folder), replay::<LineTables>(folder), replay::<LocalNames>(folder)]);
    let fixed = all([replay_all("fixed"), replay::<Reads>("fixed"), replay::<Writes>("fixed")]);
    let vectors = all([replay_all("vectors"), replay::<ReadStores>("vectors"), replay::<Leaves>("vectors")]);
    let written = all([
        replay::<WriteStores>("vectors"),
        replay::<Salvages>("vectors"),
        replay::<Sources>("vectors"),
        replay::<Spans>("vectors"),
        replay::<Exceptions>("vectors"),
        replay::<Joins>("vectors"),
        replay::<Starts>("vectors"),
        replay::<SettingsFiles>("vectors"),
        replay::<Moves>("vectors"),
        replay::<Keeps>("vectors"),
        replay::<Mores>("vectors"),
        replay::<Pieces>("vectors"),
        replay::<NightlyTotals>("vectors"),
    ]);
    all([fixed, vectors, written])
}

fn all<const N: usize>(held: [bool; N]) -> bool {
    held.iter().all(|held| *held)
}
