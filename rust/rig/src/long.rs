//! The long form: round after round, each with its number as its seed, of every subject, up to the first difference.
use crate::linetable::{self, LineTables};
use crate::localsplus::{self, LocalNames};
use crate::read::{self, Reads};
use crate::subject::compare;
use crate::values::{self, ROUNDS};
use crate::varint::{self, Varints};
use crate::write::{self, Writes};
use crate::{exceptions, hostile, join, keep, leaf, more, moves, sessions, settings, sweep};
use sillgarland_sys::refusals::MOST_NESTING;
use std::ops::Range;
use std::time::Instant;

/// What CPython made, its line tables and its modules, and what fuzzing found.
pub struct Made {
    pub lines: Vec<linetable::Ask>,
    pub modules: Vec<read::Ask>,
}

impl Made {
    pub fn add(&mut self, inputs: Vec<Vec<u8>>) {
        let table =
            |table: &Vec<u8>| linetable::Ask { table: table.clone(), first_line: 1, count: 2 * table.len() as u32 };
        self.lines.extend(inputs.iter().map(table));
        self.modules.extend(inputs.into_iter().map(|input| read::Ask { input, nesting: MOST_NESTING }));
    }
}

pub fn hold_rounds(rounds: Range<u64>, made: &Made) -> bool {
    for round in rounds {
        let begun = Instant::now();
        println!("== round {round}, with its number as seed");
        if !hold_round(round, made) {
            println!("== stopped in round {round}; --long --seed {round} begins with it again");
            return false;
        }
        println!("== round {round} ended after {} s{}", begun.elapsed().as_secs(), share_of(round));
    }
    true
}

fn share_of(round: u64) -> String {
    if round < ROUNDS { format!(", share {} of {ROUNDS} of the short inputs", round + 1) } else { String::new() }
}

fn hold_round(round: u64, made: &Made) -> bool {
    compare::<Varints, _>(|| varint::carried_side::asks_of_round(round, 2_000_000))
        && compare::<LineTables, _>(|| linetable::carried_side::asks_of_round(round, 1_000_000, &made.lines))
        && compare::<LocalNames, _>(|| localsplus::carried_side::asks_of_round(round, 1_000_000))
        && compare::<Reads, _>(|| values::asks_of_round(round, 2_000_000, &made.modules))
        && compare::<Writes, _>(|| write::carried_side::random_asks(3000 + round, 1_000_000))
        && leaf::hold(4000 + round, values::random_inputs(5000 + round, 500_000))
        && hostile::hold(6000 + round, 3_000_000)
        && exceptions::hold_round(9000 + round, 2_000_000)
        && join::hold_round(10_000 + round, 1_000_000)
        && settings::hold_round(11_000 + round, 1_000_000)
        && moves::hold_round(13_000 + round, 600_000)
        && keep::hold_round(14_000 + round, 600_000)
        && more::hold_round(15_000 + round, 600_000)
        && sessions::hold(16_000 + round, 40_000)
        && sweep::hold(7000 + round, || values::inputs_to_sweep(8000 + round, 1_000_000))
}
