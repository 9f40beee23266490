//! The tasks for which the carried Rust is there: comparing in the short and in the long form, and listing its answers.
use crate::linetable::{self, LineTables, carried_side::Extent};
use crate::localsplus::{self, LocalNames};
use crate::long::{Made, hold_rounds};
use crate::options::{Options, Task};
use crate::read::{self, Reads};
use crate::subject::{compare, write_list};
use crate::varint::{self, Varints};
use crate::write::{self, Writes};
use crate::{all, contents, corpus, cpython, goldens, guard, values};

/// How many cases of the short form.
const VARINTS: usize = 1_000_000;
const TABLES: Extent = Extent { of_three: 1, random: 500_000 };
const LISTS: (u32, usize) = (3, 200_000);
const VALUES: usize = 1_000_000;

pub fn run(options: &Options) -> Result<bool, String> {
    let text = options.tables.as_deref().map_or(Ok(String::new()), contents)?;
    let mut made = Made { lines: cpython::tables(&text), modules: cpython::modules(&text) };
    if matches!(options.task, Task::Short | Task::Long) {
        made.add(corpus::inputs()?);
    }
    match &options.task {
        Task::Long => {
            let first = options.seed.unwrap_or(0);
            let rounds = options.rounds.unwrap_or(values::ROUNDS.saturating_sub(first).max(1));
            Ok(hold_rounds(first..first + rounds, &made))
        }
        Task::Values => Ok(read_alike(&made.modules)),
        Task::Writes => Ok(written_alike(&made.modules)),
        Task::Goldens(paths) if paths.is_empty() => {
            println!("{}", goldens::HELP);
            Ok(true)
        }
        Task::Goldens(paths) => Ok(goldens::hold(paths)),
        Task::Guard => Ok(guard::hold()),
        Task::WriteFixed(folder) => write_fixed(folder, &made),
        _ => Ok(all_alike(&made)),
    }
}

fn all_alike(made: &Made) -> bool {
    all([
        compare::<Varints, _>(|| varint::carried_side::asks(VARINTS)),
        compare::<LineTables, _>(|| linetable::carried_side::asks(TABLES, &made.lines)),
        compare::<LocalNames, _>(|| localsplus::carried_side::asks(LISTS.0, LISTS.1)),
        read_alike(&made.modules),
        written_alike(&made.modules),
        guard::hold(),
    ])
}

fn read_alike(modules: &[read::Ask]) -> bool {
    compare::<Reads, _>(|| values::asks(VALUES, modules))
}

fn written_alike(modules: &[read::Ask]) -> bool {
    compare::<Writes, _>(|| write::carried_side::asks(VALUES, modules))
}

fn write_fixed(folder: &str, made: &Made) -> Result<bool, String> {
    write_list::<Varints>(folder, varint::carried_side::asks_to_list())?;
    write_list::<LineTables>(folder, linetable::carried_side::asks_to_list(&made.lines))?;
    write_list::<LocalNames>(folder, localsplus::carried_side::asks_to_list())?;
    write_list::<Reads>(folder, values::asks_to_list())?;
    write_list::<Writes>(folder, write::carried_side::asks_to_list())?;
    Ok(true)
}
