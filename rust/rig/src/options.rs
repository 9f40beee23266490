//! How the rig is called.

pub const USAGE: &str = "\
usage: rig [--tables FILE]                       compare with the carried Rust, sweep the rooms, then replay the lists
       rig --long [--seed N] [--rounds N] [--tables FILE]
                                                 compare far more, round by round, up to the first difference
       rig --values [--tables FILE]              compare the reading of values with the carried Rust, nothing else
       rig --writes [--tables FILE]              compare the writing of values with the carried Rust, nothing else
       rig --guard                               ask all between pages that fault, nothing else
       rig --stack                               nested 2,000 deep in a thread of 1 MiB, nothing else
       rig --rooms                               what the documents alone tell: every room, leaves, writing of any stores
       rig --exceptions                          exception tables: the model, and the carried Rust beside it, nothing else
       rig --joins [--tables FILE]               joins of line tables: the model, and the carried Rust beside it, nothing else
       rig --sources                             where instructions' places come from: the model, nothing else
       rig --spans                               the bytes of nodes: the model, and alone through the reader again, nothing else
       rig --pieces                              line tables by piece: the model, and `sill_locate` of the joined table, nothing else
       rig --starts                              row starts: the model, nothing else
       rig --settings                            settings files and their editions: the model, nothing else
       rig --moves                               golden files moved into fields and back: the model, nothing else
       rig --keeps                               values kept and read behind one another: the models, and each value alone, nothing else
       rig --totals                              nightly totals: the model, nothing else
       rig --equal                               equal values are written as equal bytes and no others, nothing else
       rig --goldens PATH..                      compare on golden files; without a PATH, say how
       rig --extremes                            values and line tables of 16 MiB in each extreme shape, timed
       rig --has-rust                            say yes or no: whether it was built with the carried Rust
       rig --replay                              replay the lists only: tests/fixed and tests/vectors
       rig --exact                               the same lists, in memory just as long as is lent: for valgrind
       rig --cpython FILE                        hold the port to what CPython says
       rig --write-again FILE OUT                read and write what CPython marshals, for CPython to load from OUT
       rig --write-fixed FOLDER [--tables FILE]  write the carried Rust's answers as lists into FOLDER
FILE is what tools/cpython-tables writes. Runs from the repository's root.

Each round of --long has its number as its seed, is asked of every subject, and takes some minutes; --seed N begins with round
N, so that a run can be taken up where one ended. Rounds 0 to 63 together come by every input of five bytes over an alphabet
of 63 and of six over 20 symbols; without --rounds the run ends after round 63.

Exit status: 0 no differences, 1 differences or a file that cannot be used, 2 called wrongly.";

#[derive(Clone, Debug, Default, PartialEq, Eq)]
pub enum Task {
    #[default]
    Short,
    Help,
    Long,
    Values,
    Writes,
    Guard,
    Stack,
    Rooms,
    Exceptions,
    Joins,
    Settings,
    Moves,
    Keeps,
    Sources,
    Spans,
    Starts,
    Pieces,
    Totals,
    Equal,
    Replay,
    Goldens(Vec<String>),
    HasRust,
    Extremes,
    /// The lists in memory just as long as is lent, for valgrind.
    Exact,
    CPython(String),
    WriteAgain(String, String),
    WriteFixed(String),
}

#[derive(Default)]
pub struct Options {
    pub task: Task,
    pub seed: Option<u64>,
    pub rounds: Option<u64>,
    pub tables: Option<String>,
}

impl Options {
    pub fn of(mut words: impl Iterator<Item = String>) -> Result<Self, String> {
        let mut options = Self::default();
        while let Some(word) = words.next() {
            let mut name = || words.next().ok_or(format!("{word} wants a word after it"));
            match word.as_str() {
                "--help" => options.set(Task::Help)?,
                "--long" => options.set(Task::Long)?,
                "--values" => options.set(Task::Values)?,
                "--writes" => options.set(Task::Writes)?,
                "--guard" => options.set(Task::Guard)?,
                "--stack" => options.set(Task::Stack)?,
                "--rooms" => options.set(Task::Rooms)?,
                "--replay" => options.set(Task::Replay)?,
                "--goldens" => {
                    options.set(Task::Goldens(words.by_ref().collect()))?;
                }
                "--totals" => options.set(Task::Totals)?,
                "--equal" => options.set(Task::Equal)?,
                "--exceptions" => options.set(Task::Exceptions)?,
                "--joins" => options.set(Task::Joins)?,
                "--sources" => options.set(Task::Sources)?,
                "--spans" => options.set(Task::Spans)?,
                "--starts" => options.set(Task::Starts)?,
                "--settings" => options.set(Task::Settings)?,
                "--moves" => options.set(Task::Moves)?,
                "--keeps" => options.set(Task::Keeps)?,
                "--pieces" => options.set(Task::Pieces)?,
                "--extremes" => options.set(Task::Extremes)?,
                "--has-rust" => options.set(Task::HasRust)?,
                "--exact" => options.set(Task::Exact)?,
                "--write-again" => {
                    let file = name()?;
                    options.set(Task::WriteAgain(file, name()?))?;
                }
                "--cpython" => options.set(Task::CPython(name()?))?,
                "--write-fixed" => options.set(Task::WriteFixed(name()?))?,
                "--seed" => options.seed = Some(number(&word, &name()?)?),
                "--rounds" => options.rounds = Some(number(&word, &name()?)?),
                "--tables" => options.tables = Some(name()?),
                _ => return Err(format!("unknown option {word}")),
            }
        }
        if options.task != Task::Long && (options.seed.is_some() || options.rounds.is_some()) {
            return Err("--seed and --rounds go with --long".to_string());
        }
        Ok(options)
    }

    fn set(&mut self, task: Task) -> Result<(), String> {
        if self.task != Task::Short {
            return Err("one task at a time".to_string());
        }
        self.task = task;
        Ok(())
    }
}

fn number(option: &str, word: &str) -> Result<u64, String> {
    word.parse().map_err(|_| format!("{option} wants a number, not {word}"))
}
