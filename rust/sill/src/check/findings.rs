//! What is found in a file: one model, from which every form of output is made.
use super::remembered::{LinesFound, Remembered};
use crate::files::{self, Ended};
use crate::settings::Scope;
use crate::words::{self, Within};
use crate::{Outcome, looks};
use sillgarland::{Code, Golden, Reader, Records, Refusal, Refused};
use std::convert::Infallible;

/// What a file holds, and every finding in it.
#[derive(Debug, Default)]
pub struct Findings {
    pub values: usize,
    pub code_objects: usize,
    pub instructions: usize,
    /// Instructions whose row no complete entry gives.
    pub not_sure: usize,
    pub found: Vec<Finding>,
}

/// One thing found.
#[derive(Debug)]
pub struct Finding {
    pub what: What,
    /// The refusal with its place in the file, and what it means there.
    pub refused: Option<(Refused, &'static str)>,
    /// The code object that it is found in.
    pub code: Option<Named>,
}

/// A code object as findings name it.
#[derive(Clone, Debug)]
pub struct Named {
    pub name: String,
    pub file: String,
    pub first_line: i32,
    /// The place of its contents in the file.
    pub byte: usize,
    pub instructions: usize,
    /// The last row that its line table places for sure, before a refused entry where there is one.
    pub last_row: Option<u32>,
}

/// The sorts of findings. Of each but the first a code object has at most one.
#[derive(Debug)]
pub enum What {
    /// Reading ended: where the last whole value ends, if there is one, how many bytes follow, and what the file looks like.
    Value { whole: Option<(usize, usize)>, hint: Option<&'static str> },
    /// A line table is refused; how many instructions are placed before that.
    LineTable { placed: usize },
    /// An exception table is refused.
    ExceptionTable,
    /// A line table is not whole; how many instructions it places, and what is wrong with its end.
    NotWhole { placed: usize, end: TableEnd },
    /// The last instructions have no line: a fault only where it is asked for.
    NoPlace { tail: usize },
    /// Instructions without a sure row, by their reasons.
    NotSure { left_over: usize, no_place: usize, cut: usize, below: usize },
    /// The file is not exactly a code object and the result expected of it.
    Shape,
    /// Local names are out of order from this one on.
    NameOrder { at: usize, name: String },
}

/// Why a line table is not whole.
#[derive(Clone, Copy, Debug, PartialEq, Eq)]
pub enum TableEnd {
    /// The first instruction that no entry places, and the line that it shows.
    TooEarly { at: usize, line: u32 },
    /// Every instruction has an entry, and a byte of the last entry is missing.
    Cut,
    /// The last entry is for more instructions than there are; so many bytes follow it.
    TooFar { left: usize },
    /// Every instruction has a whole entry, and so many bytes follow the last.
    LeftOver { left: usize },
}

/// What a file comes to, the best first.
#[derive(Clone, Copy, Debug, PartialEq, Eq, PartialOrd, Ord)]
pub enum Verdict {
    Accepted,
    NoPlace,
    NotWhole,
    Refused,
    Trouble,
}

impl Verdict {
    pub const ALL: [Verdict; 5] =
        [Verdict::Accepted, Verdict::NoPlace, Verdict::NotWhole, Verdict::Refused, Verdict::Trouble];

    /// As options and machines name it.
    pub fn name(self) -> &'static str {
        ["accepted", "no-place", "not-whole", "refused", "trouble"][self as usize]
    }

    pub fn outcome(self) -> Outcome {
        match self {
            Verdict::Accepted => Outcome::Good,
            Verdict::Trouble => Outcome::Trouble,
            _ => Outcome::Bad,
        }
    }
}

impl What {
    /// The verdict that it leads to.
    pub fn verdict(&self) -> Verdict {
        match self {
            What::Value { .. } | What::LineTable { .. } | What::ExceptionTable | What::Shape => Verdict::Refused,
            What::NotWhole { .. } => Verdict::NotWhole,
            What::NoPlace { .. } => Verdict::NoPlace,
            What::NotSure { .. } | What::NameOrder { .. } => Verdict::Accepted,
        }
    }

    /// As machines name it.
    pub fn kind(&self) -> &'static str {
        match self {
            What::Value { .. } => "value",
            What::LineTable { .. } => "line-table",
            What::ExceptionTable => "exception-table",
            What::NotWhole { .. } => "not-whole",
            What::NoPlace { .. } => "no-place",
            What::NotSure { .. } => "not-sure",
            What::Shape => "shape",
            What::NameOrder { .. } => "name-order",
        }
    }
}

/// How a file is looked at.
#[derive(Debug, Default)]
pub struct Manner {
    /// Whether a code object that ends without a line is a fault.
    pub strict: bool,
    /// Whether the header of a .pyc is skipped.
    pub pyc: bool,
    /// Whether a file must be exactly a code object and the result expected of it.
    pub shape: bool,
    /// How deep values may be nested, and of which code objects there is anything to be said.
    pub scope: Scope,
}

impl Manner {
    pub fn reader(&self) -> Reader {
        self.scope.reader()
    }
}

impl Findings {
    /// Everything that is found in a file's bytes.
    pub fn of(input: &[u8], manner: &Manner, reader: &mut Reader, records: &mut Records) -> Self {
        let mut findings = Self::default();
        let from = looks::skipped(input, manner.pyc);
        let ended = files::for_each_value_from(from, reader, input, |start, golden| {
            findings.add_value(start, golden, manner, records);
            Ok::<(), Infallible>(())
        });
        match ended {
            Ok(ended) => findings.add_end(ended, input),
            Err(never) => match never {},
        }
        if manner.shape {
            findings.add_shape(&input[from..], from, reader);
        }
        findings
    }

    /// Of values that all read: whether they are a code object and a result, and these two alone.
    fn add_shape(&mut self, golden: &[u8], from: usize, reader: &mut Reader) {
        let refused_already = self.found.iter().any(|finding| matches!(finding.what, What::Value { .. }));
        let Some(refused) = reader.golden_parts(golden).err().filter(|_| !refused_already) else { return };
        let meaning = shape_meaning(&refused, golden);
        self.add_refused(What::Shape, (refused.after(from), meaning), None);
    }

    pub fn verdict(&self) -> Verdict {
        self.found.iter().map(|finding| finding.what.verdict()).max().unwrap_or(Verdict::Accepted)
    }

    /// Values, code objects, instructions, and how many of these have no sure row.
    pub fn counts(&self) -> [usize; 4] {
        [self.values, self.code_objects, self.instructions, self.not_sure]
    }

    fn add_value(&mut self, start: usize, golden: Golden, manner: &Manner, records: &mut Records) {
        self.values += 1;
        let mut remembered = Remembered::default();
        for code in golden.code_objects().filter(|code| manner.scope.covers(code)) {
            self.code_objects += 1;
            self.instructions += code.instructions();
            let lines = remembered.lines(&code, records);
            self.add_lines(start, &code, lines, manner);
            if let Some(refused) = remembered.handlers(&code) {
                let meaning = words::meaning(&refused, Within::ExceptionTable);
                let code = named(start, &code, lines.last_row);
                self.add_refused(What::ExceptionTable, (refused.after(start), meaning), Some(code));
            }
            if let Some(at) = remembered.out_of_name_order(&code) {
                let name = code.local_names().nth(at).map_or(String::new(), |name| name.to_string());
                self.add(What::NameOrder { at, name }, named(start, &code, lines.last_row));
            }
        }
    }

    fn add_lines(&mut self, start: usize, code: &Code, lines: LinesFound, manner: &Manner) {
        let named = || named(start, code, lines.last_row);
        if let Some((refused, meaning)) = lines.refused {
            let what = What::LineTable { placed: lines.placed };
            return self.add_refused(what, (refused.after(start), meaning), Some(named()));
        }
        if let Some(end) = lines.end {
            self.add(What::NotWhole { placed: lines.placed, end }, named());
        }
        if manner.strict && lines.tail > 0 {
            self.add(What::NoPlace { tail: lines.tail }, named());
        }
        let [left_over, no_place, cut, below] = lines.not_sure;
        let not_sure: usize = lines.not_sure.iter().sum();
        self.not_sure += not_sure;
        if not_sure > 0 {
            self.add(What::NotSure { left_over, no_place, cut, below }, named());
        }
    }

    fn add(&mut self, what: What, code: Named) {
        self.found.push(Finding { what, refused: None, code: Some(code) });
    }

    fn add_refused(&mut self, what: What, refused: (Refused, &'static str), code: Option<Named>) {
        self.found.push(Finding { what, refused: Some(refused), code });
    }

    fn add_end(&mut self, ended: Ended, input: &[u8]) {
        let Some(refused) = ended.refused else { return };
        let whole = (ended.values > 0).then_some((ended.end, input.len() - ended.end));
        let what = What::Value { whole, hint: looks::hint(input) };
        let meaning = words::meaning(&refused, Within::Value(input));
        self.add_refused(what, (refused, meaning), None);
    }
}

/// What a golden lacks, or has too much of.
fn shape_meaning(refused: &Refused, golden: &[u8]) -> &'static str {
    match refused.refusal {
        Refusal::EofObject => "a golden is a code object and the result expected of it, and there is no result",
        Refusal::TrailingBytes => "a golden is a code object and one result, and more follows",
        _ => words::meaning(refused, Within::Value(golden)),
    }
}

fn named(start: usize, code: &Code, last_row: Option<u32>) -> Named {
    Named {
        name: code.qualified_name().to_string(),
        file: code.file().to_string(),
        first_line: code.first_line(),
        byte: start + code.value().place(),
        instructions: code.instructions(),
        last_row,
    }
}
