//! Where the rows of a code object's instructions come from, as pages draw it: one of seven origins, and what is stored.
use crate::lines::{Why, stored, why_not_sure};
use sillgarland::{Code, Located, Location, Locations, Records};

/// Where an instruction's row comes from, the best first.
#[derive(Clone, Copy, Debug, PartialEq, Eq, PartialOrd, Ord)]
pub enum Origin {
    Sure,
    LineAlone,
    BelowOne,
    NoPlace,
    CutEntry,
    LeftOver,
    /// Its table is refused before an entry places it.
    Refused,
}

/// As pages name them.
pub const ORIGINS: [&str; 7] =
    ["sure", "line alone", "below line 1", "no place", "cut entry", "left over", "behind the refusal"];

/// An instruction's origin, and line, column, end line and end column: as stored, where that is known.
pub type Placed = (Origin, [i64; 4]);

/// The instructions of a code object, those placed before a refusal where its table is refused.
pub struct Instructions<'a> {
    pub all: usize,
    pub placed: Option<Locations<'a>>,
    stored: Option<Vec<(i64, i64)>>,
}

impl<'a> Instructions<'a> {
    pub fn of(code: &Code, records: &'a mut Records) -> Self {
        let refused = code.lines(records).err();
        let placed = match &refused {
            None => code.lines(records).ok().map(|lines| lines.whole_or_not()),
            Some(refused) => code.lines_before(refused, records),
        };
        Self { all: code.instructions(), placed, stored: placed.and_then(|placed| stored(code, placed)) }
    }

    pub fn each(&self) -> impl Iterator<Item = Placed> {
        let placed = self.placed.into_iter().flat_map(Locations::iter).enumerate();
        let placed = placed.map(|(at, located)| self.one(located, at));
        placed.chain(std::iter::repeat((Origin::Refused, [0; 4]))).take(self.all)
    }

    fn one(&self, located: Located, at: usize) -> Placed {
        let source = located.source();
        let origin = match why_not_sure(located) {
            None if source.has_column() && source.has_end_column() => Origin::Sure,
            None => Origin::LineAlone,
            Some(Why::BelowOne) => Origin::BelowOne,
            Some(Why::NoPlace) => Origin::NoPlace,
            Some(Why::CutEntry) => Origin::CutEntry,
            Some(Why::LeftOver) => Origin::LeftOver,
        };
        let Location { line, column, end_line, end_column } = located.location();
        let stored = self.stored.as_ref().and_then(|stored| stored.get(at)).filter(|_| origin == Origin::BelowOne);
        let (line, end_line) = stored.copied().unwrap_or((line.into(), end_line.into()));
        (origin, [line, column.into(), end_line, end_column.into()])
    }
}

/// Runs of what is the same, with their lengths.
pub fn runs<T: PartialEq>(items: impl Iterator<Item = T>) -> impl Iterator<Item = (usize, T)> {
    let mut items = items.peekable();
    std::iter::from_fn(move || {
        let first = items.next()?;
        let mut count = 1;
        while items.next_if(|item| *item == first).is_some() {
            count += 1;
        }
        Some((count, first))
    })
}

/// The most rows of a table: those about the place where it breaks off, or where two begin to differ, and some at either end.
const MOST_ROWS: usize = 240;
const BEFORE_BREAK: usize = 150;
const AFTER_BREAK: usize = 40;
const AT_AN_END: usize = 20;

/// Whether the row at a place is among those shown, of so many rows with a break at one of them.
pub fn is_shown(at: usize, all: usize, break_at: usize) -> bool {
    let about_break = at + BEFORE_BREAK >= break_at && at < break_at + AFTER_BREAK;
    all <= MOST_ROWS || about_break || at < AT_AN_END || at + AT_AN_END >= all
}

/// What stands for rows that are left out, where an origin would stand.
pub const LEFT_OUT: i64 = ORIGINS.len() as i64;
