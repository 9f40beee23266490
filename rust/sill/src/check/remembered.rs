//! What long parts of code objects come to, remembered: code objects share parts by reference, and each is looked at once, however many
//! share it. Of a golden; node numbers name its parts.
use super::findings::TableEnd;
use crate::words::{self, Within};
use sillgarland::{Code, Location, Locations, Records, Refused};
use std::collections::HashMap;

/// What is shorter, in bytes, instructions or names, is looked at again: that takes no longer than looking it up.
const SHORT: usize = 64;

#[derive(Default)]
pub struct Remembered {
    /// By the line table's node and the number of instructions.
    lines: HashMap<(u32, usize), Seen>,
    /// By the place of the exception table and its length.
    handlers: HashMap<(usize, usize), Option<Refused>>,
    /// By the nodes of the local names and of their kinds.
    orders: HashMap<(u32, u32), Option<usize>>,
}

/// What a line table comes to, for so many instructions from a first line.
#[derive(Clone, Copy, Debug, PartialEq, Eq)]
pub struct LinesFound {
    /// Where it is refused, and what that means there.
    pub refused: Option<(Refused, &'static str)>,
    /// How many instructions entries place, up to a refused entry where there is one.
    pub placed: usize,
    /// Why it is not whole, where it is not refused.
    pub end: Option<TableEnd>,
    /// How many instructions at the end have no line.
    pub tail: usize,
    /// Instructions without a sure row: left over, of an entry without a place, of a cut entry, with a line below 1.
    pub not_sure: [usize; 4],
    /// The last row that is placed for sure.
    pub last_row: Option<u32>,
}

/// The answers for a table and a number of instructions.
#[derive(Default)]
struct Seen {
    by_first_line: HashMap<i32, LinesFound>,
    steady: Option<Steady>,
}

/// An answer from one first line that tells those from others: lines are steps from the first line, so that from another the table shows
/// each line as much higher or lower, and the same of everything else, as long as all stay above 0 and below 2^31.
#[derive(Clone, Copy)]
struct Steady {
    first_line: i32,
    lowest: i64,
    highest: i64,
    found: LinesFound,
}

impl Remembered {
    pub fn lines(&mut self, code: &Code, records: &mut Records) -> LinesFound {
        if code.instructions().max(code.line_table().size()) < SHORT {
            return LinesFound::of(code, records).0;
        }
        let seen = self.lines.entry((code.line_table().node(), code.instructions())).or_default();
        seen.from(code.first_line()).unwrap_or_else(|| seen.look(code, records))
    }

    /// Where its exception table is refused.
    pub fn handlers(&mut self, code: &Code) -> Option<Refused> {
        let table = code.exception_table();
        if table.len() < SHORT {
            return code.handlers().err();
        }
        *self.handlers.entry((table.as_ptr() as usize, table.len())).or_insert_with(|| code.handlers().err())
    }

    /// The first local name that is out of order.
    pub fn out_of_name_order(&mut self, code: &Code) -> Option<usize> {
        if code.local_names().len() < SHORT {
            return code.out_of_name_order();
        }
        let mut parts = code.value().children().skip(3).map(|part| part.node());
        let (Some(names), Some(kinds)) = (parts.next(), parts.next()) else { return code.out_of_name_order() };
        *self.orders.entry((names, kinds)).or_insert_with(|| code.out_of_name_order())
    }
}

impl Seen {
    fn from(&self, first_line: i32) -> Option<LinesFound> {
        let steady = self.steady.and_then(|steady| steady.from(first_line));
        steady.or_else(|| self.by_first_line.get(&first_line).copied())
    }

    fn look(&mut self, code: &Code, records: &mut Records) -> LinesFound {
        let (found, range) = LinesFound::of(code, records);
        match range {
            Some((lowest, highest)) => {
                self.steady = Some(Steady { first_line: code.first_line(), lowest, highest, found });
            }
            None => {
                self.by_first_line.insert(code.first_line(), found);
            }
        }
        found
    }
}

impl Steady {
    fn from(self, first_line: i32) -> Option<LinesFound> {
        let raise = i64::from(first_line) - i64::from(self.first_line);
        let stays = self.lowest + raise >= 1 && self.highest + raise <= i64::from(i32::MAX);
        stays.then(|| self.found.raised(raise))
    }
}

impl LinesFound {
    /// And the lowest and the highest line that it shows, where that is all that depends on the first line.
    fn of(code: &Code, records: &mut Records) -> (Self, Option<(i64, i64)>) {
        let lines = match code.lines(records) {
            Ok(lines) => lines,
            Err(refused) => return (Self::of_refused(code, refused, records), None),
        };
        let (locations, whole) = (lines.whole_or_not(), lines.whole().is_some());
        let end = (!whole).then(|| table_end(code, locations));
        let found = Self {
            refused: None,
            placed: locations.from_entries(),
            end,
            tail: locations.without_line_at_the_end(),
            not_sure: if locations.not_sure() > 0 { not_sure(locations) } else { [0; 4] },
            last_row: locations.last_row(),
        };
        (found, range(code, locations))
    }

    fn of_refused(code: &Code, refused: Refused, records: &mut Records) -> Self {
        let before = code.lines_before(&refused, records);
        let (placed, last_row) = before.map_or((0, None), |before| (before.from_entries(), before.last_row()));
        let meaning = words::meaning(&refused, Within::LineTable(*code));
        Self { refused: Some((refused, meaning)), placed, end: None, tail: 0, not_sure: [0; 4], last_row }
    }

    fn raised(self, raise: i64) -> Self {
        let higher = |line: u32| (i64::from(line) + raise) as u32;
        let end = match self.end {
            Some(TableEnd::TooEarly { at, line }) => Some(TableEnd::TooEarly { at, line: higher(line) }),
            end => end,
        };
        Self { end, last_row: self.last_row.map(higher), ..self }
    }
}

/// Why a table is not whole. Where every instruction has an entry, its repair tells what would be dropped or shortened.
fn table_end(code: &Code, locations: Locations) -> TableEnd {
    if let Some((at, Location { line, .. })) = locations.first_left_over() {
        return TableEnd::TooEarly { at, line };
    }
    if locations.iter().next_back().is_some_and(|last| last.source().is_cut()) {
        return TableEnd::Cut;
    }
    match code.salvaged() {
        Ok(repaired) if repaired.shortened => TableEnd::TooFar { left: repaired.dropped },
        repaired => TableEnd::LeftOver { left: repaired.map_or(0, |repaired| repaired.dropped) },
    }
}

fn not_sure(locations: Locations) -> [usize; 4] {
    let (left_over, no_place) = (locations.len() - locations.from_entries(), locations.without_place());
    let cut = locations.iter().filter(|located| located.source().is_cut()).count();
    [left_over, no_place, cut, locations.not_sure() - left_over - no_place - cut]
}

/// The lowest and the highest of the first line and of the lines shown, where all are above 0 as stored: every entry that was read places
/// an instruction, which shows its lines.
fn range(code: &Code, locations: Locations) -> Option<(i64, i64)> {
    let (mut lowest, mut highest) = (i64::from(code.first_line()), i64::from(code.first_line()));
    for located in locations.iter() {
        let (source, Location { line, end_line, .. }) = (located.source(), located.location());
        if source.has_line() && !source.is_as_stored() {
            return None;
        }
        lowest = lowest.min(line.min(end_line).into());
        highest = highest.max(line.max(end_line).into());
    }
    (lowest >= 1).then_some((lowest, highest))
}

#[cfg(test)]
mod tests {
    use super::*;
    use sillgarland::Reader;

    /// A list of code objects, each of `instructions`, with the first line that is given for it; the first has the line table, and the
    /// others share it, the exception table and the local names.
    fn sharing(instructions: usize, table: &[u8], first_lines: &[i32]) -> Vec<u8> {
        let length = |n: usize| (n as u32).to_le_bytes();
        let mut input = [b"[".as_slice(), &length(first_lines.len())].concat();
        for (at, first_line) in first_lines.iter().enumerate() {
            let shared = |part: Vec<u8>, slot: u8| if at == 0 { part } else { vec![b'r', slot, 0, 0, 0] };
            let bytes = |letter: u8, of: &[u8]| [&[letter], length(of.len()).as_slice(), of].concat();
            let names = [&[0xA9, 100], b"z\x01a".repeat(100).as_slice()].concat();
            input.extend(b"c");
            input.extend([0; 20]);
            input.extend(shared(bytes(0xF3, &[9; 2].repeat(instructions)), 0));
            input.extend(b")\0)\0");
            input.extend(shared(names, 1));
            input.extend(shared(bytes(0xF3, &[[0x80].repeat(60), [0x20].repeat(40)].concat()), 2));
            input.extend(b"z\x00z\x00z\x00");
            input.extend(first_line.to_le_bytes());
            input.extend(shared(bytes(0xF3, table), 3));
            input.extend(shared(bytes(0xF3, &[0x80].repeat(80)), 4));
        }
        input
    }

    /// Whole, too early, with entries without a place, cut, left over, too far, with lines below 1 from small first lines, and refused
    /// from great ones.
    fn tables() -> Vec<Vec<u8>> {
        let steps = b"\xE8\x02".repeat(100); // a line further each
        let back = [b"\xE8\x03".repeat(50), b"\xE8\x04".repeat(50)].concat(); // first back, then two further each
        let ended = |table: &[u8], end: &[u8]| [table, end].concat();
        vec![
            steps.clone(),
            steps[..160].to_vec(),
            ended(&steps[..190], &b"\xF8".repeat(5)),
            steps[..199].to_vec(),
            ended(&steps, b"\xE8\x02\xE8"),
            ended(&steps[..198], b"\xEF\x02"),
            back.clone(),
            back[..120].to_vec(),
            [b"\xF8".repeat(100)].concat(),
        ]
    }

    const FIRST_LINES: [i32; 12] = [10, 10, 11, 200, 49, 50, 1, 0, -1000, i32::MAX - 99, i32::MAX - 101, i32::MIN];

    #[test]
    fn what_is_remembered_is_what_each_comes_to_alone() {
        for table in tables() {
            let input = sharing(100, &table, &FIRST_LINES);
            let mut reader = Reader::new();
            let golden = reader.read(&input).unwrap();
            let (mut remembered, mut records) = (Remembered::default(), Records::default());
            for code in golden.code_objects() {
                assert_eq!(
                    remembered.lines(&code, &mut records),
                    LinesFound::of(&code, &mut records).0,
                    "{}",
                    code.first_line()
                );
                assert_eq!(remembered.handlers(&code), code.handlers().err());
                assert_eq!(remembered.out_of_name_order(&code), Some(60));
            }
            assert_eq!((remembered.lines.len(), remembered.handlers.len(), remembered.orders.len()), (1, 1, 1));
        }
    }

    #[test]
    fn one_look_serves_every_first_line_that_keeps_the_lines_in_range() {
        let looks = |table: &[u8]| {
            let input = sharing(100, table, &[10, 11, 500, 70_000, i32::MAX - 100]);
            let mut reader = Reader::new();
            let (mut remembered, mut records) = (Remembered::default(), Records::default());
            for code in reader.read(&input).unwrap().code_objects() {
                let _ = remembered.lines(&code, &mut records);
            }
            let seen = remembered.lines.values().next().unwrap();
            (seen.steady.is_some(), seen.by_first_line.len())
        };
        let looked: Vec<(bool, usize)> = tables().iter().map(|table| looks(table)).collect();
        let (steady, later) = ((true, 0), (true, 2));
        assert_eq!(looked, [steady, steady, steady, steady, steady, steady, later, later, steady]);
    }
}
