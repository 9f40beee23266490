//! Where the instructions of a code object come from. The answer says whether the line table was whole, and there is no way
//! to the locations around it.
use crate::{Block, Code, Golden, Place, Refusal, Refused};

/// The store that locations are read into, kept from one code object to the next.
#[derive(Debug, Default)]
pub struct Records {
    pub(crate) shown: Vec<[u32; 4]>,
    pub(crate) sources: Vec<u8>,
}

impl Records {
    pub(crate) fn lend(&mut self, instructions: usize) {
        self.shown.clear();
        self.shown.resize(instructions, [0; 4]);
        self.sources.clear();
        self.sources.resize(instructions, 0);
    }
}

/// A code object's locations, and whether its line table was whole: every byte used, none missing, no stop met, and a
/// place for every instruction.
///
/// ```
/// # fn input() -> Vec<u8> {
/// #     let mut input = b"c".to_vec();
/// #     input.extend([0; 20]);
/// #     input.extend(b"s\x06\0\0\0\t\0\t\0\t\0)\0)\0)\0s\0\0\0\0z\0z\0z\0\x0A\0\0\0s\x02\0\0\0\xE9\x02s\0\0\0\0");
/// #     input
/// # }
/// use sillgarland::{Lines, Reader, Records};
///
/// let input = input(); // a code object of three instructions whose line table places two of them
/// let mut reader = Reader::new();
/// let code = reader.read(&input)?.root().as_code().unwrap();
/// let mut records = Records::default();
/// match code.lines(&mut records)? {
///     Lines::Whole(locations) => println!("{} locations", locations.len()),
///     Lines::NotWhole(locations) => {
///         assert_eq!(locations.from_entries(), 2);
///         let rows: Vec<Option<u32>> = locations.iter().map(|located| located.row()).collect();
///         assert_eq!(rows, [Some(11), Some(11), None]); // document 01 shows 10 for the last
///     }
/// }
/// # Ok::<(), sillgarland::Refused>(())
/// ```
#[must_use = "a line table that is not whole gives lines that are not from the table"]
#[derive(Clone, Copy, Debug)]
pub enum Lines<'r> {
    /// The table is whole: every location is from an entry.
    Whole(Locations<'r>),
    /// The table is not whole: bytes are missing or left over, and instructions may show a line that is not from it.
    NotWhole(Locations<'r>),
}

impl<'r> Lines<'r> {
    pub(crate) fn of(records: &'r Records, counts: Counts, whole: bool) -> Self {
        let locations = Locations { records: &records.shown, sources: &records.sources, counts };
        if whole { Lines::Whole(locations) } else { Lines::NotWhole(locations) }
    }

    /// The locations of a whole table, else nothing.
    pub fn whole(self) -> Option<Locations<'r>> {
        match self {
            Lines::Whole(locations) => Some(locations),
            Lines::NotWhole(_) => None,
        }
    }

    /// The locations, be the table whole or not.
    pub fn whole_or_not(self) -> Locations<'r> {
        match self {
            Lines::Whole(locations) | Lines::NotWhole(locations) => locations,
        }
    }

    /// The row of an instruction (from 0), where a complete entry gives one; else nothing.
    pub fn row(self, instruction: usize) -> Option<u32> {
        self.whole_or_not().row(instruction)
    }
}

/// The locations of a code object's instructions.
#[derive(Clone, Copy, Debug)]
pub struct Locations<'r> {
    records: &'r [[u32; 4]],
    sources: &'r [u8],
    counts: Counts,
}

/// How many instructions have what; [`Source`] says it of each.
#[derive(Clone, Copy, Debug, Default, PartialEq, Eq)]
pub struct Counts {
    /// Placed by an entry of the table; these are the first ones.
    pub from_entries: usize,
    /// Placed by an entry that has a line.
    pub with_line: usize,
    /// Placed by an entry that has a line and both columns.
    pub with_columns: usize,
    /// With a row that is sure: a complete entry has it, and it is above 0 as stored.
    pub sure: usize,
}

impl<'r> Locations<'r> {
    /// How many instructions there are.
    pub fn len(self) -> usize {
        self.records.len()
    }

    /// Whether there are none.
    pub fn is_empty(self) -> bool {
        self.records.is_empty()
    }

    /// How many instructions have what.
    pub fn counts(self) -> Counts {
        self.counts
    }

    /// Four numbers an instruction, as the port left them.
    pub(crate) fn records(self) -> &'r [[u32; 4]] {
        self.records
    }

    /// How many instructions, from the first on, were placed by entries of the table.
    pub fn from_entries(self) -> usize {
        self.counts.from_entries
    }

    /// The first instruction that no entry placed, and the location it shows.
    pub fn first_left_over(self) -> Option<(usize, Location)> {
        self.records.get(self.from_entries()).map(|record| (self.from_entries(), Location::of(record)))
    }

    /// Each instruction's location, in order.
    pub fn iter(self) -> impl DoubleEndedIterator<Item = Located> + ExactSizeIterator {
        let sources = self.sources.iter().map(|byte| Source(*byte));
        self.records.iter().zip(sources).map(|(record, source)| Located { location: Location::of(record), source })
    }

    /// How many instructions an entry of the table says to have no place. A repair makes such entries; compilers do too.
    pub fn without_place(self) -> usize {
        self.counts.from_entries - self.counts.with_line
    }

    /// How many instructions have no row that is sure.
    pub fn not_sure(self) -> usize {
        self.len() - self.counts.sure
    }

    /// The row of an instruction (from 0), where a complete entry gives one; else nothing.
    pub fn row(self, instruction: usize) -> Option<u32> {
        self.iter().nth(instruction).and_then(Located::row)
    }

    /// The row of the last instruction that has one for sure.
    pub fn last_row(self) -> Option<u32> {
        self.iter().rev().find_map(Located::row)
    }

    /// How many instructions, up to the last, have no line: nothing is said of where the code ends.
    pub fn without_line_at_the_end(self) -> usize {
        self.iter().rev().take_while(|located| !located.source.has_line()).count()
    }
}

/// An instruction's location as 01 shows it, and where it comes from.
#[must_use = "a location may show a row that no entry gave"]
#[derive(Clone, Copy, Debug, PartialEq, Eq)]
pub struct Located {
    location: Location,
    source: Source,
}

impl Located {
    /// What is shown, written down or not.
    pub fn location(self) -> Location {
        self.location
    }

    /// Where it comes from.
    pub fn source(self) -> Source {
        self.source
    }

    /// Its row, where a complete entry gives one; else nothing.
    pub fn row(self) -> Option<u32> {
        self.source.is_sure().then_some(self.location.line)
    }
}

/// Where an instruction's location comes from: the byte of it that `sill_sources` gives.
#[derive(Clone, Copy, Debug, PartialEq, Eq)]
pub struct Source(u8);

impl Source {
    /// Whether an entry of the table placed the instruction; else it is left over, and shows the first line.
    pub fn is_from_entry(self) -> bool {
        self.0 & 1 != 0
    }

    /// Whether the entry has a line; else it says that there is no place, and the running line is shown.
    pub fn has_line(self) -> bool {
        self.0 & 2 != 0
    }

    /// Whether the entry has a column.
    pub fn has_column(self) -> bool {
        self.0 & 4 != 0
    }

    /// Whether the entry has an end column.
    pub fn has_end_column(self) -> bool {
        self.0 & 8 != 0
    }

    /// Whether line and end line are as stored; else one of them is below 1, and is shown as 1.
    pub fn is_as_stored(self) -> bool {
        self.0 & 16 != 0
    }

    /// Whether a byte of the entry is missing.
    pub fn is_cut(self) -> bool {
        self.0 & 32 != 0
    }

    /// Whether a complete entry gives the row that is shown.
    pub fn is_sure(self) -> bool {
        self.has_line() && self.is_as_stored() && !self.is_cut()
    }
}

/// Where an instruction comes from. Lines and columns count from 1.
#[allow(missing_docs)] // the names say it
#[derive(Clone, Copy, Debug, PartialEq, Eq)]
pub struct Location {
    pub line: u32,
    pub column: u32,
    pub end_line: u32,
    pub end_column: u32,
}

impl Location {
    pub(crate) fn of(record: &[u32; 4]) -> Self {
        let [line, column, end_line, end_column] = *record;
        Self { line, column, end_line, end_column }
    }
}

impl Code<'_> {
    /// The location of each instruction, as its line table says. [`Refusal::NumberRange`] stands at the entry's first byte
    /// in the input.
    pub fn lines<'r>(&self, records: &'r mut Records) -> Result<Lines<'r>, Refused> {
        records.lend(self.instructions());
        let answer = self.locate(records.shown.as_flattened_mut());
        Refused::unless_accepted(answer.refusal, |refusal| match refusal {
            Refusal::BadTable => Place::Node(answer.place),
            Refusal::NoRoom => Place::Room(answer.place),
            _ => Place::Byte(self.line_table().place() + answer.place as usize),
        })?;
        let counts = counted(self.block(), &mut records.sources);
        Ok(Lines::of(records, counts, answer.whole == 1))
    }

    /// What the entries before a refused one place: the locations of the instructions up to there, and none where the
    /// refusal is not at an entry of this line table. Each of them is from an entry.
    pub fn lines_before<'r>(&self, refused: &Refused, records: &'r mut Records) -> Option<Locations<'r>> {
        let Place::Byte(at) = refused.place else { return None };
        let table = self.line_table().bytes().get(..at.checked_sub(self.line_table().place())?)?;
        let before = Block { table, ..self.block() };
        records.lend(self.instructions());
        if located(before, records.shown.as_flattened_mut()).refusal != 0 {
            return None;
        }
        let counts = counted(before, &mut records.sources);
        let (records, sources) = (&records.shown[..counts.from_entries], &records.sources[..counts.from_entries]);
        Some(Locations { records, sources, counts })
    }

    /// Line and end line of each instruction that an entry placed, as they are stored: 0 and below too, which document 01
    /// shows as 1. Nothing where the table is refused, or where no first line would show them all.
    ///
    /// Lines are steps from the first line: the same table from a first line that is so much greater shows every line so much
    /// greater, and so above 1.
    pub fn stored_lines(&self, records: &mut Records) -> Option<Vec<(i64, i64)>> {
        let placed = self.lines(records).ok()?.whole_or_not().from_entries();
        let first = i64::from(self.first_line());
        let raised = (0..=32).map(|power| (1_i64 << power).min(i64::from(i32::MAX) - first));
        raised.filter_map(|raise| Some((raise, i32::try_from(first + raise).ok()?))).find_map(|(raise, first)| {
            records.lend(self.instructions());
            let raised = Block { first_line: first, ..self.block() };
            let located = located(raised, records.shown.as_flattened_mut()).refusal == 0;
            let shown = records.shown[..placed].iter().map(|[line, _, end_line, _]| [*line, *end_line]);
            let above = shown.clone().flatten().all(|line| line > 1);
            let lowered = |[line, end]: [u32; 2]| (i64::from(line) - raise, i64::from(end) - raise);
            (located && above).then(|| shown.map(lowered).collect())
        })
    }

    fn locate(&self, records: &mut [u32]) -> sillgarland_sys::Located {
        let Golden { input, nodes, .. } = self.golden();
        let nodes = nodes.as_flattened();
        // SAFETY: three slices of their own, each handed on by its pointer and its length.
        unsafe {
            sillgarland_sys::sill_locate_node(
                input.as_ptr(),
                input.len(),
                nodes.as_ptr(),
                nodes.len(),
                self.golden().used_nodes(),
                self.line_table().node(),
                self.first_line(),
                self.instructions() as u32,
                records.as_mut_ptr(),
                records.len(),
            )
        }
    }
}

/// Four numbers an instruction of a bare table.
pub(crate) fn located(block: Block, records: &mut [u32]) -> sillgarland_sys::Located {
    let Block { table, first_line, count } = block;
    // SAFETY: two slices of their own, each handed on by its pointer and its length.
    unsafe {
        sillgarland_sys::sill_locate(
            table.as_ptr(),
            table.len(),
            first_line,
            count,
            records.as_mut_ptr(),
            records.len(),
        )
    }
}

/// A byte an instruction, as [`Source`] holds it, and the counts, of a table that is not refused.
pub(crate) fn counted(block: Block, sources: &mut [u8]) -> Counts {
    let Block { table, first_line, count } = block;
    // SAFETY: two slices of their own, each handed on by its pointer and its length.
    let answer = unsafe {
        sillgarland_sys::sill_sources(
            table.as_ptr(),
            table.len(),
            first_line,
            count,
            sources.as_mut_ptr(),
            sources.len(),
        )
    };
    Counts {
        from_entries: answer.from_entries as usize,
        with_line: answer.with_line as usize,
        with_columns: answer.with_columns as usize,
        sure: answer.sure as usize,
    }
}

#[cfg(test)]
mod tests {
    use super::*;
    use crate::Reader;
    use crate::code::tests::put_code;

    /// Whether whole, how many from entries, and the lines.
    fn lines(instructions: usize, first_line: i32, table: &[u8]) -> Result<(bool, usize, Vec<u32>), Refused> {
        let input = put_code(instructions, &[], &[], first_line, table);
        let mut reader = Reader::new();
        let code = reader.read(&input).unwrap().root().as_code().unwrap();
        let mut records = Records::default();
        let lines = code.lines(&mut records)?;
        let locations = lines.whole_or_not();
        let shown = locations.iter().map(|located| located.location().line).collect();
        Ok((lines.whole().is_some(), locations.from_entries(), shown))
    }

    #[test]
    fn document_01s_table() {
        assert_eq!(lines(3, 10, &[0xE9, 0x02]), Ok((false, 2, vec![11, 11, 10])));
        assert_eq!(lines(2, 10, &[0xE9, 0x02]), Ok((true, 2, vec![11, 11])));
        assert_eq!(lines(0, 10, &[]), Ok((true, 0, vec![])));
        assert_eq!(lines(1, -3, &[]), Ok((false, 0, vec![1])));
    }

    #[test]
    fn a_cut_table_says_so_though_every_instruction_has_an_entry() {
        assert_eq!(lines(2, 10, &[0xE9]), Ok((false, 2, vec![10, 10])));
        assert_eq!(lines(2, 10, &[0xE9, 0x02, 0x80]), Ok((false, 2, vec![11, 11])));
    }

    #[test]
    fn a_line_out_of_range_is_refused_at_its_entry_in_the_input() {
        let table = [0xE9, 0x02, 0xE9, 0x7E, 0x7F, 0x7F, 0x7F, 0x7F, 0x03];
        let input = put_code(4, &[], &[], i32::MAX - 5, &table);
        let at = input.windows(table.len()).position(|window| window == table).unwrap();
        let refused = lines(4, i32::MAX - 5, &table).unwrap_err();
        assert_eq!(refused, Refused { refusal: Refusal::NumberRange, place: Place::Byte(at + 2) });
    }

    /// Document 02, K2: in a line table a number of 2^32 or more is refused, whatever is left of it without its high bits.
    #[test]
    fn a_number_of_2_32_or_more_is_refused() {
        let step = |behind: &[u8]| lines(1, 10, &[&[0xE8, 0x40, 0x40, 0x40, 0x40, 0x40], behind].concat());
        for sixth in [&[0x3F][..], &[0x3C], &[0x04], &[0x7F], &[0x40, 0x00]] {
            assert_eq!(step(sixth).unwrap_err().refusal, Refusal::NumberRange, "{sixth:02x?}");
        }
        assert_eq!(step(&[0x43]), Ok((false, 1, vec![1_610_612_746])));
        assert_eq!(step(&[0x40]), Ok((false, 1, vec![10])));
        assert_eq!(lines(1, i32::MAX, &[0xE8, 0x7F, 0x7F, 0x7F, 0x7F, 0x7F, 0x03]), Ok((true, 1, vec![1])));
    }

    #[test]
    fn the_lines_before_a_refused_entry() {
        let input = put_code(4, &[], &[], 10, &[0xE9, 0x02, 0xE8, 0x40, 0x40, 0x40, 0x40, 0x40, 0x3F]);
        let mut reader = Reader::new();
        let code = reader.read(&input).unwrap().root().as_code().unwrap();
        let mut records = Records::default();
        let refused = code.lines(&mut records).unwrap_err();
        let before = code.lines_before(&refused, &mut records).unwrap();
        assert_eq!((before.len(), before.from_entries()), (2, 2));
        assert_eq!(before.last_row(), Some(11));
        let elsewhere = Refused { refusal: Refusal::BadTable, place: Place::Node(0) };
        assert!(code.lines_before(&elsewhere, &mut records).is_none());
    }

    /// Rows that are sure, the last of them, and how many instructions at the end have no line.
    fn rows(instructions: usize, first_line: i32, table: &[u8]) -> (Vec<Option<u32>>, Option<u32>, usize) {
        let input = put_code(instructions, &[], &[], first_line, table);
        let mut reader = Reader::new();
        let code = reader.read(&input).unwrap().root().as_code().unwrap();
        let mut records = Records::default();
        let lines = code.lines(&mut records).unwrap();
        let locations = lines.whole_or_not();
        let rows: Vec<_> = locations.iter().map(Located::row).collect();
        assert!(rows.iter().enumerate().all(|(at, row)| lines.row(at) == *row));
        assert_eq!(lines.row(instructions), None);
        assert_eq!(locations.counts().sure, rows.iter().flatten().count());
        assert_eq!(locations.not_sure(), rows.iter().filter(|row| row.is_none()).count());
        (rows, locations.last_row(), locations.without_line_at_the_end())
    }

    #[test]
    fn a_row_that_no_entry_gave_is_none() {
        assert_eq!(rows(4, 10, &[0xE9, 0x02, 0xF8]), (vec![Some(11), Some(11), None, None], Some(11), 2)); // no place, left over
        assert_eq!(rows(1, 10, &[0xE8]), (vec![None], None, 0)); // its step is missing
        assert_eq!(rows(1, 10, &[0xE8, 0x1B]), (vec![None], None, 0)); // line -3, shown as 1
        assert_eq!(rows(1, 0, &[0xD8, 0x00, 0x00]), (vec![Some(1)], Some(1), 0)); // line 1, as stored
    }

    #[test]
    fn counts_and_instructions_without_a_place() {
        let table = [0xE9, 0x02, 0xFA, 0xF0, 0x40, 0x01, 0x00, 0x01, 0x00, 0xF9];
        for (instructions, [from_entries, with_line, with_columns, sure]) in
            [(8, [8, 3, 0, 3]), (7, [7, 3, 0, 3]), (2, [2, 2, 0, 2]), (0, [0; 4]), (20, [8, 3, 0, 3])]
        {
            let input = put_code(instructions, &[], &[], 10, &table);
            let mut reader = Reader::new();
            let code = reader.read(&input).unwrap().root().as_code().unwrap();
            let mut records = Records::default();
            let locations = code.lines(&mut records).unwrap().whole_or_not();
            assert_eq!(locations.counts(), Counts { from_entries, with_line, with_columns, sure }, "{instructions}");
            assert_eq!(locations.without_place(), from_entries - with_line, "{instructions}");
        }
    }

    #[test]
    fn lines_as_they_are_stored() {
        let stored = |first_line, table: &[u8]| {
            let input = put_code(3, &[], &[], first_line, table);
            let mut reader = Reader::new();
            let code = reader.read(&input).unwrap().root().as_code().unwrap();
            code.stored_lines(&mut Records::default())
        };
        assert_eq!(stored(10, &[0xE8, 0x02, 0xE8, 0x1D]), Some(vec![(11, 11), (-3, -3)]));
        assert_eq!(stored(1, &[0xF0, 0x02, 0x7D, 0x7F, 0x7F, 0x7F, 0x7F, 0x03, 0x01, 0x01]), Some(vec![(2, -1)]));
        assert_eq!(stored(i32::MIN, &[0xE8, 0x00]), Some(vec![(-2_147_483_648, -2_147_483_648)]));
        // from the least line to the greatest: no first line shows both above 1
        let both = [0xE8, 0x7E, 0x7F, 0x7F, 0x7F, 0x7F, 0x03, 0xE8, 0x02];
        assert_eq!(stored(i32::MIN, &both).map(|lines| lines.len()), Some(2));
        assert_eq!(stored(i32::MIN, &[&[0xE8, 0x00][..], &both, &both].concat()), None);
        assert_eq!(stored(1, &[0xE8, 0x7F, 0x7F, 0x7F, 0x7F, 0x7F, 0x3F]), None);
    }

    #[test]
    fn what_no_entry_placed_is_left_over() {
        let input = put_code(3, &[], &[], 10, &[0xE9, 0x02]);
        let mut reader = Reader::new();
        let code = reader.read(&input).unwrap().root().as_code().unwrap();
        let mut records = Records::default();
        let locations = code.lines(&mut records).unwrap().whole_or_not();
        let shown = Location { line: 10, column: 1, end_line: 10, end_column: 1 };
        assert_eq!(locations.first_left_over(), Some((2, shown)));
        assert_eq!(locations.iter().last(), Some(Located { location: shown, source: Source(0) }));
        assert_eq!((locations.len(), locations.is_empty()), (3, false));
    }
}
