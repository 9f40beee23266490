//! Line tables that stand alone, without a code object around them.
use crate::lines::{counted, located};
use crate::{Block, Code, LineAfter, Lines, Location, Place, Records, Refusal, Refused, Salvaged, line_after, salvage};

impl Block<'_> {
    /// The location of each instruction. [`Refusal::NumberRange`] stands at the entry's first byte in the table.
    ///
    /// ```
    /// use sillgarland::{Block, Records};
    ///
    /// let table = Block { table: &[0xE9, 0x02], first_line: 10, count: 3 };
    /// let mut records = Records::default();
    /// let lines = table.lines(&mut records)?;
    /// assert!(lines.whole().is_none()); // two of three instructions are placed
    /// assert_eq!((lines.row(0), lines.row(1), lines.row(2)), (Some(11), Some(11), None));
    /// assert_eq!(table.salvaged()?.table, [0xE9, 0x02, 0xF8]);
    /// # Ok::<(), sillgarland::Refused>(())
    /// ```
    pub fn lines<'r>(self, records: &'r mut Records) -> Result<Lines<'r>, Refused> {
        records.lend(self.count as usize);
        let answer = located(self, records.shown.as_flattened_mut());
        Refused::unless_accepted(answer.refusal, |refusal| place(refusal, answer.place))?;
        let counts = counted(self, &mut records.sources);
        Ok(Lines::of(records, counts, answer.whole == 1))
    }

    /// The locations alone, in a store of their own, as document 01 shows them: those that no entry placed, too.
    pub fn locations(self) -> Result<Vec<Location>, Refused> {
        let zero = sillgarland_sys::Location { line: 0, column: 0, end_line: 0, end_column: 0 };
        let (mut flat, mut out) = (vec![0; 4 * self.count as usize], vec![zero; self.count as usize]);
        // SAFETY: three slices of their own, each handed on by its pointer and its length.
        let answer = unsafe {
            sillgarland_sys::sill_locations(
                self.table.as_ptr(),
                self.table.len(),
                self.first_line,
                self.count,
                flat.as_mut_ptr(),
                flat.len(),
                out.as_mut_ptr(),
                out.len(),
            )
        };
        Refused::unless_accepted(answer.refusal, |refusal| place(refusal, answer.place))?;
        let shown = |l: &sillgarland_sys::Location| Location::of(&[l.line, l.column, l.end_line, l.end_column]);
        Ok(out.iter().map(shown).collect())
    }

    /// The table repaired for its instructions.
    pub fn salvaged(self) -> Result<Salvaged, Refused> {
        salvage(self.table, self.first_line, self.count)
    }

    /// Whether it is whole, and the line that it leaves.
    pub fn line_after(self) -> Result<LineAfter, Refused> {
        line_after(self)
    }
}

impl<'a> Code<'a> {
    /// Its line table as one that stands alone.
    pub fn block(&self) -> Block<'a> {
        let table = self.line_table().bytes();
        Block { table, first_line: self.first_line(), count: self.instructions() as u32 }
    }
}

fn place(refusal: Refusal, place: u32) -> Place {
    match refusal {
        Refusal::NoRoom => Place::Room(place),
        _ => Place::Byte(place as usize),
    }
}

#[cfg(test)]
mod tests {
    use super::*;

    fn block(table: &[u8], count: u32) -> Block<'_> {
        Block { table, first_line: 10, count }
    }

    #[test]
    fn locations_of_a_bare_table() {
        let table = block(&[0xD8, 0x04, 0x05, 0xE8, 0x02], 3);
        let mut records = Records::default();
        let lines = table.lines(&mut records).unwrap();
        let shown: Vec<Location> = lines.whole_or_not().iter().map(|located| located.location()).collect();
        assert_eq!(table.locations().unwrap(), shown);
        assert_eq!((lines.row(0), lines.row(1), lines.row(2)), (Some(11), Some(12), None));
        assert_eq!(shown[0], Location { line: 11, column: 5, end_line: 11, end_column: 6 });
        assert!(block(&[0xE9, 0x02], 2).line_after().unwrap().whole);
    }

    #[test]
    fn a_refusal_counts_from_the_tables_start() {
        let table = block(&[0xE9, 0x02, 0xE8, 0x40, 0x40, 0x40, 0x40, 0x40, 0x3F], 4);
        let refused = Refused { refusal: Refusal::NumberRange, place: Place::Byte(2) };
        assert_eq!(table.lines(&mut Records::default()).unwrap_err(), refused);
        assert_eq!(table.locations().unwrap_err(), refused);
    }
}
