//! The repair of a line table that is cut or damaged: a whole one, and a list of what was changed.
use crate::{Code, MOST_BYTES, Refused};

/// A repaired line table, and what was changed to make it whole.
///
/// Kept entries give the locations that they gave before. A covered instruction has an entry that says it has no place: the
/// table is whole, and what was lost stays lost.
///
/// ```
/// let salvaged = sillgarland::salvage(&[0xE9, 0x02], 10, 3)?; // two of three instructions are placed
/// assert_eq!(salvaged.table, [0xE9, 0x02, 0xF8]);
/// assert_eq!((salvaged.kept, salvaged.dropped, salvaged.shortened, salvaged.covered), (1, 0, false, 1));
/// # Ok::<(), sillgarland::Refused>(())
/// ```
#[derive(Clone, Debug, PartialEq, Eq)]
pub struct Salvaged {
    /// The whole table.
    pub table: Vec<u8>,
    /// How many entries of the old table it has, a shortened one included.
    pub kept: usize,
    /// How many bytes stood behind the last of them.
    pub dropped: usize,
    /// Whether the last of them stands for fewer instructions than it did.
    pub shortened: bool,
    /// How many instructions got an entry without a place.
    pub covered: usize,
}

/// Repairs a line table for so many instructions, from a first line. Only a table or a result above [`MOST_BYTES`] is refused.
pub fn salvage(table: &[u8], first_line: i32, count: u32) -> Result<Salvaged, Refused> {
    let room = table.len().saturating_add(count.div_ceil(8) as usize).min(MOST_BYTES);
    let mut out = vec![0; room];
    // SAFETY: two slices of their own, each handed on by its pointer and its length.
    let answer = unsafe {
        sillgarland_sys::sill_salvage(table.as_ptr(), table.len(), first_line, count, out.as_mut_ptr(), out.len())
    };
    Refused::unless_accepted_in_bytes(answer.refusal, answer.place)?;
    out.truncate(answer.written as usize);
    Ok(Salvaged {
        table: out,
        kept: answer.kept as usize,
        dropped: answer.dropped as usize,
        shortened: answer.shortened == 1,
        covered: answer.covered as usize,
    })
}

impl Code<'_> {
    /// Its line table, repaired for its instructions.
    pub fn salvaged(&self) -> Result<Salvaged, Refused> {
        salvage(self.line_table().bytes(), self.first_line(), self.instructions() as u32)
    }
}

#[cfg(test)]
mod tests {
    use super::*;
    use crate::{Place, Refusal};

    fn list(table: &[u8], first_line: i32, count: u32) -> (Vec<u8>, usize, usize, bool, usize) {
        let Salvaged { table, kept, dropped, shortened, covered } = salvage(table, first_line, count).unwrap();
        (table, kept, dropped, shortened, covered)
    }

    #[test]
    fn what_is_kept_dropped_shortened_and_covered() {
        assert_eq!(list(&[0xE9, 0x02], 10, 2), (vec![0xE9, 0x02], 1, 0, false, 0));
        assert_eq!(list(&[0xE9, 0x02, 0xF8], 10, 1), (vec![0xE8, 0x02], 1, 1, true, 0));
        assert_eq!(list(&[0xE9, 0x02, 0xD8, 0x04], 10, 13), (vec![0xE9, 0x02, 0xFF, 0xFA], 1, 2, false, 11));
        assert_eq!(list(&[0xE9, 0x02, 0x00, 0xF8], 10, 3), (vec![0xE9, 0x02, 0xF8], 1, 2, false, 1));
        assert_eq!(list(&[0xF8], 10, 0), (vec![], 0, 1, false, 0));
    }

    /// A complete entry that is refused is not kept, even past the count; a cut one is dropped, even past the count.
    #[test]
    fn refused_and_cut_entries() {
        assert_eq!(list(&[0xDF, 0x00, 0x00], i32::MAX, 1), (vec![0xF8], 0, 3, false, 1));
        assert_eq!(list(&[0xDF, 0x00], 10, 1), (vec![0xF8], 0, 2, false, 1));
        assert_eq!(list(&[0xD8, 0x00, 0x00, 0x80, 0x00], 1, 2).0, [0xD8, 0x00, 0x00, 0x80, 0x00]);
        assert_eq!(list(&[0xD8, 0x00, 0x00, 0x80, 0x00], i32::MAX, 2).0, [0xF9]);
    }

    #[test]
    fn too_many_instructions_are_refused() {
        let refused = salvage(&[], 1, u32::MAX).unwrap_err();
        assert_eq!(refused, Refused { refusal: Refusal::InputTooLong, place: Place::Byte(0) });
    }
}
