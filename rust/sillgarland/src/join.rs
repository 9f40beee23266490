//! Joining line tables: one whole table behind another that leaves its first line.
use crate::{MOST_BYTES, Place, Refused};

/// A line table that stands for so many instructions from a first line.
#[derive(Clone, Copy, Debug, PartialEq, Eq)]
pub struct Block<'a> {
    /// The table's bytes.
    pub table: &'a [u8],
    /// The line before its first entry.
    pub first_line: i32,
    /// How many instructions it is for.
    pub count: u32,
}

/// What joining two tables gives.
#[derive(Clone, Debug, PartialEq, Eq)]
pub struct Joined {
    /// The bytes of both, one behind the other.
    pub table: Vec<u8>,
    /// The first table's first line.
    pub first_line: i32,
    /// How many instructions they are for.
    pub count: u32,
    /// The running line that they leave, from which a third table may go on.
    pub line: i32,
}

impl Joined {
    /// As a table that another may be joined to.
    pub fn block(&self) -> Block<'_> {
        Block { table: &self.table, first_line: self.first_line, count: self.count }
    }
}

/// What is told of one table.
#[derive(Clone, Copy, Debug, PartialEq, Eq)]
pub struct LineAfter {
    /// Whether every byte is used, none is missing, no stop is met and the entries are for just so many instructions.
    pub whole: bool,
    /// The running line where the reading ends. It is not the line that is shown: it may be 0 or less.
    pub line: i32,
}

/// Puts one table behind another. [`Refusal::NotJoined`](crate::Refusal::NotJoined) where one is not whole (one that is refused is not), or the first does
/// not leave the second's first line; [`Refusal::InputTooLong`](crate::Refusal::InputTooLong) where they are above [`MOST_BYTES`] together.
///
/// ```
/// use sillgarland::{Block, join};
/// let a = Block { table: &[0xE8, 0x02], first_line: 10, count: 1 }; // a step to line 11
/// let b = Block { table: &[0xF8], first_line: 11, count: 1 };
/// let joined = join(a, b)?;
/// assert_eq!((joined.table.as_slice(), joined.count, joined.line), (&[0xE8, 0x02, 0xF8][..], 2, 11));
/// # Ok::<(), sillgarland::Refused>(())
/// ```
pub fn join(a: Block, b: Block) -> Result<Joined, Refused> {
    let mut out = vec![0; a.table.len().saturating_add(b.table.len()).min(MOST_BYTES)];
    // SAFETY: three slices of their own, each handed on by its pointer and its length.
    let answer = unsafe {
        sillgarland_sys::sill_join(
            a.table.as_ptr(),
            a.table.len(),
            a.first_line,
            a.count,
            b.table.as_ptr(),
            b.table.len(),
            b.first_line,
            b.count,
            out.as_mut_ptr(),
            out.len(),
        )
    };
    Refused::unless_accepted_in_bytes(answer.refusal, answer.place)?;
    out.truncate(answer.written as usize);
    Ok(Joined { table: out, first_line: a.first_line, count: answer.count, line: answer.line })
}

/// Whether a table is whole, and the running line where its reading ends: what a join asks of it.
///
/// ```
/// use sillgarland::{Block, line_after};
/// let told = line_after(Block { table: &[0xE9, 0x02], first_line: -1, count: 2 })?;
/// assert!(told.whole);
/// assert_eq!(told.line, 0);
/// # Ok::<(), sillgarland::Refused>(())
/// ```
pub fn line_after(block: Block) -> Result<LineAfter, Refused> {
    // SAFETY: one slice, handed on by its pointer and its length.
    let answer = unsafe {
        sillgarland_sys::sill_line_after(block.table.as_ptr(), block.table.len(), block.first_line, block.count)
    };
    Refused::unless_accepted(answer.refusal, |_| Place::Byte(answer.place as usize))?;
    Ok(LineAfter { whole: answer.whole == 1, line: answer.line })
}

#[cfg(test)]
mod tests {
    use super::*;
    use crate::Refusal;

    fn block(table: &[u8], first_line: i32, count: u32) -> Block<'_> {
        Block { table, first_line, count }
    }

    fn refusal(a: Block, b: Block) -> Refusal {
        join(a, b).unwrap_err().refusal
    }

    #[test]
    fn three_tables_in_either_order() {
        let (a, b, c) = (block(&[0xE8, 0x03], 1, 1), block(&[0xFF], 0, 8), block(&[0xE9, 0x03], 0, 2));
        let left = join(join(a, b).unwrap().block(), c).unwrap();
        let right = join(a, join(b, c).unwrap().block()).unwrap();
        assert_eq!(left, right);
        assert_eq!((left.table.as_slice(), left.count, left.line), (&[0xE8, 0x03, 0xFF, 0xE9, 0x03][..], 11, -1));
    }

    #[test]
    fn refused_joins() {
        let one = block(&[0xF8], 1, 1);
        assert_eq!(refusal(block(&[0xF8], 0, 1), one), Refusal::NotJoined); // both lines are shown as 1
        assert_eq!(refusal(block(&[], 2, 0), one), Refusal::NotJoined);
        assert_eq!(refusal(block(&[0xF8], 1, 2), one), Refusal::NotJoined);
        assert_eq!(refusal(one, block(&[0xF8, 0x00], 1, 1)), Refusal::NotJoined);
        let refused = block(&[0xD8, 0x00, 0x00], i32::MAX, 1);
        assert_eq!(line_after(refused).unwrap_err().refusal, Refusal::NumberRange);
        assert_eq!(refusal(refused, block(&[], i32::MAX, 0)), Refusal::NotJoined);
        let long = vec![0xF8; MOST_BYTES];
        assert_eq!(refusal(block(&long, 1, MOST_BYTES as u32), one), Refusal::InputTooLong);
    }

    #[test]
    fn the_empty_table_is_neutral_where_it_meets() {
        let a = block(&[0xE8, 0x02], 10, 1);
        for joined in [join(a, block(&[], 11, 0)), join(block(&[], 10, 0), a)] {
            assert_eq!(joined.unwrap(), Joined { table: a.table.to_vec(), first_line: 10, count: 1, line: 11 });
        }
    }
}
