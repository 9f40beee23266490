//! Line tables by piece: a table that arrives in parts is read as they come, and the end gives what the joined table gives.
use crate::{Place, Refusal, Refused};
use sillgarland_sys::{Located, refusals};

/// How many numbers the port's state has.
const STATE: usize = 40;

/// A line table that is read as its pieces come, cut anywhere. It owns the state between the calls and the records, four numbers an
/// instruction: line, column, end line, end column.
///
/// ```
/// use sillgarland::Pieces;
/// let mut pieces = Pieces::begin(10, 3);
/// pieces.piece(&[0xE9])?; // two instructions; the byte of the line step is still to come
/// assert_eq!(pieces.from_entries(), 0);
/// pieces.piece(&[0x02])?;
/// assert_eq!((pieces.from_entries(), pieces.placed()[0][0]), (2, 11));
/// let ended = pieces.end()?;
/// assert!(!ended.whole);
/// assert_eq!(ended.records, [[11, 1, 11, 1], [11, 1, 11, 1], [10, 1, 10, 1]]);
/// # Ok::<(), sillgarland::Refused>(())
/// ```
#[derive(Clone, Debug)]
pub struct Pieces {
    state: [u32; STATE],
    records: Vec<[u32; 4]>,
    from_entries: usize,
}

/// What a table that came by piece gives at its end: what it gives when it is read at once.
#[derive(Clone, Debug, PartialEq, Eq)]
pub struct Ended {
    /// Line, column, end line and end column of each instruction.
    pub records: Vec<[u32; 4]>,
    /// How many instructions, the first ones, were placed by an entry.
    pub from_entries: usize,
    /// Whether every byte was used, none was missing, no stop was met and the lengths add up to the count.
    pub whole: bool,
}

impl Pieces {
    /// Begins a table for so many instructions from a first line.
    pub fn begin(first_line: i32, count: u32) -> Self {
        let (mut state, mut records) = ([0; STATE], vec![[0; 4]; count as usize]);
        let numbers = records.as_flattened_mut();
        // SAFETY: state and records are stores of their own, each handed on by its pointer and its length.
        let begun = unsafe {
            sillgarland_sys::sill_locate_begin(
                first_line,
                count,
                state.as_mut_ptr(),
                STATE,
                numbers.as_mut_ptr(),
                numbers.len(),
            )
        };
        assert_eq!(begun.refusal, refusals::ACCEPTED, "there is a record for each instruction");
        Self { state, records, from_entries: 0 }
    }

    /// Takes a piece. A refusal is the same in every later call: [`Refusal::NumberRange`] in the call whose bytes first show that no
    /// table which goes on from here can be read, [`Refusal::InputTooLong`] where the pieces are above 16 MiB together.
    pub fn piece(&mut self, bytes: &[u8]) -> Result<(), Refused> {
        let numbers = self.records.as_flattened_mut();
        // SAFETY: three slices of their own, each handed on by its pointer and its length.
        let told = unsafe {
            sillgarland_sys::sill_locate_piece(
                bytes.as_ptr(),
                bytes.len(),
                self.state.as_mut_ptr(),
                STATE,
                numbers.as_mut_ptr(),
                numbers.len(),
            )
        };
        self.from_entries = told.from_entries as usize;
        accepted(told)
    }

    /// How many instructions complete entries have placed so far.
    pub fn from_entries(&self) -> usize {
        self.from_entries
    }

    /// Their records.
    pub fn placed(&self) -> &[[u32; 4]] {
        &self.records[..self.from_entries]
    }

    /// Ends the table: missing bytes are read as 0, and instructions left over take the first line.
    pub fn end(mut self) -> Result<Ended, Refused> {
        let numbers = self.records.as_flattened_mut();
        // SAFETY: two slices of their own, each handed on by its pointer and its length.
        let told = unsafe {
            sillgarland_sys::sill_locate_end(self.state.as_mut_ptr(), STATE, numbers.as_mut_ptr(), numbers.len())
        };
        accepted(told)?;
        Ok(Ended { records: self.records, from_entries: told.from_entries as usize, whole: told.whole == 1 })
    }
}

fn accepted(told: Located) -> Result<(), Refused> {
    Refused::unless_accepted(told.refusal, |refusal| match refusal {
        Refusal::NoRoom => Place::Room(told.place),
        _ => Place::Byte(told.place as usize),
    })
}

#[cfg(test)]
mod tests {
    use super::*;

    #[test]
    fn every_cutting_gives_the_same() {
        let table = [0xF1, 0x03, 0x01, 0x02, 0x05, 0xD8, 0x10, 0x20, 0xEA, 0x07];
        let at_once = {
            let mut pieces = Pieces::begin(7, 6);
            pieces.piece(&table).unwrap();
            pieces.end().unwrap()
        };
        assert!(at_once.whole);
        for cut in 0..=table.len() {
            let mut pieces = Pieces::begin(7, 6);
            pieces.piece(&table[..cut]).unwrap();
            pieces.piece(&[]).unwrap();
            pieces.piece(&table[cut..]).unwrap();
            assert_eq!(pieces.end().unwrap(), at_once);
        }
    }

    #[test]
    fn a_refusal_comes_in_the_call_that_shows_it_and_stays() {
        let mut pieces = Pieces::begin(i32::MAX, 2);
        pieces.piece(&[0xF0, 0x00]).unwrap();
        pieces.piece(&[0x45]).unwrap(); // the end line leaves the range as it stands, but its number goes on
        assert_eq!(pieces.clone().end().unwrap_err().refusal, Refusal::NumberRange);
        let refused = pieces.piece(&[0x00]).unwrap_err();
        assert_eq!((refused.refusal, refused.place), (Refusal::NumberRange, Place::Byte(0)));
        assert_eq!(pieces.piece(&[]).unwrap_err(), refused);
        assert_eq!(pieces.end().unwrap_err(), refused);
    }

    #[test]
    fn pieces_above_the_limit_together() {
        let mut pieces = Pieces::begin(1, 1);
        pieces.piece(&vec![0; crate::MOST_BYTES]).unwrap();
        assert_eq!(pieces.piece(&[0]).unwrap_err().refusal, Refusal::InputTooLong);
    }
}
