//! Which instructions start a row: an index beside the locations that it borrows, so that none can change under it.
use crate::Locations;

/// The rows that a code object's instructions start, by an index that is built once: no question looks at every location.
///
/// An instruction starts a row where its line differs from that of the one before; the first always does. A line that is not
/// sure, as each location's source tells, starts a row like any other.
///
/// ```
/// # fn input() -> Vec<u8> {
/// #     let mut input = b"c".to_vec();
/// #     input.extend([0; 20]);
/// #     input.extend(b"s\x06\0\0\0\t\0\t\0\t\0)\0)\0)\0s\0\0\0\0z\0z\0z\0\x0A\0\0\0s\x02\0\0\0\xE9\x02s\0\0\0\0");
/// #     input
/// # }
/// use sillgarland::{Reader, Records};
///
/// let input = input(); // three instructions: two of line 11, and one that is left over and shows line 10
/// let mut reader = Reader::new();
/// let code = reader.read(&input)?.root().as_code().unwrap();
/// let mut records = Records::default();
/// let starts = code.lines(&mut records)?.whole_or_not().starts();
/// assert_eq!(starts.len(), 2);
/// assert_eq!((starts.at(1), starts.at(2), starts.at(3)), (Some(0), Some(2), None));
/// assert_eq!((starts.before(2), starts.before(3), starts.before(4)), (Some(1), Some(2), None));
/// assert_eq!(starts.locations().row(2), None); // no entry gives it
/// # Ok::<(), sillgarland::Refused>(())
/// ```
#[derive(Clone, Debug)]
pub struct Starts<'r> {
    locations: Locations<'r>,
    index: Vec<u64>,
    starts: usize,
}

impl<'r> Locations<'r> {
    /// Builds the index of its row starts: 1.125 bits an instruction.
    pub fn starts(self) -> Starts<'r> {
        let (records, count) = (self.records().as_flattened(), self.len() as u32);
        let mut index = vec![0; 9 * (self.len() / 512 + 1)];
        // SAFETY: records and index are slices of their own, each handed on by its pointer and its length.
        let built = unsafe {
            sillgarland_sys::sill_index_starts(records.as_ptr(), records.len(), count, index.as_mut_ptr(), index.len())
        };
        assert_eq!(built.refusal, 0, "the index has the words that the count needs");
        Starts { locations: self, index, starts: built.starts as usize }
    }
}

impl<'r> Starts<'r> {
    /// How many there are.
    pub fn len(&self) -> usize {
        self.starts
    }

    /// Whether there are none, as of no instructions.
    pub fn is_empty(&self) -> bool {
        self.starts == 0
    }

    /// The locations whose starts they are.
    pub fn locations(&self) -> Locations<'r> {
        self.locations
    }

    /// How many lie before an instruction, which may be the one behind the last; nothing beyond that.
    pub fn before(&self, instruction: usize) -> Option<usize> {
        let (n, count) = (u32::try_from(instruction).ok()?, self.locations.len() as u32);
        // SAFETY: the index is handed on by its pointer and its length.
        let told = unsafe { sillgarland_sys::sill_starts_before(self.index.as_ptr(), self.index.len(), count, n) };
        (told.refusal == 0).then_some(told.value as usize)
    }

    /// The instruction that is the k-th start, from 1; nothing where there is none.
    pub fn at(&self, k: usize) -> Option<usize> {
        let (k, count) = (u32::try_from(k).ok()?, self.locations.len() as u32);
        // SAFETY: the index is handed on by its pointer and its length.
        let told = unsafe { sillgarland_sys::sill_start_at(self.index.as_ptr(), self.index.len(), count, k) };
        (told.refusal == 0).then_some(told.value as usize)
    }

    /// The line that the k-th start shows.
    pub fn line(&self, k: usize) -> Option<u32> {
        self.at(k).map(|at| self.locations.records()[at][0])
    }
}

#[cfg(test)]
mod tests {
    use crate::{Reader, Records};

    /// A code object whose line table gives these lines, two instructions each, from line 10.
    fn input(steps: &[u8]) -> Vec<u8> {
        let counted = |bytes: &[u8]| [b"s", &(bytes.len() as u32).to_le_bytes()[..], bytes].concat();
        let table: Vec<u8> = steps.iter().flat_map(|step| [0xE9, *step]).collect();
        let code = [9, 0].repeat(2 * steps.len());
        let (code, table) = (counted(&code), counted(&table));
        [b"c", &[0; 20][..], &code, b")\0)\0)\0s\0\0\0\0z\0z\0z\0\x0A\0\0\0", &table, b"s\0\0\0\0"].concat()
    }

    #[test]
    fn starts_are_where_the_line_differs() {
        let input = input(&[2, 0, 0, 2, 3]); // lines 11, 11, 11, 12, 11
        let mut reader = Reader::new();
        let code = reader.read(&input).unwrap().root().as_code().unwrap();
        let mut records = Records::default();
        let starts = code.lines(&mut records).unwrap().whole().unwrap().starts();
        let places: Vec<_> = (0..=4).map(|k| (starts.at(k), starts.line(k))).collect();
        assert_eq!(places, [(None, None), (Some(0), Some(11)), (Some(6), Some(12)), (Some(8), Some(11)), (None, None)]);
        let before: Vec<_> = [0, 1, 6, 7, 10, 11].map(|n| starts.before(n)).to_vec();
        assert_eq!(before, [Some(0), Some(1), Some(1), Some(2), Some(3), None]);
        assert_eq!((starts.len(), starts.is_empty(), starts.locations().len()), (3, false, 10));
    }

    #[test]
    fn no_instruction_starts_nothing() {
        let input = input(&[]);
        let mut reader = Reader::new();
        let code = reader.read(&input).unwrap().root().as_code().unwrap();
        let mut records = Records::default();
        let starts = code.lines(&mut records).unwrap().whole_or_not().starts();
        assert_eq!((starts.is_empty(), starts.at(1), starts.before(0), starts.before(1)), (true, None, Some(0), None));
    }
}
