//! Reading a value: the stores are owned here, and grow until the value fits or document 01's limits are met.
use crate::golden::Record;
use crate::refusal::{Place, Refusal, Refused};
use crate::{Golden, MOST_NESTING, MOST_RECORDS};

/// How many records each store is lent at first, and by how much they grow when these do not do. A file may hold very
/// many small values, and every reading clears what it is lent: hence the small beginning.
pub(crate) const FIRST_ROOM: usize = 16;
const GROWTH: usize = 4;

/// The stores that values are read into, kept from one reading to the next.
///
/// ```
/// let mut reader = sillgarland::Reader::new();
/// for input in [b"N".as_slice(), b"T", b")\0"] {
///     assert_eq!(reader.read(input)?.consumed(), input.len());
/// }
/// # Ok::<(), sillgarland::Refused>(())
/// ```
#[derive(Debug)]
pub struct Reader {
    nodes: Vec<Record>,
    entries: Vec<[u32; 2]>,
    slots: Vec<u32>,
    nesting: u32,
}

impl Default for Reader {
    fn default() -> Self {
        Self::allowing(MOST_NESTING)
    }
}

impl Reader {
    /// A reader whose stores are yet empty.
    pub fn new() -> Self {
        Self::default()
    }

    /// A reader that allows no deeper nesting; more than [`MOST_NESTING`] counts as that.
    ///
    /// ```
    /// use sillgarland::{Reader, Refusal};
    /// assert_eq!(Reader::allowing(0).read(b")\x01N").unwrap_err().refusal, Refusal::TooDeep);
    /// ```
    pub fn allowing(nesting: u32) -> Self {
        Self { nodes: Vec::new(), entries: Vec::new(), slots: Vec::new(), nesting }
    }

    /// Reads the value that the input begins with. Bytes after it are not looked at, but the whole input counts for
    /// [`Refusal::InputTooLong`].
    pub fn read<'a>(&'a mut self, input: &'a [u8]) -> Result<Golden<'a>, Refused> {
        self.read_nested(input, self.nesting)
    }

    /// As [`read`](Self::read), with less nesting allowed.
    pub fn read_nested<'a>(&'a mut self, input: &'a [u8], nesting: u32) -> Result<Golden<'a>, Refused> {
        let enough = MOST_RECORDS.min(input.len());
        let mut room = FIRST_ROOM.min(enough);
        loop {
            let answer = self.try_read(input, room, nesting);
            match Refused::unless_accepted(answer.refusal, |_| Place::Byte(answer.place as usize)) {
                Ok(()) => return Ok(self.golden(input, answer)),
                Err(refused) if asks_for_room(refused.refusal) && room < enough => room = more_room(room, enough),
                Err(refused) => return Err(refused),
            }
        }
    }

    /// The three stores, with room for so many records each.
    pub(crate) fn stores(&mut self, room: usize) -> [&mut [u32]; 3] {
        [
            lent(&mut self.nodes, room).as_flattened_mut(),
            lent(&mut self.entries, room).as_flattened_mut(),
            lent(&mut self.slots, room),
        ]
    }

    /// The three stores, as long as they have grown.
    pub(crate) fn all_stores(&mut self) -> [&mut [u32]; 3] {
        [self.nodes.as_flattened_mut(), self.entries.as_flattened_mut(), &mut self.slots]
    }

    /// So many nodes and entries, from the front.
    pub(crate) fn first(&self, nodes: usize, entries: usize) -> (&[Record], &[[u32; 2]]) {
        (&self.nodes[..nodes], &self.entries[..entries])
    }

    pub(crate) fn nesting(&self) -> u32 {
        self.nesting
    }

    fn try_read(&mut self, input: &[u8], room: usize, nesting: u32) -> sillgarland_sys::Read {
        let [nodes, entries, slots] = self.stores(room);
        // SAFETY: four slices of their own, each handed on by its pointer and its length.
        unsafe {
            sillgarland_sys::sill_read(
                input.as_ptr(),
                input.len(),
                nodes.as_mut_ptr(),
                nodes.len(),
                entries.as_mut_ptr(),
                entries.len(),
                slots.as_mut_ptr(),
                slots.len(),
                nesting,
            )
        }
    }

    fn golden<'a>(&'a self, input: &'a [u8], answer: sillgarland_sys::Read) -> Golden<'a> {
        Golden {
            input,
            nodes: &self.nodes[..answer.nodes as usize],
            entries: &self.entries[..answer.entries as usize],
            consumed: answer.consumed as usize,
            in_session: false,
        }
    }
}

/// The next room to try.
pub(crate) fn more_room(room: usize, enough: usize) -> usize {
    enough.min(room * GROWTH)
}

pub(crate) fn asks_for_room(refusal: Refusal) -> bool {
    matches!(refusal, Refusal::NoNode | Refusal::NoEntry | Refusal::NoSlot)
}

/// The first `room` records of a store, which grows if it has fewer.
fn lent<T: Clone + Default>(store: &mut Vec<T>, room: usize) -> &mut [T] {
    if store.len() < room {
        store.resize(room, T::default());
    }
    &mut store[..room]
}

#[cfg(test)]
mod tests {
    use super::*;

    fn refused(input: &[u8]) -> (u32, Place) {
        let refused = Reader::new().read(input).unwrap_err();
        (refused.refusal.number(), refused.place)
    }

    #[test]
    fn document_01s_sheet() {
        assert_eq!(refused(b""), (1, Place::Byte(0)));
        assert_eq!(refused(b"0"), (4, Place::Byte(0)));
        assert_eq!(refused(&[0xA9, 1, b'r', 0, 0, 0, 0]), (5, Place::Byte(3)));
        assert_eq!(refused(b"l\x01\0\0\0\0\x80"), (8, Place::Byte(5)));
        assert_eq!(refused(b"(\xFF\xFF\xFF\xFF"), (6, Place::Byte(1)));
        let deep = |input: &[u8]| Reader::new().read_nested(input, 1).unwrap_err().place;
        assert_eq!(deep(b")\x01N"), Place::Byte(2));
        assert_eq!(deep(b"{NN0"), Place::Byte(1));
        assert_eq!(deep(b"c"), Place::Byte(1));
    }

    #[test]
    fn stores_grow_until_the_value_fits() {
        let mut reader = Reader::new();
        for count in [0, 1, 15, 16, 17, 63, 64, 1_000, 100_000_u32] {
            let mut input = vec![b'['];
            input.extend(count.to_le_bytes());
            input.extend(std::iter::repeat_n(b'N' | 0x80, count as usize));
            let golden = reader.read(&input).unwrap();
            assert_eq!(golden.consumed(), input.len());
            assert_eq!(golden.root().children().len(), count as usize);
        }
    }

    #[test]
    fn stores_grow_no_further_than_document_01_allows() {
        let count = MOST_RECORDS as u32;
        let mut input = vec![b'['];
        input.extend(count.to_le_bytes());
        input.extend(std::iter::repeat_n(b'N', count as usize));
        assert_eq!(refused(&input), (11, Place::Byte(input.len() - 1)));
        input[0] = b'['; // one child fewer: list and children are 1,048,576 nodes
        input[1..5].copy_from_slice(&(count - 1).to_le_bytes());
        assert_eq!(Reader::new().read(&input).unwrap().consumed(), input.len() - 1);
    }

    #[test]
    fn sixteen_mebibytes_are_read_and_one_byte_more_is_refused() {
        let mut input = vec![0; crate::MOST_BYTES];
        input[0] = b's';
        input[1..5].copy_from_slice(&(crate::MOST_BYTES as u32 - 5).to_le_bytes());
        assert_eq!(Reader::new().read(&input).unwrap().consumed(), crate::MOST_BYTES);
        input.push(0);
        assert_eq!(refused(&input), (14, Place::Byte(0)));
    }

    #[test]
    fn a_full_nesting_is_read_on_a_thread_of_two_mebibytes() {
        let mut input = b")\x01".repeat(MOST_NESTING as usize - 1);
        input.push(b'N');
        assert_eq!(Reader::new().read(&input).unwrap().consumed(), input.len());
        input.splice(0..0, *b")\x01");
        assert_eq!(refused(&input), (10, Place::Byte(input.len() - 1)));
    }
}
