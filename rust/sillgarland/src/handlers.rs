//! Which instructions of a code object are guarded, and by which handler: the entries of its exception table.
use crate::{Code, Refused};

/// An entry of an exception table. Instructions count from 0, cache units counted.
#[derive(Clone, Copy, Debug, PartialEq, Eq, Hash)]
pub struct Handler {
    /// The first instruction that it guards.
    pub start: u32,
    /// How many it guards.
    pub length: u32,
    /// The handler's first instruction.
    pub target: u32,
    /// How deep the stack is when the handler is entered.
    pub depth: u32,
    /// Whether the instruction that was under way is pushed.
    pub lasti: bool,
}

impl Handler {
    /// The first instruction behind those that it guards.
    pub fn end(&self) -> u64 {
        u64::from(self.start) + u64::from(self.length)
    }

    /// The guarded ones among so many instructions, by their numbers.
    pub fn guarded(&self, instructions: usize) -> std::ops::Range<usize> {
        let end = usize::try_from(self.end()).unwrap_or(instructions).min(instructions);
        (self.start as usize).min(end)..end
    }
}

/// The handlers that an exception table lists, in its order. Places of refusals count from the table's start.
///
/// ```
/// use sillgarland::{Handler, Place, Refusal, exception_table, handlers};
///
/// let listed = handlers(&[0x84, 0x03, 0x0A, 0x03])?;
/// assert_eq!(listed, [Handler { start: 4, length: 3, target: 10, depth: 1, lasti: true }]);
/// assert_eq!(exception_table(&listed)?, [0x84, 0x03, 0x0A, 0x03]);
///
/// let refused = handlers(&[0x84, 0x03, 0x0A]).unwrap_err();
/// assert_eq!((refused.refusal, refused.place), (Refusal::DataTooShort, Place::Byte(3)));
/// # Ok::<(), sillgarland::Refused>(())
/// ```
pub fn handlers(table: &[u8]) -> Result<Vec<Handler>, Refused> {
    let mut entries = vec![[0; 5]; table.len() / 4];
    let flat = entries.as_flattened_mut();
    // SAFETY: two slices of their own, each handed on by its pointer and its length.
    let answer =
        unsafe { sillgarland_sys::sill_read_exceptions(table.as_ptr(), table.len(), flat.as_mut_ptr(), flat.len()) };
    Refused::unless_accepted_in_bytes(answer.refusal, answer.place)?;
    entries.truncate(answer.count as usize);
    let handler =
        |[start, length, target, depth, last]: [u32; 5]| Handler { start, length, target, depth, lasti: last == 1 };
    Ok(entries.into_iter().map(handler).collect())
}

/// Handlers as an exception table, in the shortest form. [`Refusal::NumberRange`](crate::Refusal::NumberRange) where a depth is 2^31 or more.
pub fn exception_table(handlers: &[Handler]) -> Result<Vec<u8>, Refused> {
    let numbers = |h: &Handler| [h.start, h.length, h.target, h.depth, u32::from(h.lasti)];
    let entries: Vec<[u32; 5]> = handlers.iter().map(numbers).collect();
    let (flat, mut out) = (entries.as_flattened(), vec![0; LONGEST * handlers.len()]);
    // SAFETY: two slices of their own, each handed on by its pointer and its length.
    let answer =
        unsafe { sillgarland_sys::sill_write_exceptions(flat.as_ptr(), flat.len(), out.as_mut_ptr(), out.len()) };
    Refused::unless_accepted_in_bytes(answer.refusal, answer.place)?;
    out.truncate(answer.written as usize);
    Ok(out)
}

/// Four numbers of six bytes.
const LONGEST: usize = 24;

impl Code<'_> {
    /// The handlers that its exception table lists. A refusal stands at its byte in the input.
    pub fn handlers(&self) -> Result<Vec<Handler>, Refused> {
        handlers(self.exception_table()).map_err(|refused| refused.after(self.exception_table_place()))
    }
}

#[cfg(test)]
mod tests {
    use super::*;
    use crate::Reader;
    use crate::code::tests::put_code;
    use crate::{Place, Refusal};

    fn handler(start: u32, length: u32, target: u32, depth: u32, lasti: bool) -> Handler {
        Handler { start, length, target, depth, lasti }
    }

    #[test]
    fn entries_are_written_as_they_were_read() {
        let listed =
            [handler(4, 3, 10, 1, true), handler(64, 2, 69, 0, false), handler(u32::MAX, u32::MAX, 0, 5, true)];
        let table = exception_table(&listed).unwrap();
        assert_eq!(table[..10], [0x84, 0x03, 0x0A, 0x03, 0xC1, 0x00, 0x02, 0x41, 0x05, 0x00]);
        assert_eq!(handlers(&table), Ok(listed.to_vec()));
        assert_eq!((exception_table(&[]), handlers(&[])), (Ok(vec![]), Ok(vec![])));
    }

    #[test]
    fn the_deepest_stack() {
        let deepest = [handler(0, 1, 2, 0x7FFF_FFFF, true)];
        assert_eq!(handlers(&exception_table(&deepest).unwrap()), Ok(deepest.to_vec()));
        let refused = exception_table(&[deepest[0], handler(0, 1, 2, 0x8000_0000, false)]).unwrap_err();
        assert_eq!(refused, Refused { refusal: Refusal::NumberRange, place: Place::Byte(0) });
    }

    #[test]
    fn what_is_damaged_is_refused_at_its_place() {
        let refused = |table: &[u8]| handlers(table).map_err(|r| (r.refusal, r.place)).unwrap_err();
        assert_eq!(refused(&[0x84, 0x03, 0x0A, 0x03, 0x04]), (Refusal::NoMarker, Place::Byte(4)));
        assert_eq!(refused(&[0x84, 0x03, 0x4A]), (Refusal::DataTooShort, Place::Byte(2)));
        let large = [0x84, 0x44, 0x40, 0x40, 0x40, 0x40, 0x00, 0x00, 0x00];
        assert_eq!(refused(&large), (Refusal::NumberRange, Place::Byte(1)));
    }

    /// The code object of the tests has the two bytes `ex` for an exception table.
    #[test]
    fn a_refusal_of_a_code_object_stands_in_the_input() {
        let input = put_code(4, &[], &[], 10, &[0xFB]);
        let mut reader = Reader::new();
        let code = reader.read(&input).unwrap().root().as_code().unwrap();
        let place = Place::Byte(input.len() - 2);
        assert_eq!(code.handlers(), Err(Refused { refusal: Refusal::NoMarker, place }));
    }

    #[test]
    fn guarded_instructions_are_among_those_there_are() {
        assert_eq!(handler(4, 3, 0, 0, false).guarded(10), 4..7);
        assert_eq!(handler(4, 3, 0, 0, false).guarded(5), 4..5);
        assert_eq!(handler(4, u32::MAX, 0, 0, false).guarded(3), 3..3);
        assert_eq!(handler(u32::MAX, u32::MAX, 0, 0, false).end(), 8_589_934_590);
    }
}
