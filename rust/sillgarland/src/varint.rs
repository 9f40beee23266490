//! Numbers of six bits a byte, 0x40 meaning more: little-endian as in line tables, big-endian as in exception tables.
use crate::{Place, Refused};
use sillgarland_sys::{Found, Written};

/// The bytes that a number of 32 bits takes at most.
const LONGEST: usize = 6;

/// A number as a line table has it: little-endian, in the shortest form.
///
/// ```
/// assert_eq!(sillgarland::varint(64), [0x40, 0x01]);
/// assert_eq!(sillgarland::varint_be(64), [0x41, 0x00]);
/// assert_eq!(sillgarland::varint_with_start(64), [0xC1, 0x00]);
/// assert_eq!(sillgarland::signed_varint(-3)?, [0x07]);
/// # Ok::<(), sillgarland::Refused>(())
/// ```
pub fn varint(value: u32) -> Vec<u8> {
    // SAFETY: the slice is handed on by its pointer and its length.
    always_fits(written(|out| unsafe { sillgarland_sys::sill_write_varint(out.as_mut_ptr(), out.len(), value) }))
}

/// A signed number as a line table has it: twice its size, and one more where it is below 0. [`Refusal::NumberRange`](crate::Refusal::NumberRange) for the
/// smallest 32-bit number, whose size has 33 bits.
pub fn signed_varint(value: i32) -> Result<Vec<u8>, Refused> {
    // SAFETY: the slice is handed on by its pointer and its length.
    written(|out| unsafe { sillgarland_sys::sill_write_signed_varint(out.as_mut_ptr(), out.len(), value) })
}

/// A number as an exception table has it: big-endian, in the shortest form.
pub fn varint_be(value: u32) -> Vec<u8> {
    // SAFETY: the slice is handed on by its pointer and its length.
    always_fits(written(|out| unsafe { sillgarland_sys::sill_write_varint_be(out.as_mut_ptr(), out.len(), value) }))
}

/// A number as an entry of an exception table begins: big-endian, with 0x80 on the first byte.
pub fn varint_with_start(value: u32) -> Vec<u8> {
    // SAFETY: the slice is handed on by its pointer and its length.
    let bytes =
        written(|out| unsafe { sillgarland_sys::sill_write_varint_with_start(out.as_mut_ptr(), out.len(), value) });
    always_fits(bytes)
}

/// The big-endian number that starts at a byte: it, and the byte behind it. Nothing where no byte is left. A number that is cut by
/// the end, or is 2^32 or more, is refused at its start.
///
/// ```
/// use sillgarland::{Refusal, read_varint};
/// assert_eq!(read_varint(&[0x41, 0x00, 0x05], 0)?, Some((64, 2)));
/// assert_eq!(read_varint(&[0x41, 0x00, 0x05], 3)?, None);
/// assert_eq!(read_varint(&[0x05, 0x41], 1).unwrap_err().refusal, Refusal::DataTooShort);
/// # Ok::<(), sillgarland::Refused>(())
/// ```
pub fn read_varint(data: &[u8], at: usize) -> Result<Option<(u32, usize)>, Refused> {
    // SAFETY: the slice is handed on by its pointer and its length.
    found(unsafe { sillgarland_sys::sill_read_varint(data.as_ptr(), data.len(), at) })
}

/// As [`read_varint`], where the first byte has 0x80; nothing also where it has not.
pub fn read_varint_with_start(data: &[u8], at: usize) -> Result<Option<(u32, usize)>, Refused> {
    // SAFETY: the slice is handed on by its pointer and its length.
    found(unsafe { sillgarland_sys::sill_read_varint_with_start(data.as_ptr(), data.len(), at) })
}

fn written(write: impl FnOnce(&mut [u8]) -> Written) -> Result<Vec<u8>, Refused> {
    let mut out = vec![0; LONGEST];
    let answer = write(&mut out);
    Refused::unless_accepted_in_bytes(answer.refusal, answer.place)?;
    out.truncate(answer.written as usize);
    Ok(out)
}

fn always_fits(bytes: Result<Vec<u8>, Refused>) -> Vec<u8> {
    bytes.expect("a number of 32 bits takes six bytes at most")
}

fn found(answer: Found) -> Result<Option<(u32, usize)>, Refused> {
    Refused::unless_accepted(answer.refusal, |_| Place::Byte(answer.place as usize))?;
    Ok((answer.found == 1).then_some((answer.value, answer.next as usize)))
}

#[cfg(test)]
mod tests {
    use super::*;
    use crate::Refusal;

    #[test]
    fn what_is_written_reads_back() {
        for value in [0, 1, 63, 64, 4095, 4096, 1 << 30, u32::MAX] {
            let (plain, started) = (varint_be(value), varint_with_start(value));
            assert_eq!(read_varint(&plain, 0), Ok(Some((value, plain.len()))));
            assert_eq!(read_varint_with_start(&started, 0), Ok(Some((value, started.len()))));
            assert_eq!(varint(value).len(), plain.len());
        }
        assert_eq!(varint(u32::MAX), [0x7F, 0x7F, 0x7F, 0x7F, 0x7F, 0x03]);
    }

    #[test]
    fn signed_numbers() {
        assert_eq!(
            (signed_varint(0), signed_varint(-1), signed_varint(32)),
            (Ok(vec![0]), Ok(vec![3]), Ok(vec![0x40, 1]))
        );
        let refused = signed_varint(i32::MIN).unwrap_err();
        assert_eq!((refused.refusal, refused.place), (Refusal::NumberRange, Place::Byte(0)));
    }

    #[test]
    fn nothing_found_and_refused() {
        assert_eq!(read_varint_with_start(&[0x05], 0), Ok(None));
        assert_eq!(read_varint(&[], 7), Ok(None));
        let large = read_varint(&[0, 0x44, 0x40, 0x40, 0x40, 0x40, 0], 1).unwrap_err();
        assert_eq!((large.refusal, large.place), (Refusal::NumberRange, Place::Byte(1)));
    }
}
