//! The two forms of a golden file, and the moves from one into the other.
use crate::reader::{FIRST_ROOM, asks_for_room, more_room};
use crate::{MOST_RECORDS, Reader, Refusal, Refused};
use std::ops::Range;

/// The form of a golden file. The first byte tells it: that of a golden in fields begins no value.
#[derive(Clone, Copy, Debug, PartialEq, Eq, Hash)]
pub enum Form {
    /// Code and expected result back to back, with nothing after.
    Plain,
    /// Tagged fields: edition (tag 1, the one byte 1), code (tag 2), result (tag 3), exactly these in that order.
    Fields,
}

impl Form {
    /// By the first byte; a file that begins no golden at all is held to be plain.
    pub fn of(file: &[u8]) -> Self {
        if file.first() == Some(&1) { Form::Fields } else { Form::Plain }
    }
}

/// Where the two values of a golden stand in its file.
#[derive(Clone, Debug, PartialEq, Eq)]
pub struct GoldenParts {
    /// The form that the file has.
    pub form: Form,
    /// The bytes of the code.
    pub code: Range<usize>,
    /// The bytes of the expected result.
    pub result: Range<usize>,
}

/// How many bytes a golden in fields has beside its two values.
const HEADERS: usize = 10;

/// A move of a golden, with working room and nesting, into an output.
type Move = fn(&[u8], [&mut [u32]; 3], u32, &mut [u8]) -> sillgarland_sys::Moved;

fn to_fields(
    plain: &[u8],
    [nodes, entries, slots]: [&mut [u32]; 3],
    nesting: u32,
    out: &mut [u8],
) -> sillgarland_sys::Moved {
    // SAFETY: five slices of their own, each handed on by its pointer and its length.
    unsafe {
        sillgarland_sys::sill_golden_to_fields(
            plain.as_ptr(),
            plain.len(),
            nodes.as_mut_ptr(),
            nodes.len(),
            entries.as_mut_ptr(),
            entries.len(),
            slots.as_mut_ptr(),
            slots.len(),
            nesting,
            out.as_mut_ptr(),
            out.len(),
        )
    }
}

fn from_fields(
    fields: &[u8],
    [nodes, entries, slots]: [&mut [u32]; 3],
    nesting: u32,
    out: &mut [u8],
) -> sillgarland_sys::Moved {
    // SAFETY: as above.
    unsafe {
        sillgarland_sys::sill_golden_from_fields(
            fields.as_ptr(),
            fields.len(),
            nodes.as_mut_ptr(),
            nodes.len(),
            entries.as_mut_ptr(),
            entries.len(),
            slots.as_mut_ptr(),
            slots.len(),
            nesting,
            out.as_mut_ptr(),
            out.len(),
        )
    }
}

impl Reader {
    /// A golden of the old form in fields. Both values are read before anything is written, and places count from the file's start.
    /// [`Refusal::BadType`] where the first value is no code, [`Refusal::TrailingBytes`] where something follows the second,
    /// [`Refusal::ValueTooLong`] where a value is above 65,535 bytes, which no field holds.
    ///
    /// ```
    /// use sillgarland::{Place, Reader, Refusal};
    /// let refused = Reader::new().golden_to_fields(b"NN").unwrap_err();
    /// assert_eq!((refused.refusal, refused.place), (Refusal::BadType, Place::Byte(0)));
    /// ```
    pub fn golden_to_fields(&mut self, plain: &[u8]) -> Result<Vec<u8>, Refused> {
        self.moved(plain, to_fields)
    }

    /// A golden in fields in the old form: what [`golden_to_fields`](Self::golden_to_fields) was given comes back byte for byte.
    /// [`Refusal::NoSuchField`] where there are other fields or another edition, or these in another order.
    pub fn golden_from_fields(&mut self, fields: &[u8]) -> Result<Vec<u8>, Refused> {
        self.moved(fields, from_fields)
    }

    /// Where code and result stand in a golden of either form; or why it is not exactly these two.
    pub fn golden_parts(&mut self, file: &[u8]) -> Result<GoldenParts, Refused> {
        let form = Form::of(file);
        match form {
            Form::Fields => {
                self.golden_from_fields(file)?;
                let size = usize::from(u16::from_le_bytes([file[5], file[6]]));
                Ok(GoldenParts { form, code: 7..7 + size, result: HEADERS + size..file.len() })
            }
            Form::Plain => {
                let moved = self.golden_to_fields(file).err();
                if let Some(refused) = moved.filter(|refused| refused.refusal != Refusal::ValueTooLong) {
                    return Err(refused);
                }
                let code = self.read(file)?.consumed();
                Ok(GoldenParts { form, code: 0..code, result: code..file.len() })
            }
        }
    }

    fn moved(&mut self, golden: &[u8], way: Move) -> Result<Vec<u8>, Refused> {
        let enough = MOST_RECORDS.min(golden.len());
        let mut room = FIRST_ROOM.min(enough);
        let mut out = vec![0; golden.len().saturating_add(HEADERS)];
        loop {
            let nesting = self.nesting();
            let answer = way(golden, self.stores(room), nesting, &mut out);
            match Refused::unless_accepted_in_bytes(answer.refusal, answer.place) {
                Ok(()) => {
                    out.truncate(answer.written as usize);
                    return Ok(out);
                }
                Err(refused) if asks_for_room(refused.refusal) && room < enough => room = more_room(room, enough),
                Err(refused) => return Err(refused),
            }
        }
    }
}

#[cfg(test)]
mod tests {
    use super::*;
    use crate::{Place, settings_field};

    /// A code object of no arguments, instructions or names.
    fn code() -> Vec<u8> {
        let empty = [b"s\0\0\0\0".as_slice(), b")\0", b")\0", b")\0", b"s\0\0\0\0", b"z\0", b"z\0", b"z\0"].concat();
        [b"c".as_slice(), &[0; 20], &empty, &[1, 0, 0, 0], b"s\0\0\0\0", b"s\0\0\0\0"].concat()
    }

    fn refused<T: std::fmt::Debug>(outcome: Result<T, Refused>) -> (Refusal, Place) {
        let refused = outcome.unwrap_err();
        (refused.refusal, refused.place)
    }

    #[test]
    fn a_golden_goes_into_fields_and_back() {
        let (mut reader, code) = (Reader::new(), code());
        let plain = [&code[..], b")\x03NTF"].concat();
        let fields = reader.golden_to_fields(&plain).unwrap();
        assert_eq!(
            fields,
            [settings_field(1, &[1]), settings_field(2, &code), settings_field(3, b")\x03NTF")].concat()
        );
        assert_eq!(reader.golden_from_fields(&fields).unwrap(), plain);
        assert_eq!((Form::of(&plain), Form::of(&fields)), (Form::Plain, Form::Fields));
        let parts = reader.golden_parts(&fields).unwrap();
        assert_eq!((&fields[parts.code], &fields[parts.result]), (&code[..], &b")\x03NTF"[..]));
        let parts = reader.golden_parts(&plain).unwrap();
        assert_eq!((&plain[parts.code], &plain[parts.result]), (&code[..], &b")\x03NTF"[..]));
    }

    #[test]
    fn what_is_no_golden_is_refused() {
        let (mut reader, code) = (Reader::new(), code());
        assert_eq!(refused(reader.golden_to_fields(b"N")), (Refusal::EofObject, Place::Byte(1)));
        assert_eq!(refused(reader.golden_parts(b"NNN")), (Refusal::BadType, Place::Byte(0)));
        let doubled = [&code[..], b"NN"].concat();
        let behind = Place::Byte(code.len() + 1);
        assert_eq!(refused(reader.golden_parts(&doubled)), (Refusal::TrailingBytes, behind));
        let other_order = [settings_field(1, &[1]), settings_field(3, b"N"), settings_field(2, &code)].concat();
        assert_eq!(refused(reader.golden_from_fields(&other_order)), (Refusal::NoSuchField, Place::Byte(0)));
    }

    #[test]
    fn a_long_value_is_a_golden_that_has_no_fields() {
        let (mut reader, code) = (Reader::new(), code());
        let long = [b"s".as_slice(), &65_531_u32.to_le_bytes(), &[7; 65_531]].concat();
        let plain = [code.clone(), long].concat();
        assert_eq!(refused(reader.golden_to_fields(&plain)), (Refusal::ValueTooLong, Place::Byte(code.len())));
        assert_eq!(reader.golden_parts(&plain).unwrap().result, code.len()..plain.len());
    }

    #[test]
    fn stores_grow_until_both_values_fit() {
        let list = [b"[".as_slice(), &10_000_u32.to_le_bytes(), &[b'N'; 10_000]].concat();
        let plain = [code(), list].concat();
        let mut reader = Reader::new();
        let fields = reader.golden_to_fields(&plain).unwrap();
        assert_eq!(reader.golden_from_fields(&fields).unwrap(), plain);
    }
}
