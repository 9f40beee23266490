//! Writing a value back in its canonical form.
use crate::{Golden, MOST_BYTES, MOST_NESTING, Place, Refusal, Refused, Value};

impl Golden<'_> {
    /// The value in its canonical form: integers `i` or `l` with the fewest digits, strings `u`, tuples `(`, no references
    /// and no flags. A form of more than 16,777,216 bytes could not be read back, and is [`Refusal::NoRoom`].
    ///
    /// ```
    /// let mut reader = sillgarland::Reader::new();
    /// let golden = reader.read(b")\x02\xE9\x05\0\0\0r\0\0\0\0")?;
    /// assert_eq!(golden.written()?, b"(\x02\0\0\0i\x05\0\0\0i\x05\0\0\0");
    /// # Ok::<(), sillgarland::Refused>(())
    /// ```
    pub fn written(self) -> Result<Vec<u8>, Refused> {
        self.written_from(0)
    }

    fn written_from(self, node: u32) -> Result<Vec<u8>, Refused> {
        let mut out = vec![0; MOST_BYTES.min(2 * self.consumed + 64)];
        loop {
            let answer = self.try_write(node, &mut out);
            let place = |refusal| match refusal {
                Refusal::NoRoom => Place::Room(answer.place),
                Refusal::InputTooLong => Place::Byte(0),
                _ => Place::Node(answer.place),
            };
            match Refused::unless_accepted(answer.refusal, place) {
                Ok(()) => {
                    out.truncate(answer.written as usize);
                    return Ok(out);
                }
                Err(Refused { refusal: Refusal::NoRoom, .. }) if out.len() < MOST_BYTES => {
                    out.resize(MOST_BYTES.min(4 * out.len()), 0);
                }
                Err(refused) => return Err(refused),
            }
        }
    }

    fn try_write(self, node: u32, out: &mut [u8]) -> sillgarland_sys::Written {
        let Golden { input, nodes, entries, .. } = self;
        let (nodes, entries) = (nodes.as_flattened(), entries.as_flattened());
        // SAFETY: four slices of their own, each handed on by its pointer and its length.
        unsafe {
            sillgarland_sys::sill_write(
                input.as_ptr(),
                input.len(),
                nodes.as_ptr(),
                nodes.len(),
                entries.as_ptr(),
                entries.len(),
                self.used_nodes(),
                self.entries.len() as u32,
                node,
                MOST_NESTING,
                out.as_mut_ptr(),
                out.len(),
            )
        }
    }
}

impl Value<'_> {
    /// As [`Golden::written`], of this value alone.
    pub fn written(self) -> Result<Vec<u8>, Refused> {
        self.golden.written_from(self.node)
    }
}

#[cfg(test)]
mod tests {
    use crate::code::tests::put_code;
    use crate::{Place, Reader, Refusal, Refused, first_difference};

    #[test]
    fn a_code_object_reads_back_as_the_same_value() {
        let input = put_code(3, &["a", "b"], &[0x20, 0x40], -4, &[0xE9, 0x02]);
        let (mut one, mut other) = (Reader::new(), Reader::new());
        let golden = one.read(&input).unwrap();
        let written = golden.written().unwrap();
        assert_ne!(written, input);
        let again = other.read(&written).unwrap();
        assert!(first_difference(golden.root(), again.root()).is_none());
        assert_eq!(again.written().unwrap(), written);
    }

    /// Sharing is not written, so what is written may be far longer than what was read.
    #[test]
    fn the_output_grows_up_to_what_can_be_read_back() {
        let two_hundred_times = |size: usize| {
            let mut input = vec![b')', 200, b'u' | 0x80];
            input.extend((size as u32).to_le_bytes());
            input.resize(input.len() + size, b'x');
            input.extend(b"r\0\0\0\0".repeat(199));
            Reader::new().read(&input).unwrap().written().map(|written| written.len())
        };
        assert_eq!(two_hundred_times(1 << 16), Ok(5 + 200 * (5 + (1 << 16))));
        assert_eq!(two_hundred_times(1 << 17), Err(Refused { refusal: Refusal::NoRoom, place: Place::Room(1 << 24) }));
    }
}
