//! Document 01's sheets of values.
use crate::read::Ask;
use sillgarland_sys::refusals::MOST_NESTING;

/// P1 to P12 of document 01.
pub fn sheets() -> impl Iterator<Item = Ask> {
    let sheet = |nesting, input: &[u8]| Ask { input: input.to_vec(), nesting };
    [
        sheet(MOST_NESTING, b"\x4E"),
        sheet(MOST_NESTING, b""),
        sheet(MOST_NESTING, b"\x30"),
        sheet(MOST_NESTING, b"\x29\x02\x69\x01\x00\x00\x00\x54"),
        sheet(MOST_NESTING, b"\xA9\x01\x72\x00\x00\x00\x00"),
        sheet(MOST_NESTING, b"\x29\x02\xE9\x05\x00\x00\x00\x72\x00\x00\x00\x00"),
        sheet(MOST_NESTING, b"\x7B\xB0"),
        sheet(MOST_NESTING, b"\x6C\x01\x00\x00\x00\x00\x80"),
        sheet(MOST_NESTING, b"\x28\xFF\xFF\xFF\xFF"),
        sheet(1, b"\x29\x01\x4E"),
        sheet(1, b"\x7B\x4E\x4E\x30"),
        sheet(1, b"\x63"),
    ]
    .into_iter()
}
