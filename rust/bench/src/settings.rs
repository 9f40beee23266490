//! Archives of settings files: a question that no saved file answers, which looks at all of them, beside a sum of the bytes; at
//! eight times the files, so that one sees how the cost grows.
use crate::timing::{Way, side_by_side, timed_again};
use sillgarland_sys::{refusals, sill_edition};
use std::hint::black_box;

pub fn run() {
    for editions in [4_000, 32_000] {
        of(editions);
    }
}

fn of(editions: usize) {
    let archive: Vec<u8> = (0..editions).flat_map(saved).collect();
    let sum = || {
        black_box(black_box(&archive).iter().fold(0_u8, |sum, byte| sum.wrapping_add(*byte)));
    };
    let ask = || {
        let none = b"none";
        // SAFETY: archive and edition are lent for their lengths.
        let told = unsafe { sill_edition(archive.as_ptr(), archive.len(), none.as_ptr(), none.len()) };
        assert_eq!(black_box(told).refusal, refusals::NO_SUCH_FIELD);
    };
    let ways = vec![
        Way { name: "the sum of the bytes", work: timed_again(sum) },
        Way { name: "an edition that is not there", work: timed_again(ask) },
    ];
    let title = format!("an archive of {editions} editions, {} bytes", archive.len());
    side_by_side(&title, (editions, "a saved file"), ways);
}

/// A saved file of two fields behind its length: the edition, and up to 299 bytes of a tag that nobody knows.
fn saved(n: usize) -> Vec<u8> {
    let field = |tag: u8, contents: &[u8]| [&[tag][..], &(contents.len() as u16).to_le_bytes(), contents].concat();
    let file = [field(1, &(n as u32).to_le_bytes()), field(9, &vec![n as u8; n % 300])].concat();
    [&(file.len() as u32).to_le_bytes()[..], &file].concat()
}
