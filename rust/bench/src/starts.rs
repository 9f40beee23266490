//! Row starts: building the index beside a plain loop that sums the lines; and both questions beside a scan of the locations and
//! one random load of the same store.
use crate::timing::{Way, side_by_side, timed_again};
use sillgarland_sys::{sill_index_starts, sill_start_at, sill_starts_before};
use std::hint::black_box;

/// How many questions are asked in one measure.
const QUESTIONS: usize = 1024;

pub fn run() {
    for count in [125_000, 16_000_000] {
        of(count);
    }
}

fn of(count: usize) {
    let records: Vec<u32> = (0..count as u32).flat_map(|i| [1 + i / 3 % 40_000, 1, 1, 1]).collect();
    let mut index = vec![0_u64; 9 * (count / 512 + 1)];
    build(&records, &mut index, count);
    let title = format!("an index of {count} instructions, built");
    let sum = || {
        black_box(black_box(&records).chunks_exact(4).fold(0_u32, |sum, record| sum.wrapping_add(record[0])));
    };
    let ways = vec![
        Way { name: "the sum of the lines", work: timed_again(sum) },
        Way { name: "the port", work: timed_again(|| build(&records, &mut index, count)) },
    ];
    side_by_side(&title, (count, "an instruction"), ways);
    ask(&records, &{ index }, count);
}

fn build(records: &[u32], index: &mut [u64], count: usize) {
    // SAFETY: records and index are lent for their lengths.
    let built =
        unsafe { sill_index_starts(records.as_ptr(), records.len(), count as u32, index.as_mut_ptr(), index.len()) };
    assert_eq!(black_box(built).refusal, 0);
}

/// Questions all over the instructions, in an order that no cache foresees.
fn ask(records: &[u32], index: &[u64], count: usize) {
    let places: Vec<u32> =
        (0..QUESTIONS as u64).map(|i| (i.wrapping_mul(0x9E37_79B9_7F4A_7C15) >> 20) as u32 % count as u32).collect();
    let load = || {
        for at in &places {
            black_box(index[*at as usize / 57]);
        }
    };
    let before = || {
        for n in &places {
            // SAFETY: the index is lent for its length.
            black_box(unsafe { sill_starts_before(index.as_ptr(), index.len(), count as u32, *n) });
        }
    };
    let at = || {
        for n in &places {
            // SAFETY: the index is lent for its length.
            black_box(unsafe { sill_start_at(index.as_ptr(), index.len(), count as u32, 1 + n / 3) });
        }
    };
    let ways = vec![
        Way { name: "one load of the index", work: timed_again(load) },
        Way { name: "how many before n", work: timed_again(before) },
        Way { name: "where the k-th is", work: timed_again(at) },
    ];
    side_by_side(&format!("questions of {count} instructions"), (QUESTIONS, "a question"), ways);
    let scan = || {
        let lines = black_box(records).chunks_exact(4).map(|record| record[0]);
        let mut last = 0;
        black_box(lines.filter(|line| std::mem::replace(&mut last, *line) != *line).count());
    };
    side_by_side(
        &format!("{count} locations, scanned"),
        (1, "a question"),
        vec![Way { name: "a scan", work: timed_again(scan) }],
    );
}
