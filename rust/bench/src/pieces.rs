//! Line tables by piece: one piece beside `sill_locate` and one clearing of the records, which is what the calls do more; and byte by byte.
use crate::linetable::{Table, made_tables};
use crate::timing::{Way, side_by_side, timed_again};
use sillgarland_sys::{sill_locate, sill_locate_begin, sill_locate_end, sill_locate_piece};
use std::hint::black_box;

const STATE: usize = 40;

pub fn run() {
    for table in made_tables() {
        whole(&table);
        by_byte(&table);
    }
}

fn whole(table: &Table) {
    let numbers = 4 * table.count as usize;
    let (mut joined, mut records, mut state) = (vec![0_u32; numbers], vec![0_u32; numbers], [0; STATE]);
    let at_once = || {
        joined.fill(0);
        let (bytes, joined) = (black_box(&table.bytes), black_box(&mut joined));
        // SAFETY: table and records are lent for their lengths.
        let told = unsafe {
            sill_locate(bytes.as_ptr(), bytes.len(), table.first_line, table.count, joined.as_mut_ptr(), joined.len())
        };
        assert_eq!(black_box(told).refusal, 0);
    };
    let one_piece = || in_pieces(table, table.bytes.len(), &mut state, &mut records);
    let ways = vec![
        Way { name: "sill_locate and one clearing", work: timed_again(at_once) },
        Way { name: "one piece", work: timed_again(one_piece) },
    ];
    side_by_side("one made table in one piece", (table.count as usize, "an instruction"), ways);
}

fn by_byte(table: &Table) {
    let (mut records, mut state) = (vec![0_u32; 4 * table.count as usize], [0; STATE]);
    let bytes = || in_pieces(table, 1, &mut state, &mut records);
    let ways = vec![Way { name: "byte by byte", work: timed_again(bytes) }];
    side_by_side(
        &format!("one made table of {} instructions, byte by byte", table.count),
        (table.bytes.len(), "a byte"),
        ways,
    );
}

fn in_pieces(table: &Table, size: usize, state: &mut [u32; STATE], records: &mut [u32]) {
    let (s, r, len) = (state.as_mut_ptr(), records.as_mut_ptr(), records.len());
    // SAFETY: state, records and each piece are lent for their lengths.
    unsafe {
        assert_eq!(sill_locate_begin(table.first_line, table.count, s, STATE, r, len).refusal, 0);
        for piece in table.bytes.chunks(size) {
            black_box(sill_locate_piece(piece.as_ptr(), piece.len(), s, STATE, r, len));
        }
        assert_eq!(black_box(sill_locate_end(s, STATE, r, len)).refusal, 0);
    }
}
