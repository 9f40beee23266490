//! Line tables: linetable_to_locations, which makes a new slice of locations at each call, and the port's two functions,
//! which fill stores lent to them. The port's caller keeps its stores from call to call, or allocates and frees them at each
//! call: the result alone, as the Rust does, with the structs' store of numbers kept, or both stores. Then the bytes that say where
//! each location comes from, beside the locations.
use crate::timing::{Way, side_by_side, timed_again};
use carried::marshal::linetable_to_locations;
use sillgarland_sys::{Location, sill_locate, sill_locations, sill_sources};
use std::hint::black_box;

pub struct Table {
    pub bytes: Vec<u8>,
    pub first_line: i32,
    pub count: u32,
}

/// The line tables of the file that tools/cpython-tables writes.
pub fn of_cpython(text: &str) -> Result<Vec<Table>, String> {
    let rows = text.lines().filter(|row| row.starts_with("lines "));
    rows.map(|row| of_row(row).ok_or(format!("malformed: {row}"))).collect()
}

fn of_row(row: &str) -> Option<Table> {
    let ["lines", first_line, count, table, _] = row.split(' ').collect::<Vec<_>>()[..] else {
        return None;
    };
    Some(Table { bytes: of_hex(table)?, first_line: first_line.parse().ok()?, count: count.parse().ok()? })
}

/// Bytes in hexadecimal; `-` is none.
pub fn of_hex(text: &str) -> Option<Vec<u8>> {
    let byte = |i| u8::from_str_radix(text.get(i..i + 2)?, 16).ok();
    (0..text.len() / 2).map(|i| byte(2 * i)).collect()
}

pub fn run(of_cpython: Vec<Table>) {
    if !of_cpython.is_empty() {
        compare(&format!("CPython's own tables ({})", of_cpython.len()), &of_cpython);
    }
    for count in [125_000, 250_000, 500_000, 1_000_000] {
        compare("one made table", &[made(count, all_codes)]);
    }
    if !of_cpython.is_empty() {
        compare_sources(&format!("CPython's own tables ({})", of_cpython.len()), &of_cpython);
    }
    compare_sources("one made table, all codes", &[made(1_000_000, all_codes)]);
    compare_sources("one made table, code 14 for one instruction each", &[made(1_000_000, |_| (14, 1))]);
    compare_sources("one made table, code 10 for one instruction each", &[made(1_000_000, |_| (10, 1))]);
}

/// Tables of all codes, of a few and of many instructions.
pub fn made_tables() -> [Table; 2] {
    [1_000, 1_000_000].map(|count| made(count, all_codes))
}

/// All sixteen codes in turn, each for one to eight instructions.
fn all_codes(turn: u8) -> (u8, u32) {
    (turn % 16, u32::from(turn) * 5 % 8 + 1)
}

/// A table for so many instructions, of entries of these codes and lengths.
fn made(count: u32, entry: impl Fn(u8) -> (u8, u32)) -> Table {
    let (mut bytes, mut placed, mut turn) = (Vec::new(), 0, 0u8);
    while placed < count {
        let (code, length) = entry(turn);
        let length = length.min(count - placed);
        bytes.push(0x80 | code << 3 | (length - 1) as u8);
        bytes.extend_from_slice(match code {
            0..=9 => &[0x35],
            10..=12 => &[4, 30],
            13 => &[0x04],
            14 => &[0x42, 0x01, 0x02, 0x09, 0x50, 0x01], // a step of 33, end lines 2 below, columns 9 and 80 from 1
            _ => &[],
        });
        placed += length;
        turn = turn.wrapping_add(1);
    }
    Table { bytes, first_line: 1000, count }
}

fn compare(title: &str, tables: &[Table]) {
    let instructions: usize = tables.iter().map(|table| table.count as usize).sum();
    let most = tables.iter().map(|table| table.count as usize).max().unwrap_or(0);
    let (mut kept, mut kept_flat, mut kept_out) = (store(4 * most), store(4 * most), store(most));
    let mut scratch = store(4 * most);
    let rust = || {
        for table in tables {
            black_box(linetable_to_locations(black_box(&table.bytes), table.first_line, table.count as usize));
        }
    };
    let numbers = || tables.iter().for_each(|table| locate(table, &mut kept));
    let new_numbers = || tables.iter().for_each(|table| locate(table, &mut store(4 * table.count as usize)));
    let structs = || tables.iter().for_each(|table| locations(table, &mut kept_flat, &mut kept_out));
    let new_structs =
        || tables.iter().for_each(|table| locations(table, &mut scratch, &mut store(table.count as usize)));
    let all_new = || {
        for table in tables {
            locations(table, &mut store(4 * table.count as usize), &mut store(table.count as usize));
        }
    };
    side_by_side(
        &format!("{title}, {instructions} instructions"),
        (instructions, "an instruction"),
        vec![
            Way { name: "the Rust", work: timed_again(rust) },
            Way { name: "numbers, kept", work: timed_again(numbers) },
            Way { name: "numbers, new", work: timed_again(new_numbers) },
            Way { name: "structs, kept", work: timed_again(structs) },
            Way { name: "structs, new result", work: timed_again(new_structs) },
            Way { name: "structs, both new", work: timed_again(all_new) },
        ],
    );
}

/// A byte an instruction, beside four numbers an instruction; both stores are kept.
fn compare_sources(title: &str, tables: &[Table]) {
    let instructions: usize = tables.iter().map(|table| table.count as usize).sum();
    let most = tables.iter().map(|table| table.count as usize).max().unwrap_or(0);
    let (mut records, mut bytes) = (store(4 * most), store(most));
    let located = || tables.iter().for_each(|table| locate(table, &mut records));
    let sourced = || tables.iter().for_each(|table| sources(table, &mut bytes));
    side_by_side(
        &format!("{title}, {instructions} instructions: where each comes from"),
        (instructions, "an instruction"),
        vec![
            Way { name: "sill_locate", work: timed_again(located) },
            Way { name: "sill_sources", work: timed_again(sourced) },
        ],
    );
}

fn sources(table: &Table, sources: &mut Vec<u8>) {
    let table = black_box(table);
    let (bytes, len, room) = (table.bytes.as_ptr(), table.bytes.len(), table.count as usize);
    assert!(room <= sources.capacity());
    // SAFETY: table and store are lent for the lengths given, and the port writes all of the store.
    let sourced = unsafe { sill_sources(bytes, len, table.first_line, table.count, sources.as_mut_ptr(), room) };
    assert_eq!(sourced.refusal, 0);
    black_box(sources);
}

/// Room for so many elements, which nothing is written to yet.
fn store<T>(len: usize) -> Vec<T> {
    Vec::with_capacity(len)
}

fn locate(table: &Table, records: &mut Vec<u32>) {
    let table = black_box(table);
    let (bytes, len, room) = (table.bytes.as_ptr(), table.bytes.len(), 4 * table.count as usize);
    assert!(room <= records.capacity());
    // SAFETY: table and store are lent for the lengths given, and the port writes all of the store.
    let located = unsafe { sill_locate(bytes, len, table.first_line, table.count, records.as_mut_ptr(), room) };
    assert_eq!(located.refusal, 0);
    black_box(records);
}

fn locations(table: &Table, flat: &mut Vec<u32>, out: &mut Vec<Location>) {
    let table = black_box(table);
    let (bytes, len, room) = (table.bytes.as_ptr(), table.bytes.len(), table.count as usize);
    assert!(4 * room <= flat.capacity() && room <= out.capacity());
    let (flat_at, out_at) = (flat.as_mut_ptr(), out.as_mut_ptr());
    // SAFETY: table and stores are lent for the lengths given, and the port writes all of the stores before it reads them.
    let located = unsafe { sill_locations(bytes, len, table.first_line, table.count, flat_at, 4 * room, out_at, room) };
    assert_eq!(located.refusal, 0);
    black_box((flat, out));
}
