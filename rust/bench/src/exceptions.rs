//! Exception tables, read and written: all of CPython's, where there are any, and one large table. The Rust makes a vector of its
//! entries and of its bytes; the port fills stores that are lent for just the entries and bytes that there are; `dis` of CPython
//! makes a list of its entries, and writes none.
use crate::linetable::of_hex;
use crate::python::Python;
use crate::timing::{Way, side_by_side, timed_again};
use carried::bytecode::{decode_exception_table, encode_exception_table};
use sillgarland_sys::{sill_read_exceptions, sill_write_exceptions};
use std::hint::black_box;

/// The exception tables of the file that tools/cpython-tables writes.
pub fn of_cpython(text: &str) -> Vec<Vec<u8>> {
    let rows = text.lines().filter_map(|row| row.strip_prefix("exceptions "));
    rows.filter_map(|row| of_hex(row.split(' ').next()?)).collect()
}

pub fn run(of_cpython: Vec<Vec<u8>>) {
    if !of_cpython.is_empty() {
        compare("CPython's exception tables", &of_cpython);
    }
    compare("one exception table of 1 MiB", &[[0x84, 0x03, 0x0A, 0x03, 0x90, 0x02, 0x0A, 0x00].repeat(1 << 17)]);
}

fn compare(title: &str, tables: &[Vec<u8>]) {
    let bytes: usize = tables.iter().map(Vec::len).sum();
    let mut stores: Vec<Vec<u32>> = tables.iter().map(|table| vec![0; 5 * entries(table)]).collect();
    let by_the_rust = || {
        for table in tables {
            black_box(decode_exception_table(table));
        }
    };
    let by_the_port = || {
        for (table, store) in tables.iter().zip(&mut stores) {
            // SAFETY: table and store are lent for their lengths.
            let read = unsafe { sill_read_exceptions(table.as_ptr(), table.len(), store.as_mut_ptr(), store.len()) };
            assert_eq!(black_box(read).refusal, 0);
        }
    };
    let mut python = Python::reading_handlers(tables);
    let mut ways = vec![
        Way { name: "the Rust", work: timed_again(by_the_rust) },
        Way { name: "the port", work: timed_again(by_the_port) },
    ];
    if let Some(python) = &mut python {
        ways.push(Way { name: "CPython's dis", work: Box::new(|| python.do_all()) });
    }
    side_by_side(&format!("{title}, read"), (bytes, "a byte"), ways);
    write(title, tables, &stores, bytes);
}

fn write(title: &str, tables: &[Vec<u8>], stores: &[Vec<u32>], bytes: usize) {
    let decoded: Vec<_> = tables.iter().map(|table| decode_exception_table(table)).collect();
    let mut outs: Vec<Vec<u8>> = tables.iter().map(|table| vec![0; table.len()]).collect();
    let by_the_rust = || {
        for entries in &decoded {
            black_box(encode_exception_table(entries));
        }
    };
    let by_the_port = || {
        for (store, out) in stores.iter().zip(&mut outs) {
            // SAFETY: store and output are lent for their lengths.
            let written = unsafe { sill_write_exceptions(store.as_ptr(), store.len(), out.as_mut_ptr(), out.len()) };
            assert_eq!(black_box(written).refusal, 0);
        }
    };
    let ways = vec![
        Way { name: "the Rust", work: timed_again(by_the_rust) },
        Way { name: "the port", work: timed_again(by_the_port) },
    ];
    side_by_side(&format!("{title}, written"), (bytes, "a byte"), ways);
}

fn entries(table: &[u8]) -> usize {
    table.iter().filter(|byte| **byte & 0x80 != 0).count()
}
