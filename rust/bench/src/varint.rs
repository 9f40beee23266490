//! The four writers of varints, a row for each number of bytes and one with all of them mixed. The Rust pushes onto a vector
//! that is emptied before each number; the port clears the eight bytes that it is lent and writes there, and each of its calls
//! is one through the archive.
use crate::timing::{Way, side_by_side, timed_again};
use carried::varint;
use sillgarland_sys::{
    Written, sill_write_signed_varint, sill_write_varint, sill_write_varint_be, sill_write_varint_with_start,
};
use std::hint::black_box;

const NUMBERS: usize = 100_000;
const ROOM: usize = 8;

pub fn run() {
    for (bytes, title) in
        (1..=6).map(|bytes| (Some(bytes), format!("{bytes} bytes"))).chain([(None, "mixed".to_string())])
    {
        let codes = codes(bytes);
        let signed: Vec<i32> = codes.iter().map(|code| signed_of(*code)).collect();
        compare(
            &format!("write_varint, {title}"),
            &codes,
            |buf, value| {
                varint::write_varint(buf, value);
            },
            // SAFETY: the store is lent for its length.
            |out, value| unsafe { sill_write_varint(out.as_mut_ptr(), ROOM, value) },
        );
        compare(
            &format!("write_signed_varint, {title}"),
            &signed,
            |buf, value| {
                varint::write_signed_varint(buf, value);
            },
            // SAFETY: the store is lent for its length.
            |out, value| unsafe { sill_write_signed_varint(out.as_mut_ptr(), ROOM, value) },
        );
        compare(
            &format!("write_varint_be, {title}"),
            &codes,
            |buf, value| {
                varint::write_varint_be(buf, value);
            },
            // SAFETY: the store is lent for its length.
            |out, value| unsafe { sill_write_varint_be(out.as_mut_ptr(), ROOM, value) },
        );
        compare(
            &format!("write_varint_with_start, {title}"),
            &codes,
            varint::write_varint_with_start,
            // SAFETY: the store is lent for its length.
            |out, value| unsafe { sill_write_varint_with_start(out.as_mut_ptr(), ROOM, value) },
        );
    }
}

/// Numbers of so many bytes, or of any number of bytes, each as likely as another.
fn codes(bytes: Option<u32>) -> Vec<u32> {
    let mut state = 1u64;
    let mut random = |limit: u64| {
        state = state.wrapping_mul(6_364_136_223_846_793_005).wrapping_add(1_442_695_040_888_963_407);
        (state >> 33) * limit >> 31
    };
    let mut one = || {
        let bytes = bytes.unwrap_or_else(|| random(6) as u32 + 1);
        let (from, to) = (if bytes == 1 { 0 } else { 1u64 << (6 * (bytes - 1)) }, (1u64 << (6 * bytes)).min(1 << 32));
        (from + random(to - from)) as u32
    };
    (0..NUMBERS).map(|_| one()).collect()
}

/// The number that is written as this code; the code 1, which no number has, stands for 0.
fn signed_of(code: u32) -> i32 {
    let magnitude = (code / 2) as i32;
    if code % 2 == 1 { -magnitude } else { magnitude }
}

fn compare<T: Copy>(
    title: &str,
    values: &[T],
    rust: impl Fn(&mut Vec<u8>, T),
    port: impl Fn(&mut [u8; ROOM], T) -> Written,
) {
    let (mut buf, mut out) = (Vec::with_capacity(ROOM), [0; ROOM]);
    let by_the_rust = || {
        for value in values {
            buf.clear();
            rust(&mut buf, *value);
            black_box(&buf);
        }
    };
    let by_the_port = || {
        for value in values {
            black_box(port(&mut out, *value));
            black_box(&out);
        }
    };
    side_by_side(
        title,
        (values.len(), "a number"),
        vec![
            Way { name: "the Rust", work: timed_again(by_the_rust) },
            Way { name: "the port", work: timed_again(by_the_port) },
        ],
    );
}
