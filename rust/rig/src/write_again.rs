//! What CPython marshalled, read and written by the port, for CPython to load: tools/cpython-tables --loads does that.
use crate::lent::Part;
use crate::reading::{ample, read};
use crate::text::of_hex;
use crate::writing::Source;
use sillgarland_sys::refusals::{ACCEPTED, MOST_NESTING};
use std::io::{self, BufWriter, Write};

/// For every `module` and `value` of the file a line `SORT BYTES LENGTH CRC`, and then so many bytes, as the port wrote
/// them; length and CRC are those of the value's text, as CPython had it.
pub fn write_all(text: &str, path: &str) -> Result<bool, String> {
    let fault = |error: io::Error| format!("{path}: {error}");
    let mut out = BufWriter::new(std::fs::File::create(path).map_err(fault)?);
    for row in text.lines() {
        if let [sort @ ("module" | "value"), bytes, len, crc] = row.split(' ').collect::<Vec<_>>()[..] {
            let written = written(&of_hex(bytes).ok_or("malformed bytes")?)?;
            writeln!(out, "{sort} {} {len} {crc}", written.len()).map_err(fault)?;
            out.write_all(&written).map_err(fault)?;
        }
    }
    out.flush().map_err(fault)?;
    Ok(true)
}

/// What the port writes of what it reads.
pub fn written(input: &[u8]) -> Result<Vec<u8>, String> {
    let reading = read(&Part::new(input), MOST_NESTING, ample(input));
    if reading.answer.refusal != ACCEPTED {
        return Err(format!("not read: {:?}", reading.answer));
    }
    let source = Source::of_reading(input, &reading);
    let mut room = 2 * input.len();
    loop {
        let (answer, out) = source.write(0, MOST_NESTING, room);
        match answer.refusal {
            ACCEPTED => return Ok(out.cells()[..answer.written as usize].to_vec()),
            sillgarland_sys::refusals::NO_ROOM => room *= 2,
            _ => return Err(format!("not written: {answer:?}")),
        }
    }
}
