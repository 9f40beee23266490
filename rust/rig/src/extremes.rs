//! Inputs of 16 MiB in each extreme shape, and of a quarter and a sixteenth of that: read, written and located as they must
//! be, with processor time and the memory lent, so that both can be seen to grow with the size. Prints rows for
//! docs/BENCHMARKS.md.
use crate::lent::{Lent, Part};
use crate::linetable::Ask;
use crate::plain::{End, Plain};
use crate::reading::{Reading, STORES, WIDTHS, counts, read};
use crate::tally::Tally;
use crate::write_model::Store;
use crate::writing::Source;
use sillgarland_sys::refusals::{ACCEPTED, MOST_BYTES, MOST_NESTING, NO_NODE};
use sillgarland_sys::{Located, Written, sill_locate, sill_locate_node, sill_read, sill_write};
use std::time::Duration;

const SIZES: [usize; 3] = [MOST_BYTES as usize / 16, MOST_BYTES as usize / 4, MOST_BYTES as usize];

type Shape = (&'static str, fn(usize) -> Vec<u8>);

const VALUES: [Shape; 8] = [
    ("one ASCII string", |size| [&headed(b'u', size - 5), &vec![b'a'; size - 5][..]].concat()),
    ("one string of three-byte code points", |size| filled(headed(b'u', size - 5), size, b"\xE2\x82\xAC")),
    ("one integer", |size| [&headed(b'l', (size - 5) / 2), &vec![0x01; (size - 5) / 2 * 2][..]].concat()),
    ("most nodes", |size| {
        let count = size / 16 - 1;
        let text = [&headed(b's', 11), &[7; 11][..]].concat();
        [&headed(b'[', count), &text.repeat(count)[..]].concat()
    }),
    ("most entries", |size| {
        let count = size / 16;
        let shared = [&headed(b'[', count), b"\xCE".as_slice(), &b"r\0\0\0\0".repeat(count - 2)].concat();
        let left = size - shared.len() - 5;
        [shared, headed(b's', left), vec![5; left]].concat()
    }),
    ("most slots", |size| {
        let count = size / 16 - 1;
        let text = [b"\xFA\x0E".as_slice(), &[b'a'; 14]].concat();
        [&headed(b'[' | 0x80, count), &text.repeat(count)[..]].concat()
    }),
    ("deepest nesting", |size| {
        let (levels, each) = (MOST_NESTING as usize - 1, size / MOST_NESTING as usize);
        let level = [b")\x02", &headed(b's', each - 7)[..], &vec![9; each - 7][..]].concat();
        [level.repeat(levels), b"N".to_vec()].concat()
    }),
    ("all headers", |size| [&headed(b'[', size - 5), &vec![b'N'; size - 5][..]].concat()),
];

const TABLES: [Shape; 3] = [
    ("no places (F8)", |size| vec![0xF8; size]),
    ("short entries (80 00)", |size| b"\x80\0".repeat(size / 2)),
    ("longest entries (F0 and four varints of six bytes)", |size| {
        [b"\xF0".as_slice(), &b"\x40\x40\x40\x40\x40\0".repeat(4)].concat().repeat(size / 25)
    }),
];

pub fn hold() -> bool {
    let mut tally = Tally::new("extremes");
    println!("| Value | Bytes | Read, ms | ns a byte | Written, ms | MiB lent |\n|---|---|---|---|---|---|");
    for (name, shape) in VALUES {
        for size in SIZES {
            tally.count("values read as the plain reading says, and written back", hold_value(name, &shape(size)));
        }
    }
    println!("\n| Line table | Bytes | Instructions | Located, ms | ns a byte | MiB lent |\n|---|---|---|---|---|---|");
    for (name, shape) in TABLES {
        for size in SIZES {
            tally.count("line tables located, as bytes and by node", hold_table(name, &shape(size)));
        }
    }
    tally.finish()
}

fn headed(letter: u8, length: usize) -> Vec<u8> {
    [&[letter][..], &(length as u32).to_le_bytes()].concat()
}

/// The header, then the unit as often as fits, then letters.
fn filled(header: Vec<u8>, size: usize, unit: &[u8]) -> Vec<u8> {
    let mut input = [header, unit.repeat((size - 5) / unit.len())].concat();
    input.resize(size, b'a');
    input
}

fn hold_value(name: &str, input: &[u8]) -> Result<(), String> {
    let plain = Plain::of(input);
    let [nesting, nodes, entries, slots] = plain.counts();
    let lens = [nodes, entries, slots].map(|count| count as usize);
    let lens = [0, 1, 2].map(|i| lens[i] * WIDTHS[i]);
    let part = Part::new(input);
    let (took, reading) = timed(|| reading_timed(&part, nesting, lens));
    let lent = (input.len() + 4 * lens.iter().sum::<usize>()) as f64 / 1048576.0;
    let row = |written: &str| {
        let (ms, each) = (took.as_secs_f64() * 1e3, took.as_secs_f64() * 1e9 / input.len() as f64);
        println!("| {name} | {} | {ms:.2} | {each:.2} | {written} | {lent:.1} |", input.len());
    };
    let answer = reading.answer;
    match (plain.with([nesting, nodes, entries, slots]), &plain.end) {
        (None, End::Read { consumed }) if answer.refusal == ACCEPTED && answer.consumed as usize == *consumed => {
            (0..3).try_for_each(|i| reading.stores[i].holds(STORES[i], &plain.stores[i]))?;
            let source = Source::of_reading(input, &reading);
            let (took, (written, out)) = timed(|| writing_timed(&source, 2 * input.len() + 64));
            row(&format!("{:.2}", took.as_secs_f64() * 1e3));
            let bytes = out.cells().get(..written.written as usize).unwrap_or_default();
            if written.refusal != ACCEPTED || counts(&answer)[0] as u32 != nodes {
                return Err(format!("{name}: {answer:?}, {written:?}"));
            }
            hold_back(name, bytes)
        }
        (Some(refused), _) if (answer.refusal, answer.place as usize) == (refused.number, refused.place) => {
            row(&format!("refused {NO_NODE}"));
            if refused.number == NO_NODE { Ok(()) } else { Err(format!("{name}: {answer:?}")) }
        }
        _ => Err(format!("{name}: {answer:?}")),
    }
}

/// What was written, where it is not longer than is read, reads and is written again as the same bytes.
fn hold_back(name: &str, bytes: &[u8]) -> Result<(), String> {
    if bytes.len() > MOST_BYTES as usize {
        return Ok(());
    }
    let plain = Plain::of(bytes);
    let [nesting, nodes, entries, slots] = plain.counts().map(|count| count as usize);
    let again = read(&Part::new(bytes), nesting as u32, [WIDTHS[0] * nodes, 2 * entries, slots]);
    let (written, out) = Source::of_reading(bytes, &again).write(0, MOST_NESTING, bytes.len());
    if !matches!(plain.end, End::Read { .. }) {
        // Once sharing is written out, more nodes than count.
        return if again.answer.refusal == NO_NODE { Ok(()) } else { Err(format!("{name}: {:?}", again.answer)) };
    }
    if again.answer.refusal != ACCEPTED || written.written as usize != bytes.len() || out.cells() != bytes {
        return Err(format!("{name}, written again: {:?}, {written:?}", again.answer));
    }
    Ok(())
}

fn hold_table(name: &str, table: &[u8]) -> Result<(), String> {
    let each = instructions(table);
    let ask = Ask { table: table.to_vec(), first_line: 1, count: each };
    let part = Part::new(table);
    let (took, (located, records)) = timed(|| locating_timed(&ask, &part, 4 * each as usize));
    let (ms, ns) = (took.as_secs_f64() * 1e3, took.as_secs_f64() * 1e9 / table.len() as f64);
    let lent = (table.len() + 16 * each as usize) as f64 / 1048576.0;
    println!("| {name} | {} | {each} | {ms:.2} | {ns:.2} | {lent:.1} |", table.len());
    if located.refusal != ACCEPTED || located.whole != 1 || located.from_entries != each {
        return Err(format!("{name}: {located:?}"));
    }
    // By node the input has a header and a length before the table, so the table is a little shorter.
    let (short, count) = (&table[..table.len() - 250], each - instructions(&table[table.len() - 250..]));
    let input = Part::new(&[&headed(b's', short.len()), short].concat());
    let nodes = [u32::from(b's'), 5, short.len() as u32, u32::MAX, 0, 5 + short.len() as u32, 0];
    let (bytes, mut out) = (input.bytes(), Lent::new(4 * count as usize));
    // SAFETY: input and stores are lent for their lengths.
    let by_node = unsafe {
        let (records, room) = (out.pointer(), out.len());
        sill_locate_node(bytes.as_ptr(), bytes.len(), nodes.as_ptr(), nodes.len(), 1, 0, 1, count, records, room)
    };
    if by_node.refusal != ACCEPTED || by_node.from_entries != count {
        return Err(format!("{name} by node: {by_node:?}"));
    }
    out.holds("records by node", &records.cells()[..4 * count as usize])
}

/// One for each entry of the tables above.
fn instructions(table: &[u8]) -> u32 {
    let entry = match table {
        [0xF8, ..] => 1,
        [0x80, ..] => 2,
        _ => 25,
    };
    (table.len() / entry) as u32
}

/// What the work gives, and the least processor time of three that it took.
fn timed<T>(mut work: impl FnMut() -> (Duration, T)) -> (Duration, T) {
    let (first, second, (third, done)) = (work().0, work().0, work());
    (first.min(second).min(third), done)
}

fn reading_timed(part: &Part, nesting: u32, lens: [usize; 3]) -> (Duration, Reading) {
    let (input, mut stores) = (part.bytes(), lens.map(Lent::new));
    let [nodes, entries, slots] = stores.each_mut().map(|store| store.pointer());
    let start = processor_time();
    // SAFETY: input and stores are lent for the lengths given.
    let answer =
        unsafe { sill_read(input.as_ptr(), input.len(), nodes, lens[0], entries, lens[1], slots, lens[2], nesting) };
    (processor_time() - start, Reading { answer, stores })
}

fn writing_timed(source: &Source, capacity: usize) -> (Duration, (Written, Lent<u8>)) {
    let Store { input, nodes, entries, used } = source.store();
    let mut out = Lent::new(capacity);
    let (to, n, e) = (out.pointer(), nodes.as_ptr(), entries.as_ptr());
    let start = processor_time();
    // SAFETY: input, stores and output are lent for their lengths.
    let written = unsafe {
        let (input, len) = (input.as_ptr(), input.len());
        sill_write(input, len, n, nodes.len(), e, entries.len(), used[0], used[1], 0, MOST_NESTING, to, capacity)
    };
    (processor_time() - start, (written, out))
}

fn locating_timed(ask: &Ask, part: &Part, room: usize) -> (Duration, (Located, Lent<u32>)) {
    let (table, mut records) = (part.bytes(), Lent::new(room));
    let to = records.pointer();
    let start = processor_time();
    // SAFETY: table and store are lent for the lengths given.
    let located = unsafe { sill_locate(table.as_ptr(), table.len(), ask.first_line, ask.count, to, room) };
    (processor_time() - start, (located, records))
}

/// Of this thread.
fn processor_time() -> Duration {
    unsafe extern "C" {
        fn clock_gettime(clock: i32, time: *mut [i64; 2]) -> i32;
    }
    /// CLOCK_THREAD_CPUTIME_ID of Linux.
    const OF_THIS_THREAD: i32 = 3;
    let mut time = [0; 2];
    // SAFETY: the time is written where it is asked for.
    unsafe { clock_gettime(OF_THIS_THREAD, &mut time) };
    Duration::new(time[0] as u64, time[1] as u32)
}
