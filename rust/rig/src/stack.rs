//! The stack that the deepest reading and writing take: containers and code nested as deep as document 01 allows are read,
//! read behind others, written, and moved as a golden's result in a thread of 1 MiB; and how many bytes of it a level of nesting costs.
use crate::lent::Part;
use crate::more;
use crate::moves;
use crate::nested::nested;
use crate::reading::{NODE_WIDTH, ample, read};
use crate::tally::Tally;
use crate::writing::Source;
use sillgarland_sys::refusals::{ACCEPTED, MOST_NESTING};
use std::hint::black_box;
use std::thread;

const STACK: usize = 1 << 20;
/// The stack is measured in a thread that has room to spare, and what a thread uses of its own (some 7 KiB) is left free.
const MEASURED_IN: usize = 16 << 20;
const OF_THE_THREAD: usize = 1 << 14;
const MARK: u8 = 0xA5;

pub fn hold() -> bool {
    let mut tally = Tally::new("stack");
    for (kind, name) in NAMES.iter().enumerate() {
        let read = hold_kind(kind, &format!("{name} read"), reading);
        tally.count("kinds of value nested 2,000 deep read in a thread of 1 MiB", read);
        let written = hold_kind(kind, &format!("{name} written"), writing);
        tally.count("kinds of value nested 2,000 deep written in a thread of 1 MiB", written);
        let behind = hold_kind(kind, &format!("{name} read behind others"), reading_more);
        tally.count("kinds of value nested 2,000 deep read behind others in a thread of 1 MiB", behind);
        let moved = hold_kind(kind, &format!("{name} moved"), |input| moves::deep(&input));
        tally.count("goldens with a result nested 2,000 deep moved in a thread of 1 MiB", moved);
    }
    tally.finish()
}

const NAMES: [&str; 6] = ["tuples", "lists", "dict keys", "dict values", "slices", "code"];

/// Something to be done with a value nested so deep, made ready.
type Work = Box<dyn Fn() -> Result<(), String>>;

fn hold_kind(kind: usize, name: &str, work: fn(Vec<u8>) -> Work) -> Result<(), String> {
    let used = |levels: usize| in_thread(MEASURED_IN, move || measure(&work(nested(levels, kind))));
    let (deep, shallow) = (used(MOST_NESTING as usize)?, used(MOST_NESTING as usize / 10)?);
    let level = (deep - shallow) as f64 / (f64::from(MOST_NESTING) * 0.9);
    println!("stack: {name}: {deep} bytes at nesting {MOST_NESTING}, {level:.0} a level");
    if deep > STACK - OF_THE_THREAD {
        return Err(format!("{name}: {deep} bytes of stack"));
    }
    in_thread(STACK, move || work(nested(MOST_NESTING as usize, kind))())
}

fn in_thread<T: Send + 'static>(
    stack: usize,
    work: impl FnOnce() -> Result<T, String> + Send + 'static,
) -> Result<T, String> {
    let thread = thread::Builder::new().stack_size(stack).spawn(work).map_err(|error| error.to_string())?;
    thread.join().map_err(|_| "the thread ended badly".to_string())?
}

fn reading(input: Vec<u8>) -> Work {
    let part = Part::new(&input);
    Box::new(move || {
        let answer = black_box(read(&part, MOST_NESTING, ample(part.bytes()))).answer;
        if answer.refusal == ACCEPTED { Ok(()) } else { Err(format!("{answer:?}")) }
    })
}

/// Behind one node and no entry.
fn reading_more(input: Vec<u8>) -> Work {
    let [nodes, entries, slots] = ample(&input);
    let stores = [vec![0; nodes + NODE_WIDTH], vec![0; entries]];
    let ask = more::Ask { input, stores, slots, nesting: MOST_NESTING, kept: [1, 0], number: 1 };
    Box::new(move || {
        let (answer, _) = black_box(more::read_more(&ask));
        if answer.refusal == ACCEPTED { Ok(()) } else { Err(format!("{answer:?}")) }
    })
}

fn writing(input: Vec<u8>) -> Work {
    let source = Source::of_reading(&input, &read(&Part::new(&input), MOST_NESTING, ample(&input)));
    Box::new(move || {
        let (answer, _) = black_box(source.write(0, MOST_NESTING, 4 * input.len()));
        if answer.refusal == ACCEPTED { Ok(()) } else { Err(format!("{answer:?}")) }
    })
}

/// Marks the stack below, does the work, and looks how far down the marks are gone.
#[inline(never)]
fn measure(work: &Work) -> Result<usize, String> {
    let here = 0u8;
    let top = (&raw const here) as usize;
    let marked = top - MEASURED_IN * 7 / 8..top - 4096;
    // SAFETY: the thread's stack reaches further down than this, and nothing below the present frame is in use.
    marked.clone().for_each(|at| unsafe { (at as *mut u8).write_volatile(MARK) });
    work()?;
    // SAFETY: as above.
    let touched = marked.clone().find(|at| unsafe { (*at as *const u8).read_volatile() } != MARK);
    Ok(top - touched.unwrap_or(marked.end))
}
