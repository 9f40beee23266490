//! The refusal numbers and limits stand once in crates/refusals, once in the list of the Rust declarations and once in the C
//! header, which has the refusals' names too: here they are held to one another, the port's and the header's by their text.
use crate::tally::Tally;
use sillgarland_sys::refusals::{self, TABLE};
use std::collections::BTreeMap;

const PORT: &str = "crates/refusals/src/lib.rt";
const HEADER: &str = "include/sillgarland.h";

type Constants = BTreeMap<String, String>;

pub fn hold() -> bool {
    let mut tally = Tally::new("numbers");
    compare(&mut tally, "constants of the port alike", &lines_of(PORT, "pub const ", ": u32 = ", ";"), &of_the_port());
    compare(&mut tally, "numbers of the header alike", &defined_in_the_header(), &of_the_header());
    compare(&mut tally, "names of the header alike", &named_in_the_header(), &names_of_the_table());
    tally.finish()
}

fn compare(tally: &mut Tally, class: &'static str, text: &Constants, rust: &Constants) {
    for name in text.keys().chain(rust.keys().filter(|name| !text.contains_key(*name))) {
        let held = text.get(name) == rust.get(name);
        let difference = || format!("{class}: {name} is {:?}, and {:?} in the Rust", text.get(name), rust.get(name));
        tally.count(class, if held { Ok(()) } else { Err(difference()) });
    }
}

/// The refusals by their constants.
fn of_the_table() -> Constants {
    TABLE.iter().map(|(constant, _, number)| (constant.to_string(), number.to_string())).collect()
}

/// The same with what else the port's crate names; its last number is said by the last name.
fn of_the_port() -> Constants {
    let last = TABLE.last().map_or("", |(constant, ..)| constant);
    let others = [
        ("ACCEPTED", refusals::ACCEPTED.to_string()),
        ("LAST_NUMBER", last.to_string()),
        ("MOST_BYTES", refusals::MOST_BYTES.to_string()),
        ("MOST_RECORDS", refusals::MOST_RECORDS.to_string()),
        ("MOST_NESTING", refusals::MOST_NESTING.to_string()),
        ("NOTHING", refusals::NOTHING.to_string()),
    ];
    of_the_table().into_iter().chain(others.map(|(name, value)| (name.into(), value))).collect()
}

/// The same as the header has it, with what is the header's alone: the number of counters, and the last refusal by number.
fn of_the_header() -> Constants {
    let mut header = of_the_port();
    header.remove("LAST_NUMBER");
    header.insert("LAST_REFUSAL".into(), refusals::LAST_NUMBER.to_string());
    header.insert("COUNTERS".into(), sillgarland_sys::COUNTERS.to_string());
    header
}

/// What the header defines under these names. Its others are neither refusals nor limits of the port; of these
/// tools/install-test looks at the version.
fn defined_in_the_header() -> Constants {
    let mut defined = lines_of(HEADER, "#define SILL_", " ", "");
    defined.retain(|name, _| of_the_header().contains_key(name));
    defined
}

/// The name that the header gives each refusal: `X(SILL_EOF_OBJECT, "EofObject") \`.
fn named_in_the_header() -> Constants {
    let text = std::fs::read_to_string(HEADER).unwrap_or_default();
    let rows = text.lines().filter_map(|line| line.trim().strip_prefix("X(SILL_")?.split_once(", \""));
    rows.filter_map(|(constant, rest)| Some((constant.into(), rest.split_once('"')?.0.into()))).collect()
}

fn names_of_the_table() -> Constants {
    TABLE.iter().map(|(constant, name, _)| (constant.to_string(), name.to_string())).collect()
}

/// Every line of a file that gives a name its value.
fn lines_of(path: &str, before: &str, between: &str, after: &str) -> Constants {
    let text = std::fs::read_to_string(path).unwrap_or_default();
    let lines = text.lines().filter_map(|line| line.trim().strip_prefix(before)?.strip_suffix(after));
    lines.filter_map(|line| line.split_once(between)).map(|(name, value)| (name.into(), plainly(value))).collect()
}

/// A number without the marks between its digits; a name as it is.
fn plainly(value: &str) -> String {
    if value.starts_with(|c: char| c.is_ascii_digit()) { value.replace('_', "") } else { value.into() }
}
