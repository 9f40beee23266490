//! The inputs that fuzzing found to reach more of the port than others, as tools/fuzz keeps them.
use crate::text::of_hex;

const LIST: &str = "tests/fuzz/corpus.txt";

pub fn inputs() -> Result<Vec<Vec<u8>>, String> {
    let text = crate::contents(LIST)?;
    let rows = text.lines().filter(|row| !row.starts_with('#'));
    rows.map(|row| of_hex(row).ok_or(format!("{LIST}: malformed: {row}"))).collect()
}
