//! Which row does the formula of a golden come from? Of a golden whose line table was cut, and of the whole one.
use sillgarland::{Lines, Records, values};
use std::error::Error;

fn main() -> Result<(), Box<dyn Error>> {
    for path in ["goldens/cut-line-table.golden", "goldens/rates.golden"] {
        let input = std::fs::read(path)?;
        let first = values(&input).next().ok_or("no value")??;
        let code = first.golden().root().as_code().ok_or("no code object")?;
        let mut records = Records::default();
        let lines = code.lines(&mut records)?;
        let whole = if matches!(lines, Lines::Whole(_)) { "whole" } else { "NOT WHOLE" };
        let locations = lines.whole_or_not();
        println!("{path}: {whole}, {} of {} instructions placed", locations.from_entries(), locations.len());
        match lines.row(40) {
            Some(row) => println!("instruction 40 comes from row {row}"),
            None => println!("instruction 40 has no row; the last row placed is {}", locations.last_row().unwrap_or(0)),
        }
    }
    Ok(())
}
