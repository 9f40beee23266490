//! How lists are written: bytes in hexadecimal, `-` for none.
use sillgarland_sys::Location;

pub fn hex(bytes: &[u8]) -> String {
    if bytes.is_empty() {
        return "-".to_string();
    }
    bytes.iter().map(|byte| format!("{byte:02x}")).collect()
}

pub fn of_hex(text: &str) -> Option<Vec<u8>> {
    if text == "-" {
        return Some(Vec::new());
    }
    if !text.is_ascii() || !text.len().is_multiple_of(2) {
        return None;
    }
    (0..text.len()).step_by(2).map(|i| u8::from_str_radix(&text[i..i + 2], 16).ok()).collect()
}

/// Numbers with commas, `-` for none.
pub fn numbers(values: &[u32]) -> String {
    if values.is_empty() {
        return "-".to_string();
    }
    values.iter().map(u32::to_string).collect::<Vec<_>>().join(",")
}

pub fn of_numbers(text: &str) -> Option<Vec<u32>> {
    if text == "-" {
        return Some(Vec::new());
    }
    text.split(',').map(|number| number.parse().ok()).collect()
}

/// Locations as COUNT*LINE:COLUMN:END_LINE:END_COLUMN, equal neighbours together.
pub fn runs(records: &[Location]) -> String {
    if records.is_empty() {
        return "-".to_string();
    }
    let run = |equal: &[Location]| {
        let Location { line, column, end_line, end_column } = equal[0];
        format!("{}*{line}:{column}:{end_line}:{end_column}", equal.len())
    };
    records.chunk_by(|a, b| a == b).map(run).collect::<Vec<_>>().join(",")
}

pub fn of_runs(text: &str) -> Option<Vec<Location>> {
    let mut records = Vec::new();
    for run in text.split(',').filter(|run| *run != "-") {
        let (count, record) = run.split_once('*')?;
        let [line, column, end_line, end_column] = record.split(':').collect::<Vec<_>>()[..] else {
            return None;
        };
        let record = Location {
            line: line.parse().ok()?,
            column: column.parse().ok()?,
            end_line: end_line.parse().ok()?,
            end_column: end_column.parse().ok()?,
        };
        records.resize(records.len() + count.parse::<usize>().ok()?, record);
    }
    Some(records)
}
