//! The port and the carried Rust side by side, in one run: tools/bench builds and calls it. Never a test: it prints times
//! and holds nobody to them.
#[cfg(carried)]
mod exceptions;
#[cfg(carried)]
mod floor;
#[cfg(carried)]
mod keep;
#[cfg(carried)]
mod linetable;
#[cfg(carried)]
mod pieces;
#[cfg(carried)]
mod python;
#[cfg(carried)]
mod read;
#[cfg(carried)]
mod settings;
#[cfg(carried)]
mod starts;
#[cfg(carried)]
mod timing;
#[cfg(carried)]
mod varint;
#[cfg(carried)]
mod write;

use std::process::ExitCode;

#[cfg(carried)]
fn main() -> ExitCode {
    let (words, files): (Vec<String>, _) = std::env::args().skip(1).partition(|word| PARTS.contains(&word.as_str()));
    let text = match &files[..] {
        [] => Ok(String::new()),
        [file] if !file.starts_with('-') => std::fs::read_to_string(file).map_err(|error| format!("{file}: {error}")),
        _ => {
            eprintln!("bench: wants any of {PARTS:?}, and the file that tools/cpython-tables writes, or nothing");
            return ExitCode::from(2);
        }
    };
    match text.and_then(|text| Ok((linetable::of_cpython(&text)?, exceptions::of_cpython(&text), modules(&text)))) {
        Err(fault) => {
            eprintln!("bench: {fault}");
            ExitCode::FAILURE
        }
        Ok((tables, handlers, modules)) => {
            let wanted = |part: &str| words.is_empty() || words.iter().any(|word| word == part);
            if wanted("varint") {
                varint::run();
            }
            if wanted("exceptions") {
                exceptions::run(handlers);
            }
            if wanted("lines") {
                linetable::run(tables);
            }
            if wanted("pieces") {
                pieces::run();
            }
            if wanted("starts") {
                starts::run();
            }
            if wanted("settings") {
                settings::run();
            }
            if wanted("read") {
                read::run(modules.clone());
            }
            if wanted("keep") {
                keep::run(modules.clone());
            }
            if wanted("write") {
                write::run(modules);
            }
            ExitCode::SUCCESS
        }
    }
}

/// What is timed; all where none is named.
#[cfg(carried)]
const PARTS: [&str; 9] = ["varint", "exceptions", "lines", "pieces", "starts", "settings", "read", "keep", "write"];

/// The modules of the file, as CPython marshals them.
#[cfg(carried)]
fn modules(text: &str) -> Vec<Vec<u8>> {
    let rows = text.lines().filter_map(|row| row.strip_prefix("module "));
    rows.filter_map(|row| linetable::of_hex(row.split(' ').next()?)).collect()
}

#[cfg(not(carried))]
fn main() -> ExitCode {
    eprintln!("bench: built without the carried Rust, so there is nothing to time the port against");
    ExitCode::FAILURE
}
