//! What goes to standard error: one line each, and never a reason to stop.
use crate::text;
use std::fmt::Display;
use std::io::{self, Write};
use std::path::Path;

/// `sill: MESSAGE`.
pub fn say(message: impl Display) {
    // Nobody is left to be told that standard error does not work.
    let _ = writeln!(io::stderr(), "sill: {message}");
}

/// `sill: PATH: ERROR`.
pub fn about(path: &Path, error: &io::Error) {
    say(format_args!("{}: {}", text::path(path), in_words(error)));
}

/// An error without its number.
pub fn in_words(error: &io::Error) -> String {
    let told = error.to_string();
    told.split(" (os error").next().unwrap_or(&told).to_string()
}
