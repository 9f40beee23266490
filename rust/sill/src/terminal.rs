//! Colour and progress, where a person watches.
use crate::options::Arguments;
use std::io::{self, IsTerminal, Write};
use std::time::{Duration, Instant};

/// Colours for standard output, as `--color` says; where it does not, none unless it is a terminal, and none if NO_COLOR is set.
#[derive(Clone, Copy)]
pub struct Colours(bool);

/// The colours there are.
#[derive(Clone, Copy)]
pub enum Colour {
    Red = 31,
    Green = 32,
    Yellow = 33,
}

impl Colours {
    pub fn of(arguments: &Arguments) -> Self {
        let unwanted = || std::env::var_os("NO_COLOR").is_some_and(|value| !value.is_empty());
        match arguments.word_of("color").and_then(|word| word.to_str()) {
            Some("always") => Self(true),
            Some("never") => Self(false),
            _ => Self(io::stdout().is_terminal() && !unwanted()),
        }
    }

    pub fn paint(self, colour: Colour, text: &str) -> String {
        if self.0 { format!("\x1b[{}m{text}\x1b[0m", colour as u8) } else { text.to_string() }
    }
}

/// A line on standard error that says how far long work has come; nothing unless that is a terminal.
pub struct Progress {
    all: usize,
    watched: bool,
    shared: bool,
    shown: bool,
    next: Instant,
}

const PACE: Duration = Duration::from_millis(200);

impl Progress {
    pub fn new(all: usize) -> Self {
        let (watched, shared) = (io::stderr().is_terminal(), io::stdout().is_terminal());
        Self { all, watched, shared, shown: false, next: Instant::now() + PACE }
    }

    /// Says how many files are done, from time to time.
    pub fn show(&mut self, done: usize) {
        let now = Instant::now();
        if self.watched && now >= self.next {
            self.next = now + PACE;
            self.shown = true;
            let _ = write!(io::stderr(), "\r\x1b[Kchecked {done} of {} files", self.all);
        }
    }

    /// Takes the line away if standard output is about to stand in its place.
    pub fn make_way(&mut self) {
        if self.shared {
            self.clear();
        }
    }

    /// Takes the line away.
    pub fn clear(&mut self) {
        if std::mem::take(&mut self.shown) {
            let _ = write!(io::stderr(), "\r\x1b[K");
        }
    }
}
