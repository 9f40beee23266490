//! `sill`: the command for people who keep golden files. Exit status: 0 all is well, 1 a file is refused, not whole or
//! different, 2 called wrongly, or a file that cannot be read or written.
mod by_bytes;
mod bytes;
mod check;
mod complaints;
mod convert;
mod diff;
mod files;
mod glob;
mod help;
mod json;
mod lines;
mod looks;
mod options;
mod origins;
mod page;
mod repair;
mod report;
mod row;
#[cfg(test)]
mod samples;
mod settings;
mod show;
mod terminal;
mod text;
mod totals;
mod words;
mod write;

use help::Page;
use options::Arguments;
use std::ffi::OsString;
use std::io::{self, BufWriter, Write};
use std::process::ExitCode;

/// How a command ended, the worst last.
#[derive(Clone, Copy, Debug, PartialEq, Eq, PartialOrd, Ord)]
pub enum Outcome {
    /// Accepted, whole, the same.
    Good,
    /// Refused, not whole, different.
    Bad,
    /// Called wrongly, or a file could not be read or written.
    Trouble,
}

impl From<Outcome> for ExitCode {
    fn from(outcome: Outcome) -> Self {
        ExitCode::from(outcome as u8)
    }
}

type Command = fn(&Arguments, &mut dyn Write) -> io::Result<Outcome>;

const COMMANDS: &[(&Page, Command)] = &[
    (&help::CHECK, check::run),
    (&help::REPORT, report::run),
    (&help::SHOW, show::run),
    (&help::LINES, lines::run),
    (&help::ROW, row::run),
    (&help::BYTES, bytes::run),
    (&help::WRITE, write::run),
    (&help::REPAIR, repair::run),
    (&help::CONVERT, convert::run),
    (&help::DIFF, diff::run),
    (&help::TOTALS, totals::run),
    (&help::SETTINGS, settings::run),
    (&help::MANUAL, manual),
    (&help::COMPLETIONS, completions),
];

fn main() -> ExitCode {
    let words: Vec<OsString> = std::env::args_os().skip(1).collect();
    let mut out = BufWriter::new(io::stdout().lock());
    let ended = run(&words, &mut out).and_then(|outcome| out.flush().map(|()| outcome));
    match ended {
        Ok(outcome) => outcome.into(),
        Err(error) => {
            // Whoever reads our output may stop early; nothing is left to be said then.
            if error.kind() != io::ErrorKind::BrokenPipe {
                complaints::say(format_args!("standard output: {error}"));
            }
            Outcome::Trouble.into()
        }
    }
}

fn run(words: &[OsString], out: &mut dyn Write) -> io::Result<Outcome> {
    let Some((first, rest)) = words.split_first() else {
        return Ok(called_wrongly("a command is wanted", "sill --help"));
    };
    let name = first.to_string_lossy();
    if let Some((page, command)) = COMMANDS.iter().find(|(page, _)| page.name == name) {
        return run_command(page, *command, rest, out);
    }
    match (&*name, rest) {
        ("help", [page]) if page != "--help" => return show_page(&page.to_string_lossy(), out),
        ("-h" | "--help" | "help", _) => writeln!(out, "{}", help::overview())?,
        ("-V" | "--version", _) => writeln!(out, "sill {}", env!("CARGO_PKG_VERSION"))?,
        _ => return Ok(no_command(&name)),
    }
    Ok(Outcome::Good)
}

/// `sill help check`.
fn show_page(name: &str, out: &mut dyn Write) -> io::Result<Outcome> {
    match Page::named(name) {
        Some(page) => writeln!(out, "{}", page.plain()).map(|()| Outcome::Good),
        None => Ok(no_command(name)),
    }
}

fn no_command(name: &str) -> Outcome {
    let names = COMMANDS.iter().map(|(page, _)| page.name.to_string()).chain(["help".to_string()]);
    called_wrongly(&format!("there is no command '{name}'{}", options::did_you_mean(name, names)), "sill --help")
}

fn run_command(page: &Page, command: Command, words: &[OsString], out: &mut dyn Write) -> io::Result<Outcome> {
    let help = format!("sill {} --help", page.name);
    match options::parse(words, page) {
        Ok(arguments) if arguments.has("help") => {
            writeln!(out, "{}", page.plain())?;
            Ok(Outcome::Good)
        }
        Ok(arguments) => match page.complaint_about(arguments.operands().len()) {
            None => command(&arguments, out),
            Some(complaint) => Ok(called_wrongly(&complaint, &help)),
        },
        Err(complaint) => Ok(called_wrongly(&complaint, &help)),
    }
}

fn manual(arguments: &Arguments, out: &mut dyn Write) -> io::Result<Outcome> {
    let text = if arguments.has("man") { help::man() } else { help::manual() };
    write!(out, "{text}").map(|()| Outcome::Good)
}

fn completions(arguments: &Arguments, out: &mut dyn Write) -> io::Result<Outcome> {
    let shell = arguments.operands()[0].to_string_lossy();
    match help::completions(&shell) {
        Some(text) => write!(out, "{text}").map(|()| Outcome::Good),
        None => {
            let complaint = format!("there are completions for bash, zsh and fish, and none for '{shell}'");
            Ok(called_wrongly(&complaint, "sill completions --help"))
        }
    }
}

fn called_wrongly(complaint: &str, help: &str) -> Outcome {
    let mark = if complaint.ends_with('?') { "" } else { ";" };
    complaints::say(format_args!("{complaint}{mark} {help} says how to call it"));
    Outcome::Trouble
}

#[cfg(test)]
mod tests {
    use super::*;

    #[test]
    fn every_page_has_its_command() {
        let commands: Vec<&str> = COMMANDS.iter().map(|(page, _)| page.name).collect();
        assert_eq!(commands, help::PAGES.iter().map(|page| page.name).collect::<Vec<_>>());
    }
}
