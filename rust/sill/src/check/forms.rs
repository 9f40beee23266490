//! The forms in which `check` tells what it found: for people, for lists, and for machines. Workers make a file's part; the
//! beginning, the order and the totals are made where all parts come together.
mod github;
mod json;
mod junit;
mod sarif;
mod text;

pub use json::totals as totals_as_json;

use super::findings::{Findings, Manner, Verdict, What};
use super::parallel::{Looked, Task};
use super::totals::Totals;
use crate::terminal::Colours;
use std::io::{self, Write};
use std::path::Path;

/// What is printed.
#[derive(Clone, Debug, PartialEq, Eq)]
pub enum Form {
    Text,
    Json,
    Junit,
    Sarif,
    Github,
    /// Paths alone, of files with one of these verdicts, each ended by this byte.
    List(Vec<Verdict>, u8),
}

/// How files are looked at, and how they are told.
pub struct Teller {
    pub form: Form,
    pub manner: Manner,
    pub quiet: bool,
    pub all: bool,
    pub colours: Colours,
}

/// What has come together: whether a part was put, and the parts that wait for the totals.
#[derive(Default)]
pub struct SoFar {
    begun: bool,
    kept: Vec<u8>,
}

/// A file's answer is its part of the output.
impl Task for Teller {
    type Answer = Vec<u8>;

    fn manner(&self) -> &Manner {
        &self.manner
    }

    fn answer(&self, Looked { path, verdict, checked, .. }: Looked) -> Vec<u8> {
        if self.leaves_out(verdict, &checked) {
            return Vec::new();
        }
        match (&self.form, &checked) {
            (Form::List(..), _) => listed(path),
            (Form::Text, Ok(findings)) => text::part(path, findings, self.all, self.colours).into_bytes(),
            (Form::Text, Err(_)) => Vec::new(), // told on standard error
            (Form::Json, _) => json::part(path, verdict, &checked).into_bytes(),
            (Form::Junit, _) => junit::part(path, verdict, &checked).into_bytes(),
            (Form::Sarif, _) => sarif::part(path, &checked).into_bytes(),
            (Form::Github, _) => github::part(path, &checked).into_bytes(),
        }
    }
}

impl Teller {
    /// Of a file that is accepted, local names out of order are told even where it is quiet. junit counts its testcases: it has all.
    fn leaves_out(&self, verdict: Verdict, checked: &Result<Findings, &io::Error>) -> bool {
        let names =
            |findings: &Findings| findings.found.iter().any(|found| matches!(found.what, What::NameOrder { .. }));
        match &self.form {
            Form::List(verdicts, _) => !verdicts.contains(&verdict),
            Form::Junit => false,
            _ => self.quiet && verdict == Verdict::Accepted && !checked.as_ref().is_ok_and(names),
        }
    }

    /// What stands before the first file's part. junit begins with counts: its parts wait until all are there.
    pub fn begin(&self, out: &mut dyn Write) -> io::Result<()> {
        if self.form == Form::Sarif { write!(out, "{}", sarif::beginning()) } else { Ok(()) }
    }

    /// Writes a part when it is its turn, or keeps it.
    pub fn put(&self, out: &mut dyn Write, so_far: &mut SoFar, part: &[u8]) -> io::Result<()> {
        let first = !std::mem::replace(&mut so_far.begun, true);
        match &self.form {
            Form::Junit => {
                so_far.kept.extend(part);
                return Ok(());
            }
            Form::Sarif => {
                out.write_all(if first { b"\n" } else { b",\n" })?;
                out.write_all(part)?;
            }
            Form::List(_, end) => {
                out.write_all(part)?;
                out.write_all(&[*end])?;
            }
            Form::Text | Form::Json | Form::Github => out.write_all(part)?,
        }
        out.flush()
    }

    pub fn end(&self, out: &mut dyn Write, so_far: &SoFar, totals: &Totals) -> io::Result<()> {
        match self.form {
            Form::Text if totals.paths() > 0 => writeln!(out, "{totals}"),
            Form::Text | Form::List(..) => Ok(()),
            Form::Json => write!(out, "{}", json::ending(totals)),
            Form::Junit => {
                write!(out, "{}", junit::beginning(totals))?;
                out.write_all(&so_far.kept)?;
                write!(out, "{}", junit::ENDING)
            }
            Form::Sarif => write!(out, "{}", sarif::ending(totals)),
            Form::Github => write!(out, "{}", github::ending(totals)),
        }
    }
}

/// A path as the system gave it.
fn listed(path: &Path) -> Vec<u8> {
    path.as_os_str().as_encoded_bytes().to_vec()
}
