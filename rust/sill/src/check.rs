//! `sill check`: what each file comes to, and totals. `sill report` shows the same findings as a page.
mod findings;
mod forms;
mod parallel;
mod remembered;
mod sentences;
mod totals;

pub use findings::{Finding, Findings, Manner, Verdict, What};
pub use forms::totals_as_json;
pub use parallel::{Looked, Task, each_file};
pub use sentences::{line, told};
pub use totals::Totals;

use crate::files;
use crate::glob::Filter;
use crate::options::Arguments;
use crate::settings::{self, Scope};
use crate::terminal::Colours;
use crate::{Outcome, complaints};
use forms::{Form, SoFar, Teller};
use std::io::{self, Write};

pub fn run(arguments: &Arguments, out: &mut dyn Write) -> io::Result<Outcome> {
    let Some(scope) = settings::scope(arguments) else { return Ok(Outcome::Trouble) };
    let teller = match teller(arguments, scope) {
        Ok(teller) => teller,
        Err(complaint) => {
            complaints::say(format_args!("check: {complaint}; sill check --help says how to call it"));
            return Ok(Outcome::Trouble);
        }
    };
    let (items, mut so_far) = (files::find(arguments.operands(), &Filter::of(arguments)), SoFar::default());
    teller.begin(out)?;
    let totals = each_file(&items, &teller, |part: Vec<u8>, progress| {
        if part.is_empty() {
            return Ok(());
        }
        progress.make_way();
        teller.put(out, &mut so_far, &part)
    })?;
    teller.end(out, &so_far, &totals)?;
    Ok(totals.outcome())
}

fn teller(arguments: &Arguments, scope: Scope) -> Result<Teller, &'static str> {
    let named = |word: &std::ffi::OsStr| Verdict::ALL.into_iter().find(|verdict| word == verdict.name());
    let listed: Vec<Verdict> = arguments.words_of("list").filter_map(named).collect();
    let format =
        if arguments.has("json") { Some("json") } else { arguments.word_of("format").and_then(|word| word.to_str()) };
    let form = match format {
        Some(_) if !listed.is_empty() => return Err("--list prints paths alone, in no other format"),
        _ if listed.is_empty() && arguments.has("null") => return Err("-0 goes with --list"),
        _ if !listed.is_empty() => Form::List(listed.clone(), if arguments.has("null") { 0 } else { b'\n' }),
        Some("json") => Form::Json,
        Some("junit") => Form::Junit,
        Some("sarif") => Form::Sarif,
        Some("github") => Form::Github,
        _ => Form::Text,
    };
    let strict = arguments.has("strict") || listed.contains(&Verdict::NoPlace);
    Ok(Teller {
        form,
        manner: Manner { strict, pyc: arguments.has("pyc"), shape: arguments.has("shape"), scope },
        quiet: arguments.has("quiet"),
        all: arguments.has("all"),
        colours: Colours::of(arguments),
    })
}
