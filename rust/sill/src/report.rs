//! `sill report`: what `check` finds, as one page for people.
mod damage;
mod file;
mod gather;
mod object;

use crate::check::{Looked, Manner, Task, each_file};
use crate::files::{self, Item};
use crate::glob::Filter;
use crate::options::Arguments;
use crate::write::{beside_output, may_be_replaced, put};
use crate::{Outcome, complaints, settings, text};
use file::Entry;
use gather::Gathered;
use std::io::{self, Write};
use std::path::Path;

pub fn run(arguments: &Arguments, out: &mut dyn Write) -> io::Result<Outcome> {
    let Some(target) = arguments.word_of("output").map(Path::new) else {
        complaints::say("report: -o OUT must be given; sill report --help says how to call it");
        return Ok(Outcome::Trouble);
    };
    let Some(scope) = settings::scope(arguments) else { return Ok(Outcome::Trouble) };
    let items = files::find(arguments.operands(), &Filter::of(arguments));
    if let Err(error) = replaces_none(target, &items) {
        complaints::about(target, &error);
        return Ok(Outcome::Trouble);
    }
    let (strict, pyc) = (arguments.has("strict"), arguments.has("pyc"));
    let reporter = Reporter { manner: Manner { strict, pyc, shape: false, scope } };
    let mut gathered = Gathered::default();
    let totals = each_file(&items, &reporter, |entry, _| {
        gathered.add(entry);
        Ok(())
    })?;
    let page = gathered.page(&totals, arguments.operands(), &reporter.manner);
    if let Err(error) = put(target, page.as_bytes(), out) {
        complaints::about(target, &error);
        return Ok(Outcome::Trouble);
    }
    let told = format!("written  {}: {}; {totals}", text::path(target), text::count(page.len(), "byte"));
    beside_output(target, out, &told)?;
    Ok(totals.outcome())
}

/// OUT may be no file that is read.
fn replaces_none(target: &Path, items: &[Item]) -> io::Result<()> {
    if !target.exists() {
        return Ok(());
    }
    items.iter().try_for_each(|item| may_be_replaced(&item.path, target))
}

struct Reporter {
    manner: Manner,
}

impl Task for Reporter {
    type Answer = Entry;

    fn manner(&self) -> &Manner {
        &self.manner
    }

    fn answer(&self, file: Looked) -> Entry {
        file::entry(file, &self.manner)
    }
}
