//! Workflow commands of GitHub: an error for each fault, a warning for local names out of order, and a notice with the totals.
use crate::check::findings::{Findings, Verdict, What};
use crate::check::sentences::told;
use crate::check::totals::Totals;
use crate::complaints::in_words;
use crate::text;
use std::io;
use std::path::Path;

pub fn part(path: &Path, checked: &Result<Findings, &io::Error>) -> String {
    let findings = match checked {
        Err(error) => return command("error", path, "trouble", &in_words(error)),
        Ok(findings) => findings,
    };
    let mut shown = String::new();
    for finding in &findings.found {
        match (&finding.what, finding.what.verdict()) {
            (What::NameOrder { .. }, _) => shown += &command("warning", path, "name-order", &told(finding)),
            (_, Verdict::Accepted) => {}
            (_, verdict) => shown += &command("error", path, verdict.name(), &told(finding)),
        }
    }
    shown
}

pub fn ending(totals: &Totals) -> String {
    let named: Vec<String> = totals.named().map(|(name, count)| format!("{count} {name}")).collect();
    format!("::notice title=sill check::{}: {}\n", text::count(totals.files(), "file"), named.join(", "))
}

fn command(level: &str, path: &Path, title: &str, message: &str) -> String {
    format!("::{level} file={},title={}::{}\n", property(&path.to_string_lossy()), property(title), data(message))
}

/// What would end a command, or be taken for an escape.
fn data(text: &str) -> String {
    text.replace('%', "%25").replace('\r', "%0D").replace('\n', "%0A")
}

/// What would also end a property.
fn property(text: &str) -> String {
    data(text).replace(':', "%3A").replace(',', "%2C")
}
