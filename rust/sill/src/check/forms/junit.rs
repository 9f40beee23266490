//! A testcase a file, as test reports of a CI have it: a fault is a failure, a file that could not be read an error.
use crate::check::findings::{Findings, Verdict};
use crate::check::sentences::{held, label, line, told};
use crate::check::totals::Totals;
use crate::complaints::in_words;
use crate::text;
use std::io;
use std::path::Path;

pub fn part(path: &Path, verdict: Verdict, checked: &Result<Findings, &io::Error>) -> String {
    let folder = path.parent().filter(|folder| !folder.as_os_str().is_empty()).unwrap_or(Path::new("."));
    let case =
        format!("  <testcase classname=\"{}\" name=\"{}\"", escaped(&text::path(folder)), escaped(&text::path(path)));
    match checked {
        Err(error) => {
            let told = escaped(&in_words(error));
            format!("{case}>\n    <error type=\"trouble\" message=\"{told}\"/>\n  </testcase>\n")
        }
        Ok(findings) if verdict == Verdict::Accepted => {
            let notes = listed(findings);
            format!("{case}>\n    <system-out>{}{notes}</system-out>\n  </testcase>\n", escaped(&held(findings)))
        }
        Ok(findings) => {
            let (kind, message) = (verdict.name(), escaped(&line(findings)));
            let all = listed(findings);
            format!("{case}>\n    <failure type=\"{kind}\" message=\"{message}\">{all}</failure>\n  </testcase>\n")
        }
    }
}

/// Every finding, on a line of its own.
fn listed(findings: &Findings) -> String {
    findings.found.iter().map(|finding| format!("\n{}{}", label(finding), escaped(&told(finding)))).collect()
}

pub fn beginning(totals: &Totals) -> String {
    let errors = totals.of(Verdict::Trouble);
    let failures = totals.paths() - errors - totals.of(Verdict::Accepted);
    let counts = format!("tests=\"{}\" failures=\"{failures}\" errors=\"{errors}\"", totals.paths());
    let files = [("files", totals.files())];
    let properties: String = files
        .into_iter()
        .chain(totals.named())
        .map(|(name, count)| format!("    <property name=\"{name}\" value=\"{count}\"/>\n"))
        .collect();
    format!(
        "<?xml version=\"1.0\" encoding=\"UTF-8\"?>\n<testsuites {counts}>\n<testsuite name=\"sill check\" {counts}>\n  \
         <properties>\n{properties}  </properties>\n"
    )
}

pub const ENDING: &str = "</testsuite>\n</testsuites>\n";

/// What may stand in XML: control characters were made visible before.
fn escaped(text: &str) -> String {
    let mut shown = String::with_capacity(text.len());
    for letter in text.chars() {
        match letter {
            '&' => shown += "&amp;",
            '<' => shown += "&lt;",
            '>' => shown += "&gt;",
            '"' => shown += "&quot;",
            letter => shown.push(letter),
        }
    }
    shown
}
