//! A line a file for people, and below it a line for each code object that has more to be told.
use crate::check::findings::{Findings, Verdict, What};
use crate::check::sentences::{held, label, line, told};
use crate::terminal::{Colour, Colours};
use crate::text;
use std::path::Path;

pub fn part(path: &Path, findings: &Findings, all: bool, colours: Colours) -> String {
    let verdict = findings.verdict();
    let own = if all { held(findings) } else { line(findings) };
    let mut shown = format!("{}  {}: {own}\n", shown(verdict, colours), text::path(path));
    for finding in &findings.found {
        let below = matches!(finding.what, What::NotSure { .. });
        if all || below {
            shown += &format!("           {}{}\n", label(finding), told(finding));
        }
    }
    shown
}

fn shown(verdict: Verdict, colours: Colours) -> String {
    match verdict {
        Verdict::Accepted => colours.paint(Colour::Green, "accepted "),
        Verdict::NoPlace => colours.paint(Colour::Yellow, "NO PLACE "),
        Verdict::NotWhole => colours.paint(Colour::Yellow, "NOT WHOLE"),
        Verdict::Refused | Verdict::Trouble => colours.paint(Colour::Red, "refused  "),
    }
}
