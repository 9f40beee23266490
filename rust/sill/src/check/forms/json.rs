//! An object a line: a file with every finding, and at last the totals.
use crate::check::findings::{Finding, Findings, TableEnd, Verdict, What};
use crate::check::sentences::told;
use crate::check::totals::Totals;
use crate::complaints::in_words;
use crate::json::{self, Object};
use std::io;
use std::path::Path;

pub fn part(path: &Path, verdict: Verdict, checked: &Result<Findings, &io::Error>) -> String {
    let object = json::path(path).text("verdict", verdict.name());
    let object = match checked {
        Err(error) => object.text("error", &in_words(error)),
        Ok(findings) => object
            .with("values", findings.values)
            .with("code_objects", findings.code_objects)
            .with("instructions", findings.instructions)
            .with("not_sure", findings.not_sure)
            .with("findings", json::list(findings.found.iter().map(finding))),
    };
    object.end() + "\n"
}

pub fn ending(totals: &Totals) -> String {
    Object::new().with("totals", self::totals(totals)).end() + "\n"
}

/// How many files were read, and how many came to each verdict.
pub fn totals(totals: &Totals) -> String {
    let files = Object::new().with("files", totals.files());
    totals.named().fold(files, |object, (name, count)| object.with(name, count)).end()
}

/// A finding: the fields that each has, those of its sort, and its sentence.
pub fn finding(finding: &Finding) -> String {
    let object = Object::new().text("kind", finding.what.kind());
    let object = match &finding.refused {
        Some((refused, meaning)) => object.and(json::refused(refused, meaning)),
        None => {
            let place = finding.code.as_ref().map(|code| code.byte);
            object.with("number", "null").with("name", "null").or_null("byte", place).with("meaning", "null")
        }
    };
    let object = match &finding.code {
        None => ["code_object", "code_byte", "file", "first_line", "instructions", "last_row"]
            .iter()
            .fold(object, |object, name| object.with(name, "null")),
        Some(code) => object
            .text("code_object", &code.name)
            .with("code_byte", code.byte)
            .text("file", &code.file)
            .with("first_line", code.first_line)
            .with("instructions", code.instructions)
            .or_null("last_row", code.last_row),
    };
    object.and(own(&finding.what)).text("text", &told(finding)).end()
}

/// The counts that belong to a sort of finding.
fn own(what: &What) -> Object {
    let object = Object::new();
    match what {
        What::Value { whole, hint } => {
            let object = object.or_null("whole_values_end", whole.map(|(end, _)| end));
            object.or_null("bytes_left", whole.map(|(_, left)| left)).or_null("hint", hint.map(json::string))
        }
        What::LineTable { placed } => object.with("placed", placed),
        What::ExceptionTable | What::Shape => object,
        What::NotWhole { placed, end } => object.with("placed", placed).and(table_end(*end)),
        What::NoPlace { tail } => object.with("without_line_at_the_end", tail),
        What::NotSure { left_over, no_place, cut, below } => {
            let object = object.with("not_sure", left_over + no_place + cut + below).with("left_over", left_over);
            object.with("no_place", no_place).with("cut_entry", cut).with("below_line_1", below)
        }
        What::NameOrder { at, name } => object.with("local_name", at).text("local", name),
    }
}

fn table_end(end: TableEnd) -> Object {
    let object = Object::new();
    match end {
        TableEnd::TooEarly { at, line } => {
            object.text("end", "too-early").with("first_left_over", at).with("shown_line", line)
        }
        TableEnd::Cut => object.text("end", "cut-entry"),
        TableEnd::TooFar { left } => object.text("end", "too-far").with("bytes_left", left),
        TableEnd::LeftOver { left } => object.text("end", "bytes-left").with("bytes_left", left),
    }
}
