//! SARIF 2.1.0: a result for each fault, a warning for local names out of order, and the totals as properties of the run.
use super::json::{finding as finding_as_json, totals as totals_as_json};
use crate::check::findings::{Finding, Findings, Verdict, What};
use crate::check::sentences::told;
use crate::check::totals::Totals;
use crate::complaints::in_words;
use crate::json::{self, Object};
use sillgarland::Refusal;
use std::fmt::Write;
use std::io;
use std::path::Path;

/// Findings that are no refusals, and what they mean.
const OTHERS: [(&str, &str); 4] = [
    ("not-whole", "a line table is cut or damaged: rows that it should give are not from it"),
    ("no-place", "a code object ends in instructions without a line"),
    ("name-order", "local names are out of order: such code may not read back once written"),
    ("trouble", "a path could not be read"),
];

pub fn beginning() -> String {
    let refusals = (1..).map_while(Refusal::of_number).map(|refusal| (format!("{refusal:?}"), refusal.meaning()));
    let others = OTHERS.iter().map(|(name, meaning)| (name.to_string(), *meaning));
    let rules = refusals
        .chain(others)
        .map(|(name, meaning)| Object::new().text("id", &name).with("shortDescription", message(meaning)).end());
    let driver = Object::new().text("name", "sill").text("version", env!("CARGO_PKG_VERSION"));
    let driver = driver.with("rules", json::list(rules)).end();
    format!(
        "{{\"$schema\":\"https://json.schemastore.org/sarif-2.1.0.json\",\"version\":\"2.1.0\",\"runs\":[{{\"tool\":\
         {{\"driver\":{driver}}},\"columnKind\":\"unicodeCodePoints\",\"results\":["
    )
}

pub fn ending(totals: &Totals) -> String {
    format!("\n],\"properties\":{}}}]}}\n", Object::new().with("totals", totals_as_json(totals)).end())
}

/// The results of a file, a line each.
pub fn part(path: &Path, checked: &Result<Findings, &io::Error>) -> String {
    let results: Vec<String> = match checked {
        Err(error) => {
            vec![result("trouble", "error", &in_words(error)).with("locations", located(path, None)).end()]
        }
        Ok(findings) => findings.found.iter().filter_map(|finding| told_as(finding, path)).collect(),
    };
    results.join(",\n")
}

fn told_as(finding: &Finding, path: &Path) -> Option<String> {
    let level = match (&finding.what, finding.what.verdict()) {
        (What::NameOrder { .. }, _) => "warning",
        (_, Verdict::Accepted) => return None,
        _ => "error",
    };
    let name = finding.refused.as_ref().map(|(refused, _)| format!("{:?}", refused.refusal));
    let rule = name.as_deref().unwrap_or(finding.what.kind());
    let result = result(rule, level, &told(finding)).with("locations", located(path, Some(finding)));
    Some(result.with("properties", finding_as_json(finding)).end())
}

fn result(rule: &str, level: &str, text: &str) -> Object {
    Object::new().text("ruleId", rule).text("level", level).with("message", message(text))
}

fn message(text: &str) -> String {
    Object::new().text("text", text).end()
}

fn located(path: &Path, finding: Option<&Finding>) -> String {
    let artifact = Object::new().text("uri", &uri(path)).end();
    let refused = finding.and_then(|finding| finding.refused.as_ref()).map(|(refused, _)| refused.place);
    let code = finding.and_then(|finding| finding.code.as_ref());
    let byte = match refused {
        Some(sillgarland::Place::Byte(at)) => Some(at),
        _ => code.map(|code| code.byte),
    };
    let physical = Object::new().with("artifactLocation", artifact);
    let physical = match byte {
        Some(at) => physical.with("region", Object::new().with("byteOffset", at).with("byteLength", 0).end()),
        None => physical,
    };
    let location = Object::new().with("physicalLocation", physical.end());
    let location = match code {
        Some(code) => {
            let logical = Object::new().text("fullyQualifiedName", &code.name).text("kind", "function").end();
            location.with("logicalLocations", json::list([logical]))
        }
        None => location,
    };
    json::list([location.end()])
}

/// A path as a URI reference: bytes that may not stand in one are escaped.
fn uri(path: &Path) -> String {
    let bytes = path.as_os_str().as_encoded_bytes();
    let mut shown = String::from(if bytes.starts_with(b"/") { "file://" } else { "" });
    for byte in bytes {
        match byte {
            b'a'..=b'z' | b'A'..=b'Z' | b'0'..=b'9' | b'/' | b'.' | b'-' | b'_' | b'~' => shown.push(*byte as char),
            _ => {
                let _ = write!(shown, "%{byte:02X}");
            }
        }
    }
    shown
}
