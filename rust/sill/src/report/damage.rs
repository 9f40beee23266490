//! What is damaged in a file: the value that is refused, and the code objects whose tables are.
use super::object::drawn;
use crate::check::{Finding, Findings, Manner, Verdict, What, told};
use crate::json::{self, Object};
use crate::page::{Ways, refusal, refused_value, way};
use crate::{files, looks, repair, text};
use sillgarland::{Code, Records, Value};
use std::collections::{BTreeMap, HashMap};
use std::convert::Infallible;

/// What the page has of it.
pub struct Damaged {
    pub fields: Object,
    pub objects: Vec<Drawn>,
}

impl Default for Damaged {
    fn default() -> Self {
        Self { fields: Object::new(), objects: Vec::new() }
    }
}

/// A damaged code object: what is told of it in any case, and what is drawn where there is room.
pub struct Drawn {
    pub told: Object,
    pub drawing: Object,
}

/// The most damaged code objects of a file that are told one by one.
const MOST_OBJECTS: usize = 12;

pub fn damaged(findings: &Findings, input: &[u8], manner: &Manner) -> Damaged {
    let objects = by_object(findings);
    let refused = findings.found.iter().filter_map(|finding| finding.refused.as_ref());
    let mut numbers: Vec<u32> = refused.map(|(refused, _)| refused.refusal.number()).collect();
    numbers.sort();
    numbers.dedup();
    let value = findings.found.iter().find_map(|finding| match (&finding.what, &finding.refused) {
        (What::Value { whole, .. }, Some((refused, _))) => {
            let start = whole.map_or(looks::skipped(input, manner.pyc), |(end, _)| end);
            Some(refused_value(refused, input, findings.values + 1, start))
        }
        _ => None,
    });
    let fields = Object::new()
        .with("counts", json::list(findings.counts()))
        .with("refusals", json::list(numbers))
        .or_null("value", value.map(Object::end))
        .with("damaged", objects.len());
    Damaged { fields, objects: if objects.is_empty() { Vec::new() } else { draw(&objects, input, manner) } }
}

/// The faults of a code object, and its turn among the damaged ones.
struct Faults<'a> {
    turn: usize,
    found: Vec<&'a Finding>,
}

/// Damaged code objects by their places in the file.
type ByPlace<'a> = HashMap<usize, Faults<'a>>;

fn by_object(findings: &Findings) -> ByPlace<'_> {
    let mut objects = ByPlace::new();
    for finding in findings.found.iter().filter(|finding| finding.what.verdict() != Verdict::Accepted) {
        if let Some(code) = &finding.code {
            let turn = objects.len();
            objects.entry(code.byte).or_insert(Faults { turn, found: Vec::new() }).found.push(finding);
        }
    }
    objects
}

/// The first of them, in the order of the file: its values are read once more, as far as they are sound.
fn draw(objects: &ByPlace, input: &[u8], manner: &Manner) -> Vec<Drawn> {
    let (plan, mut records) = (repair::planned(input), Records::default());
    let (mut first, mut values, mut codes) = (BTreeMap::new(), 0, 0);
    let from = looks::skipped(input, manner.pyc);
    let ended = files::for_each_value_from(from, &mut manner.reader(), input, |start, golden| {
        values += 1;
        let mut known = None;
        for code in golden.code_objects() {
            codes += 1;
            let faults = objects.get(&(start + code.value().place()));
            let Some(faults) = faults.filter(|faults| faults.turn < MOST_OBJECTS) else { continue };
            let (ways, nodes) =
                known.get_or_insert_with(|| (Ways::of(golden), golden.values().collect::<Vec<Value>>()));
            let steps = ways.to(nodes, code.value().node());
            let drawing = drawn(&code, &mut records).and(planned(&plan, codes - 1));
            let told = told_of(faults, values, &steps, input).and(spans(&code, start));
            first.insert(faults.turn, Drawn { told, drawing });
        }
        Ok::<(), Infallible>(())
    });
    match ended {
        Ok(_) => first.into_values().collect(),
        Err(never) => match never {},
    }
}

/// What is told of a code object, drawn or not.
fn told_of(faults: &Faults, value: usize, steps: &str, input: &[u8]) -> Object {
    let found = json::list(faults.found.iter().map(|finding| json::string(&told(finding))));
    let object = Object::new().with("found", found);
    let Some(code) = faults.found.iter().find_map(|finding| finding.code.as_ref()) else { return object };
    let refusals = faults.found.iter().filter_map(|finding| {
        let table = if matches!(finding.what, What::ExceptionTable) { ".exception_table" } else { ".line_table" };
        let (refused, meaning) = finding.refused.as_ref()?;
        Some(refusal(refused, meaning, input, &way(value, &format!("{steps}{table}"))).end())
    });
    object
        .text("name", &text::short(&code.name))
        .text("file", &text::short(&code.file))
        .with("first_line", code.first_line)
        .with("byte", code.byte)
        .with("instructions", code.instructions)
        .or_null("last_row", code.last_row)
        .text("way", &way(value, steps))
        .with("refused", json::list(refusals))
}

/// The bytes of a code object and of its line table: the first of each, and the one behind its last.
fn spans(code: &Code, start: usize) -> Object {
    let span = |value: Value| json::list([value.span().start, value.span().end].map(|at| start + at));
    Object::new().with("bytes", span(code.value())).with("table_bytes", span(code.line_table()))
}

/// What a repair would do with the code object of this number, or why it would write nothing.
fn planned(plan: &Result<BTreeMap<usize, String>, String>, number: usize) -> Object {
    match plan {
        Ok(plan) => Object::new().or_null("repair", plan.get(&number)),
        Err(reason) => Object::new().text("no_repair", reason),
    }
}
