//! The sentences that people read of a finding; machines get them too, as its text.
use super::findings::{Finding, Findings, Named, TableEnd, Verdict, What};
use crate::{looks, text, words};

/// A finding in one sentence.
pub fn told(finding: &Finding) -> String {
    let refused = finding.refused.as_ref().map(|(refused, meaning)| words::sentence(refused, meaning));
    let (refused, code) = (refused.unwrap_or_default(), finding.code.as_ref());
    let named = code.map_or(String::new(), |code| format!("code object {}", text::short(&code.name)));
    let all = text::count(code.map_or(0, |code| code.instructions), "instruction");
    let last = code.map_or(String::new(), last_placed);
    match &finding.what {
        What::Value { whole, hint } => refused + &whole_before(*whole) + &looks::hinted(*hint),
        What::LineTable { placed: 0 } => {
            format!("line table of {named}: {refused}; before it no instruction is placed")
        }
        What::LineTable { placed } => {
            format!("line table of {named}: {refused}; before it {placed} of {all} are placed; {last}")
        }
        What::ExceptionTable => format!("exception table of {named}: {refused}"),
        What::Shape => refused,
        What::NotWhole { placed, end } => format!("{named}: the line table places {placed} of {all}{}", end.told()),
        What::NoPlace { tail } => format!("{named}: its last {tail} of {all} have no line; {last}"),
        What::NotSure { left_over, no_place, cut, below } => {
            let not_sure = left_over + no_place + cut + below;
            let reasons = reasons([*left_over, *no_place, *cut, *below]);
            format!("{named}: {not_sure} of {all} without a sure row ({reasons}); {last}")
        }
        What::NameOrder { at, name } => {
            format!("{named}: name order is not kept from local name {at} ({}) on", text::short(name))
        }
    }
}

fn whole_before(whole: Option<(usize, usize)>) -> String {
    whole.map_or(String::new(), |(end, left)| {
        format!("; the last whole value ends at byte {end}, with {} after it", text::count(left, "byte"))
    })
}

fn last_placed(code: &Named) -> String {
    code.last_row.map_or("no row is placed".to_string(), |row| format!("the last row placed is {row}"))
}

fn reasons(counts: [usize; 4]) -> String {
    let words = ["left over", "no place", "of a cut entry", "below line 1"];
    let given = counts.iter().zip(words).filter(|(count, _)| **count > 0);
    given.map(|(count, reason)| format!("{count} {reason}")).collect::<Vec<_>>().join(", ")
}

impl TableEnd {
    fn told(self) -> String {
        match self {
            TableEnd::TooEarly { at, line } => {
                format!("; instruction {at} is the first whose line ({line}) is not from the table")
            }
            TableEnd::Cut => ", but its last entry is cut".to_string(),
            TableEnd::TooFar { left: 0 } => ", but its last entry is for more than there are".to_string(),
            TableEnd::TooFar { left } => {
                format!(", but its last entry is for more than there are, with {} after it", text::count(left, "byte"))
            }
            TableEnd::LeftOver { left: 1 } => ", but 1 byte of it is left over".to_string(),
            TableEnd::LeftOver { left } => format!(", but {left} bytes of it are left over"),
        }
    }
}

/// What a file holds.
pub fn held(findings: &Findings) -> String {
    let not_sure = match findings.not_sure {
        0 => String::new(),
        not_sure => format!(", {not_sure} of them without a sure row"),
    };
    format!(
        "{}, {}, {}{not_sure}",
        text::count(findings.values, "value"),
        text::count(findings.code_objects, "code object"),
        text::count(findings.instructions, "instruction")
    )
}

/// A file in one line, the worst first: of each sort the first finding, and how many code objects more have one.
pub fn line(findings: &Findings) -> String {
    let verdict = findings.verdict();
    let of = |kind: &str| findings.found.iter().filter(|finding| finding.what.kind() == kind).collect::<Vec<_>>();
    let mut told: Vec<String> = Vec::new();
    for kind in ["value", "shape", "line-table", "exception-table", "not-whole", "no-place"] {
        told.extend(first_and_more(&of(kind), verdict));
    }
    if verdict == Verdict::Accepted {
        told.push(held(findings));
    }
    told.extend(first_and_more(&of("name-order"), Verdict::Accepted));
    told.join("; ")
}

/// What is less bad than the file's verdict says what it is.
fn first_and_more(found: &[&Finding], verdict: Verdict) -> Option<String> {
    let (first, more) = found.split_first()?;
    let more = match more.len() {
        0 => String::new(),
        more => format!(" (and {} more)", text::count(more, "code object")),
    };
    let label = if first.what.verdict() == verdict { "" } else { label(first) };
    Some(format!("{label}{}{more}", self::told(first)))
}

/// What stands before a finding where the file's verdict does not say it.
pub fn label(finding: &Finding) -> &'static str {
    match finding.what.verdict() {
        Verdict::Refused => "refused: ",
        Verdict::NotWhole => "NOT WHOLE: ",
        Verdict::NoPlace => "NO PLACE: ",
        Verdict::Accepted | Verdict::Trouble => "",
    }
}
