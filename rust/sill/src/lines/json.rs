//! A code object's lines as JSON, on one line.
use super::table::sure_rows;
use super::{Shown, stored, why_not_sure};
use crate::json::{self, Object};
use crate::show::{damaged, handler};
use crate::words::Within;
use sillgarland::{Code, Lines, Located, Location, Locations};
use std::io::{self, Write};

pub fn show(shown: &Shown, out: &mut dyn Write) -> io::Result<()> {
    let Shown { start, code, .. } = *shown;
    let object = json::path(shown.path).with("code_object", json::quoted(code.qualified_name().code_points()));
    let object =
        object.with("byte", start + code.value().place()).with("file", json::quoted(code.file().code_points()));
    let object = object.with("first_line", code.first_line());
    let locations = shown.lines.as_ref().ok().map(|lines| lines.whole_or_not());
    let object = match &shown.lines {
        Err(refused) => damaged(object.with("whole", false), "lines", refused, Within::LineTable(*code), start),
        Ok(lines) => with_lines(object, code, *lines),
    };
    let object = match code.handlers() {
        Err(refused) => damaged(object, "handlers", &refused, Within::ExceptionTable, start),
        Ok(handlers) => {
            let handlers = handlers.iter().map(|entry| {
                let rows = locations.and_then(|locations| sure_rows(entry, locations));
                handler(entry)
                    .or_null("first_row", rows.map(|rows| rows.0))
                    .or_null("last_row", rows.map(|rows| rows.1))
                    .end()
            });
            object.with("handlers", json::list(handlers))
        }
    };
    writeln!(out, "{}", object.end())?;
    out.flush()
}

fn with_lines(object: Object, code: &Code, lines: Lines) -> Object {
    let locations = lines.whole_or_not();
    object
        .with("whole", lines.whole().is_some())
        .with("from_entries", locations.from_entries())
        .with("not_sure", locations.not_sure())
        .or_null("last_row", locations.last_row())
        .with("instructions", instructions(code, locations))
}

fn instructions(code: &Code, locations: Locations) -> String {
    let stored = stored(code, locations);
    json::list(locations.iter().enumerate().map(|(at, located)| {
        let stored = stored.as_ref().and_then(|stored| stored.get(at));
        instruction(located, stored).end()
    }))
}

/// Where it comes from, or why that is not sure and what document 01 shows all the same.
fn instruction(located: Located, stored: Option<&(i64, i64)>) -> Object {
    let Location { line, column, end_line, end_column } = located.location();
    match why_not_sure(located) {
        None => {
            let object = Object::new().with("line", line).with("column", column);
            object.with("end_line", end_line).with("end_column", end_column)
        }
        Some(why) => {
            let shown = json::list([line, column, end_line, end_column]);
            Object::new().with("line", "null").text("why", &why.told(stored)).with("shown", shown)
        }
    }
}
