//! A code object's lines for people.
use super::{Shown, stored, why_not_sure};
use crate::terminal::{Colour, Colours};
use crate::text;
use crate::words::{self, Within};
use sillgarland::{Code, Handler, Lines, Located, Location, Locations};
use std::io::{self, Write};

pub fn show(shown: &Shown, colours: Colours, out: &mut dyn Write) -> io::Result<()> {
    let Shown { start, code, .. } = *shown;
    write!(
        out,
        "code object {} at byte {}, file {}, first line {}: ",
        text::name(code.qualified_name()),
        start + code.value().place(),
        text::name(code.file()),
        code.first_line()
    )?;
    let locations = shown.lines.as_ref().ok().map(|lines| lines.whole_or_not());
    match &shown.lines {
        Err(refused) => {
            writeln!(out, "line table refused: {}", words::told(refused, Within::LineTable(*code), start))?;
        }
        Ok(Lines::Whole(locations)) => {
            writeln!(out, "{}, the line table is whole", text::count(locations.len(), "instruction"))?;
        }
        Ok(Lines::NotWhole(locations)) => {
            let all = text::count(locations.len(), "instruction");
            writeln!(out, "{all}, NOT WHOLE: the line table places {} of them", locations.from_entries())?;
        }
    }
    if let Some(locations) = locations {
        show_locations(out, code, locations, colours)?;
    }
    show_handlers(out, start, code, locations)
}

fn show_handlers(out: &mut dyn Write, start: usize, code: &Code, locations: Option<Locations>) -> io::Result<()> {
    match code.handlers() {
        Err(refused) => {
            writeln!(out, "exception table refused: {}", words::told(&refused, Within::ExceptionTable, start))
        }
        Ok(handlers) => handlers.iter().try_for_each(|handler| {
            let rows = locations.map_or(String::new(), |locations| rows(handler, locations));
            writeln!(out, "{}{rows}", text::handler(handler))
        }),
    }
}

/// The rows that the guarded instructions come from, as far as they are sure.
fn rows(handler: &Handler, locations: Locations) -> String {
    match sure_rows(handler, locations) {
        Some((first, last)) if first == last => format!(", row {first}"),
        Some((first, last)) => format!(", rows {first} to {last}"),
        None => ", no row known".to_string(),
    }
}

pub fn sure_rows(handler: &Handler, locations: Locations) -> Option<(u32, u32)> {
    let guarded = handler.guarded(locations.len());
    let sure = || {
        let guarded = locations.iter().skip(guarded.start).take(guarded.len());
        guarded.filter(|located| located.source().is_sure()).map(Located::location)
    };
    sure().map(|at| at.line).min().zip(sure().map(|at| at.end_line).max())
}

fn show_locations(out: &mut dyn Write, code: &Code, locations: Locations, colours: Colours) -> io::Result<()> {
    let units = code.code().as_chunks().0;
    let stored = stored(code, locations);
    for (at, (located, [opcode, argument])) in locations.iter().zip(units).enumerate() {
        let Location { line, column, end_line, end_column } = located.location();
        let place = format!("{line}:{column} to {end_line}:{end_column}");
        write!(out, "{at:>8}  {opcode:02x} {argument:02x}  ")?;
        match why_not_sure(located) {
            None => writeln!(out, "{place}")?,
            Some(why) => {
                let stored = stored.as_ref().and_then(|stored| stored.get(at));
                let mark = colours.paint(Colour::Yellow, &format!("! {}", why.told(stored)));
                writeln!(out, "-  {mark}; document 01 shows {place}")?
            }
        }
    }
    Ok(())
}
