//! A damaged code object as the page draws it: a strip of its instructions by where their rows come from, the rows, the handlers, and
//! what a repair would do. However long it is, what is drawn is bounded, and what is left out is told.
use crate::json::{self, Object};
use crate::lines::sure_rows;
use crate::origins::{Instructions, LEFT_OUT, ORIGINS, Origin, is_shown, runs};
use sillgarland::{Code, Locations, Records};

/// What the page draws of a code object.
pub fn drawn(code: &Code, records: &mut Records) -> Object {
    let instructions = Instructions::of(code, records);
    let object = Object::new().with("counts", counts(&instructions)).and(strip(&instructions));
    handlers(object.with("rows", rows(&instructions)), code, instructions.placed)
}

fn counts(instructions: &Instructions) -> String {
    let mut counts = [0; ORIGINS.len()];
    instructions.each().for_each(|(origin, _)| counts[origin as usize] += 1);
    json::list(counts)
}

/// The most pieces of a strip.
const MOST_PIECES: usize = 120;

/// Lengths and origins in turn. Where that would be too many pieces, each piece stands for as many instructions, and has the worst
/// origin among them.
fn strip(instructions: &Instructions) -> Object {
    let origins = || instructions.each().map(|(origin, _)| origin);
    let pieces = |pieces: &mut dyn Iterator<Item = (usize, Origin)>| {
        json::list(pieces.flat_map(|(count, origin)| [count, origin as usize]))
    };
    if runs(origins()).nth(MOST_PIECES).is_none() {
        return Object::new().with("strip", pieces(&mut runs(origins())));
    }
    let each = instructions.all.div_ceil(MOST_PIECES);
    let mut left = origins();
    let mut worst = std::iter::from_fn(|| {
        let piece = left.by_ref().take(each).map(|origin| (1, origin));
        piece.reduce(|(count, worst), (_, origin)| (count + 1, worst.max(origin)))
    });
    Object::new().with("strip", pieces(&mut worst)).with("each", each)
}

/// Six numbers a row: how many instructions it has, its origin, line, column, lines to its end line, and end column. Where rows are
/// left out: how many instructions, the number behind the last origin, and how many rows.
fn rows(instructions: &Instructions) -> String {
    let (mut all, mut break_at) = (0, None);
    for (at, (_, (origin, _))) in runs(instructions.each()).enumerate() {
        all += 1;
        break_at = break_at.or((origin >= Origin::CutEntry).then_some(at));
    }
    let break_at = break_at.unwrap_or(all);
    let (mut rows, mut left_out) = (Vec::new(), (0, 0));
    for (at, (count, (origin, [line, column, end_line, end_column]))) in runs(instructions.each()).enumerate() {
        if !is_shown(at, all, break_at) {
            left_out = (left_out.0 + count as i64, left_out.1 + 1);
            continue;
        }
        if let (hidden @ 1.., runs) = std::mem::take(&mut left_out) {
            rows.extend([hidden, LEFT_OUT, runs, 0, 0, 0]);
        }
        rows.extend([count as i64, origin as i64, line, column, end_line - line, end_column]);
    }
    json::list(rows)
}

/// The most handlers of a code object.
const MOST_HANDLERS: usize = 40;

/// Each as seven numbers: its first instruction, how many it guards, its target, the depth, whether the last instruction is pushed,
/// and the first and last sure row that it guards; and how many more there are.
fn handlers(object: Object, code: &Code, placed: Option<Locations>) -> Object {
    let Ok(handlers) = code.handlers() else { return object.with("handlers", "null") };
    let shown = handlers.iter().take(MOST_HANDLERS).map(|handler| {
        let rows = placed.and_then(|placed| sure_rows(handler, placed));
        let row = |row: Option<u32>| row.map_or("null".to_string(), |row| row.to_string());
        format!(
            "[{},{},{},{},{},{},{}]",
            handler.start,
            handler.length,
            handler.target,
            handler.depth,
            u8::from(handler.lasti),
            row(rows.map(|rows| rows.0)),
            row(rows.map(|rows| rows.1)),
        )
    });
    let object = object.with("handlers", json::list(shown));
    match handlers.len().saturating_sub(MOST_HANDLERS) {
        0 => object,
        more => object.with("more_handlers", more),
    }
}
