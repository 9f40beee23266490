//! A null pointer with length 0 is an empty slice: every exported function, called so, answers as for no bytes and no room.
use crate::tally::Tally;
use sillgarland_sys::{
    Edition, Exceptions, Found, Indexed, Joined, Kept, Leaf, Line, Located, Moved, Read, Rewritten, Salvaged, Saved,
    Setting, Sourced, Span, Split, Start, Totalled, Written, refusals,
};
use sillgarland_sys::{sill_add_totals, sill_print_totals, sill_totals};
use sillgarland_sys::{sill_edition, sill_rewrite_settings, sill_save_edition, sill_setting};
use sillgarland_sys::{sill_golden_from_fields, sill_golden_to_fields};
use sillgarland_sys::{sill_index_starts, sill_start_at, sill_starts_before};
use sillgarland_sys::{sill_join, sill_line_after, sill_read_exceptions, sill_write_exceptions};
use sillgarland_sys::{sill_keep, sill_keep_need, sill_read_more};
use sillgarland_sys::{sill_leaf, sill_locate_node, sill_read, sill_salvage, sill_sources, sill_span, sill_write};
use sillgarland_sys::{sill_locate, sill_locations, sill_read_varint, sill_read_varint_with_start, sill_split};
use sillgarland_sys::{sill_locate_begin, sill_locate_end, sill_locate_piece};
use sillgarland_sys::{
    sill_write_signed_varint, sill_write_varint, sill_write_varint_be, sill_write_varint_with_start,
};
use std::fmt::Debug;
use std::ptr::{null, null_mut};

pub fn hold() -> bool {
    let mut tally = Tally::new("nulls");
    let no_room = Written { refusal: refusals::NO_ROOM, place: 0, written: 0 };
    let none = Found { refusal: refusals::ACCEPTED, found: 0, value: 0, pad: 0, place: 0, next: 0 };
    let no_instructions = Located { refusal: refusals::ACCEPTED, place: 0, from_entries: 0, whole: 1 };
    let no_names = Split { refusal: refusals::ACCEPTED, place: 0, locals: 0, cells: 0, frees: 0, present: 0 };
    let no_object = Read { refusal: refusals::EOF_OBJECT, place: 0, consumed: 0, nodes: 0, entries: 0, slots: 0 };
    let no_node = Leaf { refusal: refusals::BAD_TABLE, place: 0, kind: 0, pad: 0, first: 0, second: 0 };
    // SAFETY: null with length 0 is what the functions promise to take.
    unsafe {
        let (n, m, w) = (null(), null_mut(), null_mut());
        count(&mut tally, "sill_write_varint", sill_write_varint(m, 0, 0), no_room);
        count(&mut tally, "sill_write_signed_varint", sill_write_signed_varint(m, 0, 0), no_room);
        count(&mut tally, "sill_write_varint_be", sill_write_varint_be(m, 0, 0), no_room);
        count(&mut tally, "sill_write_varint_with_start", sill_write_varint_with_start(m, 0, 0), no_room);
        count(&mut tally, "sill_read_varint", sill_read_varint(n, 0, 0), none);
        count(&mut tally, "sill_read_varint_with_start", sill_read_varint_with_start(n, 0, 0), none);
        let no_entries = Exceptions { refusal: refusals::ACCEPTED, place: 0, count: 0 };
        count(&mut tally, "sill_read_exceptions", sill_read_exceptions(n, 0, w, 0), no_entries);
        let nothing = Written { refusal: refusals::ACCEPTED, place: 0, written: 0 };
        count(&mut tally, "sill_write_exceptions", sill_write_exceptions(null(), 0, m, 0), nothing);
        let no_field = Setting { refusal: refusals::NO_SUCH_FIELD, place: 0, file: 0, start: 0, size: 0 };
        count(&mut tally, "sill_setting", sill_setting(n, 0, n, 0, 0), no_field);
        let no_fields = Rewritten { refusal: refusals::ACCEPTED, place: 0, written: 0 };
        count(&mut tally, "sill_rewrite_settings", sill_rewrite_settings(n, 0, n, 0, m, 0), no_fields);
        let no_edition = Saved { refusal: refusals::NO_SUCH_FIELD, place: 0, written: 0 };
        count(&mut tally, "sill_save_edition", sill_save_edition(n, 0, n, 0, m, 0), no_edition);
        let none_saved = Edition { refusal: refusals::NO_SUCH_FIELD, place: 0, start: 0, size: 0 };
        count(&mut tally, "sill_edition", sill_edition(n, 0, n, 0), none_saved);
        let no_code = Moved { refusal: refusals::EOF_OBJECT, place: 0, written: 0 };
        let to_fields = sill_golden_to_fields(n, 0, w, 0, w, 0, w, 0, refusals::MOST_NESTING, m, 0);
        count(&mut tally, "sill_golden_to_fields", to_fields, no_code);
        let no_golden = Moved { refusal: refusals::NO_SUCH_FIELD, place: 0, written: 0 };
        let from_fields = sill_golden_from_fields(n, 0, w, 0, w, 0, w, 0, refusals::MOST_NESTING, m, 0);
        count(&mut tally, "sill_golden_from_fields", from_fields, no_golden);
        let few = Totalled { refusal: refusals::NO_ROOM, place: 0 };
        count(&mut tally, "sill_totals", sill_totals(null(), 0, null(), 0, null_mut(), 0), few);
        count(&mut tally, "sill_add_totals", sill_add_totals(null(), 0, null(), 0, null_mut(), 0), few);
        let no_bytes = Written { refusal: refusals::NO_ROOM, place: 0, written: 0 };
        count(&mut tally, "sill_print_totals", sill_print_totals(null(), 0, m, 0), no_bytes);
        count(&mut tally, "sill_locate", sill_locate(n, 0, 1, 0, w, 0), no_instructions);
        count(&mut tally, "sill_locations", sill_locations(n, 0, 1, 0, w, 0, null_mut(), 0), no_instructions);
        let empty = Salvaged {
            refusal: refusals::ACCEPTED,
            place: 0,
            written: 0,
            kept: 0,
            dropped: 0,
            shortened: 0,
            covered: 0,
        };
        let none =
            Sourced { refusal: refusals::ACCEPTED, place: 0, from_entries: 0, with_line: 0, with_columns: 0, sure: 0 };
        count(&mut tally, "sill_sources", sill_sources(n, 0, 1, 0, m, 0), none);
        count(&mut tally, "sill_salvage", sill_salvage(n, 0, 1, 0, m, 0), empty);
        let both = Joined { refusal: refusals::ACCEPTED, place: 0, written: 0, count: 0, line: 1 };
        count(&mut tally, "sill_join", sill_join(n, 0, 1, 0, n, 0, 1, 0, m, 0), both);
        let first_line = Line { refusal: refusals::ACCEPTED, place: 0, whole: 1, line: 1 };
        count(&mut tally, "sill_line_after", sill_line_after(n, 0, 1, 0), first_line);
        let no_state = Located { refusal: refusals::NO_ROOM, place: 0, from_entries: 0, whole: 0 };
        count(&mut tally, "sill_locate_begin", sill_locate_begin(1, 0, w, 0, w, 0), no_state);
        count(&mut tally, "sill_locate_piece", sill_locate_piece(n, 0, w, 0, w, 0), no_state);
        count(&mut tally, "sill_locate_end", sill_locate_end(w, 0, w, 0), no_state);
        let no_index = Indexed { refusal: refusals::NO_ROOM, place: 0, starts: 0 };
        count(&mut tally, "sill_index_starts", sill_index_starts(null(), 0, 0, null_mut(), 0), no_index);
        let unanswered = Start { refusal: refusals::NO_ROOM, place: 0, value: 0 };
        count(&mut tally, "sill_starts_before", sill_starts_before(null(), 0, 0, 0), unanswered);
        count(&mut tally, "sill_start_at", sill_start_at(null(), 0, 0, 1), unanswered);
        let split = sill_split(n, 0, 0, 0, 0, 0, w, 0, w, 0, w, 0, w, 0, w, 0);
        count(&mut tally, "sill_split", split, no_names);
        count(&mut tally, "sill_read", sill_read(n, 0, w, 0, w, 0, w, 0, 1), no_object);
        let no_span = Span { refusal: refusals::BAD_TABLE, place: 0, start: 0, end: 0, closed: 0, slots_before: 0 };
        count(&mut tally, "sill_span", sill_span(n, 0, null(), 0, null(), 0, 0, 0, 0), no_span);
        let none_kept =
            Kept { refusal: refusals::BAD_TABLE, place: 0, nodes: 0, entries: 0, free_nodes: 0, free_entries: 0 };
        count(&mut tally, "sill_keep", sill_keep(w, 0, w, 0, w, 0, 0, 0, 0, w, 0), none_kept);
        count(&mut tally, "sill_keep_need", sill_keep_need(0, 0), 0);
        let more = sill_read_more(n, 0, w, 0, w, 0, w, 0, 1, 0, 0, 0);
        count(&mut tally, "sill_read_more", more, no_object);
        count(&mut tally, "sill_leaf", sill_leaf(n, 0, null(), 0, 0, 0), no_node);
        let bad_table = Written { refusal: refusals::BAD_TABLE, place: 0, written: 0 };
        count(&mut tally, "sill_write", sill_write(n, 0, null(), 0, null(), 0, 0, 0, 0, 1, m, 0), bad_table);
        let located = sill_locate_node(n, 0, null(), 0, 0, 0, 1, 0, w, 0);
        count(
            &mut tally,
            "sill_locate_node",
            located,
            Located { refusal: refusals::BAD_TABLE, whole: 0, ..no_instructions },
        );
    }
    tally.finish()
}

fn count<T: PartialEq + Debug>(tally: &mut Tally, name: &str, answered: T, expected: T) {
    let held = if answered == expected { Ok(()) } else { Err(format!("{name}: {answered:?} and not {expected:?}")) };
    tally.count("functions called with null and 0", held);
}
