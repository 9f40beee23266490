//! The limits of document 01, at them and one past them: bytes, records of each store, nesting; and the stack that the
//! deepest reading takes.
use crate::lent::{Lent, Part};
use crate::reading::{Reading, WIDTHS, read};
use crate::stores::leaf;
use crate::tally::Tally;
use crate::write_model::{self, Refused, Store};
use crate::writing::Source;
use sillgarland_sys::refusals::{self, MOST_BYTES, MOST_NESTING, MOST_RECORDS, NOTHING};
use sillgarland_sys::{Located, sill_locate_node};

pub fn hold() -> bool {
    let mut tally = Tally::new("limits");
    let most = MOST_RECORDS as usize;
    let fits = [b"[".as_slice(), &(MOST_RECORDS - 1).to_le_bytes(), &vec![b'N'; most - 1]].concat();
    record(&mut tally, "as many nodes as count", &fits, None);
    let nodes = [b"[".as_slice(), &MOST_RECORDS.to_le_bytes(), &vec![b'N'; most]].concat();
    record(&mut tally, "one node more", &nodes, Some((refusals::NO_NODE, 5 + most - 1)));
    let slots = [b"\xDB".as_slice(), &MOST_RECORDS.to_le_bytes(), &vec![0xCE; most]].concat();
    record(&mut tally, "one slot more", &slots, Some((refusals::NO_SLOT, 5 + most - 1)));
    let shared = [b"[".as_slice(), &(MOST_RECORDS + 1).to_le_bytes(), b"\xCE", &b"r\0\0\0\0".repeat(most)].concat();
    record(&mut tally, "one entry more", &shared, Some((refusals::NO_ENTRY, 6 + 5 * (most - 1))));
    let mut bytes = vec![b'N'; MOST_BYTES as usize];
    record(&mut tally, "as many bytes as are read", &bytes, None);
    bytes.push(b'N');
    record(&mut tally, "one byte more", &bytes, Some((refusals::INPUT_TOO_LONG, 0)));
    tally.count("one byte more: the leaf question, a node's line table", too_long(&Part::new(&bytes)));
    let none = [u32::from(b'N'), 0, 0, NOTHING, 0, 0, 0];
    let too_long = Store { input: &bytes, nodes: &none, entries: &[], used: [1, 0] };
    tally.count("one byte more: writing", written(&too_long, 0, Some((refusals::INPUT_TOO_LONG, 0))));
    let nodes = Store { input: &[], nodes: &none.repeat(most + 1), entries: &[], used: [u32::MAX; 2] };
    tally.count("writing the last node that counts", written(&nodes, MOST_RECORDS - 1, None));
    tally.count("one node more: writing", written(&nodes, MOST_RECORDS, Some((refusals::BAD_TABLE, most))));
    let of_one = |first: u32| [none, [u32::from(b')'), 0, 1, first, 1, 1, 0]].concat();
    let entries = [0, NOTHING].repeat(most + 1);
    for (class, first, refused) in [
        ("writing by the last entry that counts", MOST_RECORDS - 1, None),
        ("one entry more: writing", MOST_RECORDS, Some((refusals::BAD_TABLE, 1))),
    ] {
        let store = Store { input: &[1], nodes: &of_one(first), entries: &entries, used: [u32::MAX; 2] };
        tally.count(class, written(&store, 1, refused));
    }
    let deep = |levels: usize| [b")\x01".repeat(levels - 1), b"N".to_vec()].concat();
    let levels = MOST_NESTING as usize;
    record(&mut tally, "the deepest nesting, more allowed", &deep(levels), None);
    record(&mut tally, "one level more, though allowed", &deep(levels + 1), Some((refusals::TOO_DEEP, 2 * levels)));
    tally.finish()
}

/// Reads in stores with room for more records than count, with more nesting than counts.
fn record(tally: &mut Tally, class: &'static str, input: &[u8], refused: Option<(u32, usize)>) {
    let room = MOST_RECORDS as usize + 9;
    let Reading { answer, stores } = read(&Part::new(input), u32::MAX, [WIDTHS[0] * room, 2 * room, room]);
    let (number, place) = refused.unwrap_or((refusals::ACCEPTED, 0));
    let mut held = Ok(());
    if (answer.refusal, answer.place as usize) != (number, place) {
        held = Err(format!("{class}: {answer:?} and not {number} at {place}"));
    } else if refused.is_some() {
        held = stores.iter().try_for_each(|store| store.holds(class, &[]));
    }
    tally.count(class, held);
}

/// Writes as the model says, and as is said here.
fn written(store: &Store, root: u32, refused: Option<(u32, usize)>) -> Result<(), String> {
    let expected = write_model::write(store, root, MOST_NESTING, 9);
    let said = refused.map(|(number, place)| Refused { number, place: place as u32 });
    if expected.as_ref().err() != said.as_ref() {
        return Err(format!("the model says {expected:?} and not {said:?}"));
    }
    Source::new(store).hold((root, MOST_NESTING, 9), expected.as_deref().map_err(|refused| *refused))
}

fn too_long(part: &Part) -> Result<(), String> {
    let nodes = Lent::of(&[u32::from(b's'), 0, 0, refusals::NOTHING, 0, 0, 0]);
    let asked = leaf(part, &nodes, 1, 0);
    let (input, mut records) = (part.bytes(), Lent::new(4));
    // SAFETY: input and stores are lent for their lengths.
    let located = unsafe {
        let (nodes, len) = (nodes.cells().as_ptr(), nodes.cells().len());
        sill_locate_node(input.as_ptr(), input.len(), nodes, len, 1, 0, 1, 1, records.pointer(), records.len())
    };
    records.holds("records", &[])?;
    let refused = Located { refusal: refusals::INPUT_TOO_LONG, place: 0, from_entries: 0, whole: 0 };
    if (asked.refusal, asked.place) != (refusals::INPUT_TOO_LONG, 0) || located != refused {
        return Err(format!("{asked:?}, {located:?}"));
    }
    Ok(())
}
