//! What was written, read again: the same value as 01 has it, down to the names of codes that are out of name order; and
//! written again, the same bytes.
use crate::lent::Part;
use crate::reading::{ample, of_digits, read};
use crate::write_model::{Node, Store};
use crate::writing::Source;
use sillgarland_sys::refusals::{ACCEPTED, INVALID_BYTECODE, MOST_BYTES, MOST_NESTING};

/// How a writing comes back.
#[derive(Clone, Copy, PartialEq, Eq)]
pub enum Back {
    /// Every code keeps the name order: the same value, and written again the same bytes.
    Same,
    /// Some code is out of name order: read again, its names are those written, some in the place of others.
    Reordered,
    /// Some code is out of name order, and has not as many names written as kinds: refused 8 at that code.
    Unreadable,
}

/// What reading the written bytes of this node gives: the worst that one of its codes asks for.
pub fn expected_back(store: &Store, number: u32) -> Back {
    let Some(node) = store.node(number) else { return Back::Same };
    if node.letter != b'c' {
        return worst(store.children(&node).map(|child| expected_back(store, child)));
    }
    let Some(code) = store.code(&node) else { return Back::Same };
    let own = if store.keeps_name_order(&code) {
        Back::Same
    } else if store.written_names(&code).len() == store.kinds(&code).len() {
        Back::Reordered
    } else {
        Back::Unreadable
    };
    worst([own, expected_back(store, code.parts[1])].into_iter())
}

fn worst(backs: impl Iterator<Item = Back>) -> Back {
    backs.max_by_key(|back| *back as u8).unwrap_or(Back::Same)
}

/// Reads what was written of a node, and holds it to what is expected of it. More bytes than are read are left alone.
pub fn hold_back(store: &Store, root: u32, written: &[u8]) -> Result<(), String> {
    if written.len() > MOST_BYTES as usize {
        return Ok(());
    }
    let reading = read(&Part::new(written), MOST_NESTING, ample(written));
    let (answer, expected) = (reading.answer, expected_back(store, root));
    if expected == Back::Unreadable {
        let refused = answer.refusal == INVALID_BYTECODE && written.get(answer.place as usize) == Some(&b'c');
        return if refused { Ok(()) } else { Err(format!("read again: {answer:?} and not 8 at a code")) };
    }
    if answer.refusal != ACCEPTED || answer.consumed as usize != written.len() {
        return Err(format!("read again: {answer:?}"));
    }
    let again = Source::of_reading(written, &reading);
    if !is_same((store, root), (&again.store(), 0)) {
        return Err("read again: another value".to_string());
    }
    if expected == Back::Reordered {
        return Ok(());
    }
    again.hold((0, MOST_NESTING, written.len()), Ok(written)).map_err(|fault| format!("written again: {fault}"))
}

type Place<'a> = (&'a Store<'a>, u32);

/// "same numbers, float bits, bytes and strings, same kind and sequence of children, code parts alike with first line 0
/// or less as 0"; of local names, those that the first writes.
fn is_same((a, a_root): Place, (b, b_root): Place) -> bool {
    let (Some(node), Some(other)) = (a.node(a_root), b.node(b_root)) else {
        return false;
    };
    if kind(&node) != kind(&other) {
        return false;
    }
    match kind(&node) {
        b'i' => whole(a.contents(&node), node.letter) == whole(b.contents(&other), other.letter),
        b'u' | b's' | b'g' | b'y' => a.contents(&node) == b.contents(&other),
        b'c' => is_same_code((a, &node), (b, &other)),
        _ => node.count == other.count && are_same((a, a.children(&node)), (b, b.children(&other))),
    }
}

fn are_same(
    (a, these): (&Store, impl IntoIterator<Item = u32>),
    (b, those): (&Store, impl IntoIterator<Item = u32>),
) -> bool {
    these.into_iter().zip(those).all(|(this, that)| is_same((a, this), (b, that)))
}

fn is_same_code((a, node): (&Store, &Node), (b, other): (&Store, &Node)) -> bool {
    let (Some(this), Some(that)) = (a.code(node), b.code(other)) else {
        return false;
    };
    let (written, stored) = (a.written_names(&this), b.stored_names(&that));
    let in_order = a.keeps_name_order(&this);
    // In name order what is written is what is stored.
    let kept = !in_order || are_same((a, written.iter().copied()), (a, a.stored_names(&this)));
    let named = kept && written.len() == stored.len() && are_same((a, written), (b, stored));
    let others = [0, 1, 2, 4, 5, 6, 7, 8, 9];
    let alike = others.iter().all(|i| is_same((a, this.parts[*i]), (b, that.parts[*i])));
    this.numbers == that.numbers && this.first_line == that.first_line && named && alike
}

/// Integer, string and tuple letters do not count.
fn kind(node: &Node) -> u8 {
    match node.letter {
        b'i' | b'I' | b'l' => b'i',
        b'u' | b't' | b'a' | b'A' | b'z' | b'Z' => b'u',
        b'(' | b')' => b'(',
        other => other,
    }
}

/// Sign and magnitude, least byte first, without zeros at the end.
fn whole(contents: &[u8], letter: u8) -> (bool, Vec<u8>) {
    let negative = match letter {
        b'l' => contents[3] & 0x80 != 0,
        _ => contents[contents.len() - 1] & 0x80 != 0,
    };
    let mut magnitude = if letter == b'l' { of_digits(&contents[4..]) } else { of_twos_complement(contents, negative) };
    while magnitude.last() == Some(&0) {
        magnitude.pop();
    }
    (negative && !magnitude.is_empty(), magnitude)
}

fn of_twos_complement(contents: &[u8], negative: bool) -> Vec<u8> {
    let mut eight = [if negative { 0xFF } else { 0 }; 8];
    eight[..contents.len()].copy_from_slice(contents);
    i64::from_le_bytes(eight).unsigned_abs().to_le_bytes().to_vec()
}
