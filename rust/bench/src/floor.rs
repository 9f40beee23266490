//! The floor under any reader that fills the port's stores: it clears them, skips each value of a tuple or a list by its
//! length and writes the same records, and checks nothing at all. It reads only inputs that are known to be such a row of
//! plain values, so it is no reader; how near the port comes to it says what its checks cost.
use crate::read::{NODE, Stores};

/// What stands in a record where there is nothing.
const NOTHING: u32 = u32::MAX;

/// Whether the input is a tuple or a list with a length of four bytes whose first value is a string or an integer. Those that
/// the bench makes hold one kind of value.
pub fn is_flat(input: &[u8]) -> bool {
    matches!(input, [b'(' | b'[', _, _, _, _, b'z' | b'u' | b'i', ..])
}

/// Fills the stores with the records of a flat input, which have to be just long enough for it.
pub fn fill(input: &[u8], stores: &mut Stores) {
    stores.nodes.fill(0);
    stores.entries.fill(0);
    stores.slots.fill(0);
    let nodes = stores.nodes.as_mut_ptr();
    let entries = stores.entries.as_mut_ptr();
    let count = word(input, 1);
    let mut at = 5;
    for entry in 0..count {
        // SAFETY: the input is a row of `count` whole values, and the stores hold a node and an entry for each, after the row's.
        unsafe {
            let letter = *input.get_unchecked(at);
            let (place, size) = match letter {
                b'z' => (at + 2, u32::from(*input.get_unchecked(at + 1))),
                b'i' => (at + 1, 4),
                _ => (at + 5, word(input, at + 1)),
            };
            let node = nodes.add(NODE * (entry as usize + 1));
            node.write(u32::from(letter));
            node.add(1).write(place as u32);
            node.add(2).write(size);
            node.add(3).write(NOTHING);
            node.add(4).write(0);
            node.add(5).write(place as u32 + size);
            node.add(6).write(0);
            let cell = entries.add(2 * entry as usize);
            cell.write(entry + 1);
            cell.add(1).write(if entry + 1 == count { NOTHING } else { entry + 1 });
            at = place + size as usize;
        }
    }
    let first = if count == 0 { NOTHING } else { 0 };
    stores.nodes[..NODE].copy_from_slice(&[u32::from(input[0]), 1, 4, first, count, at as u32, 0]);
}

/// The little-endian word at a place, which is not checked.
fn word(input: &[u8], at: usize) -> u32 {
    // SAFETY: asked of places that a whole value covers.
    u32::from_le(unsafe { input.as_ptr().add(at).cast::<u32>().read_unaligned() })
}
