//! Questions for the readers: every short input, longer ones over a small alphabet, and values and code objects made by
//! the grammar, as they are and damaged; here they are put together for each who asks.
mod codes;
mod damaged;
mod extreme;
mod maker;
mod maker_code;
mod sheets;
mod short;

#[cfg(carried)]
use crate::read::Ask;
use codes::code_faults;
#[cfg(carried)]
pub use codes::code_strings;
#[cfg(carried)]
use damaged::of_modules;
pub use damaged::{random_inputs, random_pair};
use extreme::deep_inputs;
#[cfg(carried)]
use extreme::large_inputs;
use sheets::sheets;
#[cfg(carried)]
pub use short::ROUNDS;
use short::{NARROW, WIDE, all_over, bytes_of};
#[cfg(carried)]
use short::{share_over, short_inputs};
#[cfg(carried)]
use sillgarland_sys::refusals::MOST_NESTING;

/// Of the short form: every input of up to three bytes, of four over the wide alphabet, of five over twenty symbols, of six
/// over sixteen; and so many made by the grammar.
#[cfg(carried)]
pub fn asks(random: usize, modules: &[Ask]) -> impl Iterator<Item = Ask> {
    let little = all_over(&WIDE, 4).step_by(37).enumerate().map(|(i, ask)| Ask { nesting: 1 + i as u32 % 4, ..ask });
    sheets()
        .chain(code_faults())
        .chain(short_inputs())
        .chain(all_over(&WIDE, 4))
        .chain(little)
        .chain(all_over(&NARROW, 5))
        .chain(all_over(&NARROW[..16], 6))
        .chain(deep_inputs(&[1990, 1999, 2000, 2001]))
        .chain(large_inputs())
        .chain(random_inputs(7, random))
        .chain(of_modules(modules, 9))
}

/// Of one round of the long form.
#[cfg(carried)]
pub fn asks_of_round(round: u64, random: usize, modules: &[Ask]) -> impl Iterator<Item = Ask> {
    let seed = 1000 + round;
    share_over(&WIDE, 5, round)
        .chain(share_over(&NARROW, 6, round))
        .chain(random_inputs(seed, random))
        .chain(of_modules(modules, seed))
}

/// For the sweeps of rooms: short inputs, some longer ones, deep ones, faults of code, and so many made by the grammar.
pub fn inputs_to_sweep(seed: u64, random: usize) -> impl Iterator<Item = Vec<u8>> {
    let short = (0..=2).flat_map(|len| (0..1usize << (8 * len)).map(move |number| bytes_of(number, len)));
    let longer = all_over(&WIDE, 4).step_by(101).chain(all_over(&NARROW, 6).step_by(401));
    let made = sheets().chain(code_faults()).chain(longer).chain(deep_inputs(&[1, 2, 7, 1999, 2000, 2001, 2002]));
    let asks = made.chain(random_inputs(seed, random));
    short.chain(asks.map(|ask| ask.input))
}

/// A selection of the above for the list in the repository.
#[cfg(carried)]
pub fn asks_to_list() -> impl Iterator<Item = Ask> {
    let inputs = short_inputs().step_by(40_009);
    let longer = all_over(&WIDE, 4).step_by(50_021).chain(all_over(&NARROW, 6).step_by(210_011));
    let nestings = [MOST_NESTING, 1, MOST_NESTING, 2, 3, MOST_NESTING + 1, 4];
    let longer = longer.enumerate().map(move |(i, ask)| Ask { nesting: nestings[i % nestings.len()], ..ask });
    let deep = deep_inputs(&[6, 7, 8]).filter(|ask| ask.nesting < MOST_NESTING);
    sheets()
        .chain(code_faults())
        .chain(inputs)
        .chain(longer)
        .chain(deep)
        .chain(random_inputs(8, 3000).filter(|ask| ask.input.len() < 250))
}

/// Of the above, what may be read and so written; a short input that starts otherwise is not whole.
#[cfg(carried)]
pub fn asks_of_the_writer(random: usize, modules: &[Ask]) -> impl Iterator<Item = Ask> {
    let may_be_whole = |ask: &Ask| ask.input.first().is_some_and(|byte| b"NFTS.zZ){".contains(&(byte & 0x7F)));
    let some = short_inputs().chain(all_over(&WIDE, 4)).chain(all_over(&NARROW[..16], 6).step_by(7));
    sheets()
        .chain(code_faults())
        .chain(code_strings())
        .chain(some.filter(may_be_whole))
        .chain(deep_inputs(&[1990, 1999, 2000]))
        .chain(random_inputs(14, random))
        .chain(of_modules(modules, 9))
}
