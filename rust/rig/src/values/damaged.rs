//! Values made by the grammar or by CPython, as they are and damaged.
use super::maker::Maker;
use super::short::LETTERS;
use crate::random::Random;
use crate::read::Ask;
use sillgarland_sys::refusals::MOST_NESTING;

/// Values by the grammar; two of three damaged; some with bytes after them.
pub fn random_inputs(seed: u64, count: usize) -> impl Iterator<Item = Ask> {
    let mut random = Random::new(seed);
    (0..count).map(move |_| {
        let mut maker = Maker::new(&mut random);
        let levels = maker.random.one_of(&[1, 2, 3, 3, 4, 5]);
        if maker.random.below(3) == 0 {
            maker.code(levels)
        } else {
            maker.value(levels)
        }
        let mut input = maker.made();
        for _ in 0..random.one_of(&[0, 0, 1, 1, 2, 3]) {
            damage(&mut random, &mut input);
        }
        if random.below(4) == 0 {
            (0..random.below(6)).for_each(|_| input.push(random.byte()));
        }
        let nesting = if random.below(3) == 0 { 1 + random.below(7) as u32 } else { MOST_NESTING };
        Ask { input, nesting }
    })
}

/// The two values of a golden: mostly a code and a value, as they are made or damaged.
pub fn random_pair(random: &mut Random) -> [Vec<u8>; 2] {
    let firsts = [true, true, true, true, true, true, true, false];
    let kinds = [random.one_of(&firsts), random.below(4) == 0];
    kinds.map(|code| {
        let mut maker = Maker::new(random);
        let levels = maker.random.one_of(&[1, 2, 3, 3, 4]);
        if code {
            maker.code(levels)
        } else {
            maker.value(levels)
        }
        let mut value = maker.made();
        if random.below(12) == 0 {
            damage(random, &mut value);
        }
        value
    })
}

/// Each module as CPython marshalled it, and the same damaged.
#[cfg(carried)]
pub fn of_modules(modules: &[Ask], seed: u64) -> impl Iterator<Item = Ask> {
    let mut random = Random::new(seed);
    modules.iter().flat_map(move |ask| {
        let mut damaged = ask.clone();
        damage(&mut random, &mut damaged.input);
        [ask.clone(), damaged]
    })
}

/// Cut, a byte changed, taken out or put in, a run copied elsewhere, a length or index of four bytes replaced.
fn damage(random: &mut Random, input: &mut Vec<u8>) {
    let at = random.below(input.len() + 1);
    let letter = random.one_of(LETTERS) | random.one_of(&[0, 0x80]);
    match random.below(7) {
        0 => input.truncate(at),
        1 => input.insert(at, letter),
        2 if at < input.len() => input[at] = random.byte(),
        3 if at < input.len() => input[at] = letter,
        4 if at < input.len() => drop(input.remove(at)),
        5 if at + 4 <= input.len() => {
            let number = random.one_of(&[0, 1, 2, 255, 65_535, 0x7FFF_FFFF, 0x8000_0000, 0xFFFF_FFFF]);
            input[at..at + 4].copy_from_slice(&u32::to_le_bytes(number));
        }
        _ => {
            let run = input[at..(at + random.below(12)).min(input.len())].to_vec();
            let to = random.below(input.len() + 1);
            input.splice(to..to, run);
        }
    }
}
