//! Inputs at 01's limits: as deep as is read and deeper, and longer than is read.
use crate::nested::nested;
use crate::read::Ask;
#[cfg(carried)]
use sillgarland_sys::refusals::MOST_BYTES;
use sillgarland_sys::refusals::MOST_NESTING;

/// Containers and code in one another, so many levels, at the nesting they need, one less and one more.
pub fn deep_inputs(levels: &[u32]) -> impl Iterator<Item = Ask> {
    let (mut asks, most) = (Vec::new(), *levels.iter().max().unwrap_or(&0));
    for level in levels {
        for kind in 0..6 {
            let input = nested(*level as usize, kind);
            let nestings = if most < 100 { vec![level - 1, *level, level + 1] } else { vec![MOST_NESTING] };
            asks.extend(nestings.into_iter().map(|nesting| Ask { input: input.clone(), nesting }));
        }
    }
    asks.into_iter()
}

/// Beyond a limit of document 01: more bytes than are read.
#[cfg(carried)]
pub fn large_inputs() -> impl Iterator<Item = Ask> {
    let too_long = vec![b'N'; MOST_BYTES as usize + 1];
    [Ask { input: too_long, nesting: MOST_NESTING }].into_iter()
}
