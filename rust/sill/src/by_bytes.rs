//! What the bytes that two values are written as say of the values. Proved of the port: bytes that differ are of different
//! values, and equal bytes of the same value if every code object of both keeps the name order (`equal_means_equal` in
//! `crates/promises`). Whether it is kept is asked of the safe crate, whose answer is tested and not proved.
use crate::text;
use sillgarland::Golden;

pub enum Told {
    /// The bytes are equal, and so are the values.
    Same,
    /// The bytes differ from this one on, and so do the values.
    Different { from: usize },
    /// There are no bytes, or equal ones do not show that the values are the same: why.
    Nothing(String),
}

pub fn tell(left: Golden, right: Golden) -> Told {
    match (left.written(), right.written()) {
        (Ok(one), Ok(other)) if one != other => Told::Different { from: alike(&one, &other) },
        (Ok(_), Ok(_)) => [left, right].into_iter().find_map(out_of_order).map_or(Told::Same, Told::Nothing),
        (Err(refused), _) | (_, Err(refused)) => Told::Nothing(format!("it cannot be written: {refused}")),
    }
}

/// How many bytes two slices have in common before they differ or one of them ends.
pub fn alike(one: &[u8], other: &[u8]) -> usize {
    one.iter().zip(other).take_while(|(one, other)| one == other).count()
}

fn out_of_order(golden: Golden) -> Option<String> {
    let code = golden.code_objects().find(|code| code.out_of_name_order().is_some())?;
    Some(format!("the local names of code object {} are out of order", text::name(code.qualified_name())))
}
