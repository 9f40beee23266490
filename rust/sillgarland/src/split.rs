//! The local names of a code object by their kinds: arguments and locals, cells, free variables.
use crate::{Code, Refused};
use sillgarland_sys::refusals::NOTHING;

/// Positions in the list of local names, by kind. A name may be of several kinds.
#[derive(Clone, Debug, Default, PartialEq, Eq)]
pub struct Split {
    /// The arguments and local variables.
    pub locals: Vec<u32>,
    /// The variables that inner functions use.
    pub cells: Vec<u32>,
    /// The variables of outer functions.
    pub frees: Vec<u32>,
    /// For each name its number among the cells, or among the frees that follow them; Free wins over Cell.
    pub map: Vec<Option<u32>>,
    /// For each cell the argument that it is, if it is one; nothing at all where none is.
    pub cell_args: Option<Vec<Option<u32>>>,
}

/// Splits names by their kinds: a byte for each, Local 0x20, Cell 0x40, Free 0x80. Arguments, keyword-only arguments and flags say
/// which positions are arguments. [`Refusal::InvalidBytecode`](crate::Refusal::InvalidBytecode) where there are not as many kinds as names, and
/// [`Refusal::NumberRange`](crate::Refusal::NumberRange) where the arguments add up to 2^32 or more.
///
/// ```
/// let split = sillgarland::split(&[0x20, 0x60, 0x80], 3, 2, 0, 0)?;
/// assert_eq!((split.locals, split.cells, split.frees), (vec![0, 1], vec![1], vec![2]));
/// assert_eq!(split.map, [None, Some(0), Some(1)]);
/// assert_eq!(split.cell_args, Some(vec![Some(1)]));
/// # Ok::<(), sillgarland::Refused>(())
/// ```
pub fn split(kinds: &[u8], names: u32, args: u32, kwonly: u32, flags: u32) -> Result<Split, Refused> {
    let room = kinds.len().min(names as usize);
    let [mut locals, mut cells, mut frees, mut map, mut cell_args] = std::array::from_fn(|_| vec![0_u32; room]);
    // SAFETY: six slices of their own, each handed on by its pointer and its length.
    let answer = unsafe {
        sillgarland_sys::sill_split(
            kinds.as_ptr(),
            kinds.len(),
            names,
            args,
            kwonly,
            flags,
            locals.as_mut_ptr(),
            locals.len(),
            cells.as_mut_ptr(),
            cells.len(),
            frees.as_mut_ptr(),
            frees.len(),
            map.as_mut_ptr(),
            map.len(),
            cell_args.as_mut_ptr(),
            cell_args.len(),
        )
    };
    Refused::unless_accepted_in_bytes(answer.refusal, answer.place)?;
    let some = |numbers: Vec<u32>| numbers.into_iter().map(|n| (n != NOTHING).then_some(n)).collect();
    locals.truncate(answer.locals as usize);
    frees.truncate(answer.frees as usize);
    cells.truncate(answer.cells as usize);
    cell_args.truncate(answer.cells as usize);
    Ok(Split { locals, cells, frees, map: some(map), cell_args: (answer.present == 1).then(|| some(cell_args)) })
}

impl Code<'_> {
    /// Its local names by their kinds. A code object that was read has a kind for each name and arguments that add up, so nothing
    /// is refused here.
    pub fn split(&self) -> Split {
        let [args, _, kwonly, _, flags] = self.numbers();
        let names = self.local_names().len() as u32;
        split(self.kinds(), names, args, kwonly, flags).expect("a code object that was read is split")
    }
}

#[cfg(test)]
mod tests {
    use super::*;
    use crate::Reader;
    use crate::Refusal;
    use crate::code::tests::put_code;

    #[test]
    fn a_code_objects_names() {
        let input = put_code(1, &["a", "b", "c", "d"], &[0x20, 0x60, 0x40, 0x80], 1, &[0xF8]);
        let mut reader = Reader::new();
        let split = reader.read(&input).unwrap().root().as_code().unwrap().split();
        assert_eq!((split.locals, split.cells, split.frees), (vec![0, 1], vec![1, 2], vec![3]));
        assert_eq!(split.map, [None, Some(0), Some(1), Some(2)]);
        assert_eq!(split.cell_args, Some(vec![Some(1), None])); // one argument and two by keyword alone
    }

    #[test]
    fn refused_splits() {
        let refused = |kinds: &[u8], names, args| split(kinds, names, args, 1, 0).unwrap_err().refusal;
        assert_eq!(refused(&[0x20], 2, 0), Refusal::InvalidBytecode);
        assert_eq!(refused(&[0x20], u32::MAX, 0), Refusal::InvalidBytecode);
        assert_eq!(refused(&[0x20], 1, u32::MAX), Refusal::NumberRange);
        assert_eq!(split(&[], 0, 0, 0, 0), Ok(Split::default()));
    }
}
