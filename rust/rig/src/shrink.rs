//! Smaller inputs, to try where one shows a difference: with a run of bytes taken out, long runs first; then with a byte zero.

pub fn smaller(input: &[u8]) -> impl Iterator<Item = Vec<u8>> {
    let len = input.len();
    let runs = [len / 2, len / 4, len / 8, 2, 1].into_iter().filter(move |run| *run > 0 && *run <= len);
    let cuts = runs.flat_map(move |run| (0..=len - run).map(move |start| (start, run)));
    let without = |(start, run): (usize, usize)| [&input[..start], &input[start + run..]].concat();
    let with_zero = |at: usize| [&input[..at], &[0], &input[at + 1..]].concat();
    let zeroed = (0..len).filter(|at| input[*at] != 0).map(with_zero);
    cuts.take(10_000).map(without).chain(zeroed.take(10_000))
}

/// The smallest input found that shows a difference, and the difference, given one that does.
pub fn smallest(input: &[u8], difference: String, differs: impl Fn(&[u8]) -> Result<(), String>) -> String {
    let (mut input, mut difference) = (input.to_vec(), difference);
    loop {
        let found = smaller(&input).find_map(|less| differs(&less).err().map(|shown| (less, shown)));
        match found {
            None => return difference,
            Some(less) => (input, difference) = less,
        }
    }
}
