//! Stands in for itertools: `process_results`, which runs a closure over the values of an iterator of results and stops
//! at the first error, and `format`, which shows an iterator's items with a separator.
#![no_std]

use core::cell::Cell;
use core::fmt;

/// Yields the values until an error comes, which it puts aside.
pub struct ProcessResults<'a, I, E> {
    results: I,
    error: &'a mut Option<E>,
}

impl<I, T, E> Iterator for ProcessResults<'_, I, E>
where
    I: Iterator<Item = Result<T, E>>,
{
    type Item = T;

    fn next(&mut self) -> Option<T> {
        match self.results.next()? {
            Ok(value) => Some(value),
            Err(error) => {
                *self.error = Some(error);
                None
            }
        }
    }
}

pub fn process_results<I, T, E, F, R>(results: I, work: F) -> Result<R, E>
where
    I: IntoIterator<Item = Result<T, E>>,
    F: FnOnce(ProcessResults<'_, I::IntoIter, E>) -> R,
{
    let mut error = None;
    let answer = work(ProcessResults { results: results.into_iter(), error: &mut error });
    match error {
        None => Ok(answer),
        Some(error) => Err(error),
    }
}

pub trait Itertools: Iterator {
    fn format(self, separator: &str) -> Format<'_, Self>
    where
        Self: Sized,
    {
        Format { separator, items: Cell::new(Some(self)) }
    }
}

impl<I: Iterator> Itertools for I {}

/// Shown once: the items are used up by it.
pub struct Format<'a, I> {
    separator: &'a str,
    items: Cell<Option<I>>,
}

impl<I> fmt::Display for Format<'_, I>
where
    I: Iterator,
    I::Item: fmt::Display,
{
    fn fmt(&self, f: &mut fmt::Formatter<'_>) -> fmt::Result {
        for (i, item) in self.items.take().into_iter().flatten().enumerate() {
            if i > 0 {
                f.write_str(self.separator)?;
            }
            item.fmt(f)?;
        }
        Ok(())
    }
}

#[cfg(test)]
mod tests {
    use super::process_results;

    #[test]
    fn stops_at_the_first_error() {
        let mut taken = 0;
        let results = [Ok(1), Ok(2), Err("bad"), Ok(4)].into_iter().inspect(|_| taken += 1);
        assert_eq!(process_results(results, |values| values.sum::<i32>()), Err("bad"));
        assert_eq!(taken, 3);
        assert_eq!(process_results([Ok::<_, ()>(1), Ok(2)], |values| values.sum::<i32>()), Ok(3));
    }
}
