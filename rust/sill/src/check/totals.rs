//! Totals by verdict.
use super::findings::Verdict;
use crate::{Outcome, text};

/// How many files came to each verdict; a path in trouble is no file that was read.
#[derive(Clone, Copy, Debug, Default)]
pub struct Totals([usize; Verdict::ALL.len()]);

impl Totals {
    pub fn add(&mut self, verdict: Verdict) {
        self.0[verdict as usize] += 1;
    }

    pub fn of(&self, verdict: Verdict) -> usize {
        self.0[verdict as usize]
    }

    /// Files that were read.
    pub fn files(&self) -> usize {
        self.paths() - self.of(Verdict::Trouble)
    }

    pub fn paths(&self) -> usize {
        self.0.iter().sum()
    }

    /// Every verdict by its name, with its count.
    pub fn named(&self) -> impl Iterator<Item = (&'static str, usize)> {
        Verdict::ALL.into_iter().map(|verdict| (verdict.name(), self.of(verdict)))
    }

    pub fn outcome(&self) -> Outcome {
        let met = Verdict::ALL.into_iter().filter(|verdict| self.of(*verdict) > 0);
        met.map(Verdict::outcome).max().unwrap_or(Outcome::Good)
    }
}

impl std::fmt::Display for Totals {
    fn fmt(&self, f: &mut std::fmt::Formatter) -> std::fmt::Result {
        let [accepted, no_place, not_whole, refused, trouble] = self.0;
        let files = text::count(self.files(), "file");
        write!(f, "{files}: {accepted} accepted, {not_whole} not whole, {refused} refused")?;
        if no_place > 0 {
            write!(f, ", {no_place} without a place at the end")?;
        }
        if trouble > 0 { write!(f, "; {}", text::count(trouble, "trouble")) } else { Ok(()) }
    }
}
