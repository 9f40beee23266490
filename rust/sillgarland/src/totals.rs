//! Totals over many inputs: how many were accepted, how many refused, and by which refusal.
use crate::{Place, Refusal, Refused};
use sillgarland_sys::{COUNTERS, Totalled};
use std::fmt;

/// Exact counts over many inputs. Those of parts add up to those of the whole, so many machines may count.
///
/// ```
/// use sillgarland::{Refusal, Totals};
///
/// let night = Totals::default().counting(&[None, Some(Refusal::DataTooShort), None])?;
/// assert_eq!((night.inputs(), night.accepted(), night.refused()), (3, 2, 1));
/// assert_eq!(night.of(Refusal::DataTooShort), 1);
/// assert!(night.to_string().starts_with("inputs 3\naccepted 2\nrefused 1\nrefusal 1 0\nrefusal 2 1\n"));
/// assert_eq!(night.to_string().parse(), Ok(night));
/// # Ok::<(), sillgarland::Refused>(())
/// ```
#[derive(Clone, Copy, Debug, Default, PartialEq, Eq, Hash)]
pub struct Totals([u64; COUNTERS]);

impl Totals {
    /// These totals with the outcome of each input counted: nothing where it is accepted, else its refusal.
    /// [`Refusal::NumberRange`] where a total would pass 64 bits.
    pub fn counting(&self, outcomes: &[Option<Refusal>]) -> Result<Self, Refused> {
        let answers: Vec<u32> = outcomes.iter().map(|outcome| outcome.map_or(0, Refusal::number)).collect();
        let (before, mut after) = (&self.0, [0; COUNTERS]);
        // SAFETY: three slices of their own, each handed on by its pointer and its length.
        let answer = unsafe {
            sillgarland_sys::sill_totals(
                before.as_ptr(),
                before.len(),
                answers.as_ptr(),
                answers.len(),
                after.as_mut_ptr(),
                after.len(),
            )
        };
        accepted(answer).map(|()| Self(after))
    }

    /// Both totals together. [`Refusal::NumberRange`] where a total would pass 64 bits.
    pub fn plus(&self, other: &Self) -> Result<Self, Refused> {
        let (a, b, mut sum) = (&self.0, &other.0, [0; COUNTERS]);
        // SAFETY: three slices, of which two are only read, each handed on by its pointer and its length.
        let answer = unsafe {
            sillgarland_sys::sill_add_totals(a.as_ptr(), a.len(), b.as_ptr(), b.len(), sum.as_mut_ptr(), sum.len())
        };
        accepted(answer).map(|()| Self(sum))
    }

    /// How many inputs there were.
    pub fn inputs(&self) -> u64 {
        self.0[0]
    }

    /// How many of them were accepted.
    pub fn accepted(&self) -> u64 {
        self.0[1]
    }

    /// How many of them were refused.
    pub fn refused(&self) -> u64 {
        self.0[2]
    }

    /// How many of them by this refusal.
    pub fn of(&self, refusal: Refusal) -> u64 {
        self.0[2 + refusal.number() as usize]
    }
}

fn accepted(answer: Totalled) -> Result<(), Refused> {
    Refused::unless_accepted(answer.refusal, |refusal| match refusal {
        Refusal::NoRoom => Place::Room(answer.place),
        _ => Place::Byte(answer.place as usize),
    })
}

/// The longest form: 301 bytes of labels, and each count of 20 digits with its newline.
const LONGEST: usize = 301 + COUNTERS * 21;

/// The printed form: `inputs 3`, `accepted 2`, `refused 1`, then `refusal N COUNT`, each line ended by a newline.
impl fmt::Display for Totals {
    fn fmt(&self, f: &mut fmt::Formatter) -> fmt::Result {
        let mut out = [0; LONGEST];
        // SAFETY: two slices of their own, each handed on by its pointer and its length.
        let answer =
            unsafe { sillgarland_sys::sill_print_totals(self.0.as_ptr(), self.0.len(), out.as_mut_ptr(), out.len()) };
        let text = std::str::from_utf8(&out[..answer.written as usize]).map_err(|_| fmt::Error)?;
        f.write_str(text)
    }
}

/// What is no printed totals.
#[derive(Clone, Copy, PartialEq, Eq)]
pub struct NotTotals;

/// The sentence too: a `main` that ends with an error shows it in this form.
impl fmt::Debug for NotTotals {
    fn fmt(&self, f: &mut fmt::Formatter) -> fmt::Result {
        write!(f, "{self}")
    }
}

impl fmt::Display for NotTotals {
    fn fmt(&self, f: &mut fmt::Formatter) -> fmt::Result {
        f.write_str("these are no printed totals")
    }
}

impl std::error::Error for NotTotals {}

/// Printed totals as they were: any other text is [`NotTotals`], since what was read is printed again and compared.
impl std::str::FromStr for Totals {
    type Err = NotTotals;

    fn from_str(text: &str) -> Result<Self, NotTotals> {
        let mut totals = Self::default();
        let mut lines = text.lines();
        for counter in &mut totals.0 {
            let count = lines.next().and_then(|line| line.rsplit(' ').next()).ok_or(NotTotals)?;
            *counter = count.parse().map_err(|_| NotTotals)?;
        }
        if totals.to_string() == text { Ok(totals) } else { Err(NotTotals) }
    }
}

#[cfg(test)]
mod tests {
    use super::*;

    const CUT: Option<Refusal> = Some(Refusal::DataTooShort);

    #[test]
    fn parts_add_up_to_the_whole() {
        let all = [None, CUT, None, Some(Refusal::ValueTooLong), CUT];
        let whole = Totals::default().counting(&all).unwrap();
        assert_eq!((whole.inputs(), whole.accepted(), whole.refused()), (5, 2, 3));
        assert_eq!((whole.of(Refusal::DataTooShort), whole.of(Refusal::ValueTooLong)), (2, 1));
        for at in 0..=all.len() {
            let (one, other) = all.split_at(at);
            let [one, other] = [one, other].map(|part| Totals::default().counting(part).unwrap());
            assert_eq!(one.plus(&other), Ok(whole));
        }
    }

    #[test]
    fn what_would_pass_64_bits_is_refused() {
        let full = Totals([u64::MAX; COUNTERS]);
        let refused = Err(Refused { refusal: Refusal::NumberRange, place: Place::Byte(0) });
        assert_eq!((full.counting(&[]), full.counting(&[None])), (Ok(full), refused));
        assert_eq!((full.plus(&Totals::default()), full.plus(&full)), (Ok(full), refused));
        assert_eq!(full.to_string().len(), LONGEST);
        assert_eq!(full.to_string().parse(), Ok(full));
    }

    #[test]
    fn other_text_is_no_totals() {
        let text = Totals::default().to_string();
        assert_eq!(text.parse(), Ok(Totals::default()));
        let cut = &text[..text.len() - 1];
        let padded = text.replace("inputs 0", "inputs 00");
        let named = text.replace("refusal 3 ", "refusal 4 ");
        let longer = format!("{text}\n");
        let large = text.replace("inputs 0", "inputs 18446744073709551616");
        for other in ["", cut, &padded, &named, &longer, &large] {
            assert_eq!(other.parse::<Totals>(), Err(NotTotals), "{other}");
        }
    }
}
