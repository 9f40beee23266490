//! The refusals of documents 01 and 02: number, name and place, and what each means for the person whose file was refused.
use sillgarland_sys::refusals::LAST_NUMBER;
use std::fmt;

macro_rules! refusals {
    ($($constant:ident $name:ident = $number:literal,)*) => {
        /// Why nothing was read, written or located; the numbers and names are those of documents 01 and 02.
        #[allow(missing_docs)] // each is explained by its `meaning`
        #[derive(Clone, Copy, Debug, PartialEq, Eq, PartialOrd, Ord, Hash)]
        pub enum Refusal {
            $($name = $number,)*
        }

        /// Every refusal, in the order of the numbers.
        const ALL: [Refusal; LAST_NUMBER as usize] = [$(Refusal::$name,)*];
    };
}
sillgarland_sys::each_refusal!(refusals);

impl Refusal {
    /// The refusal that a number stands for; 0 means accepted and is none.
    ///
    /// ```
    /// use sillgarland::Refusal;
    /// assert_eq!(Refusal::of_number(9), Some(Refusal::InvalidUtf8));
    /// assert_eq!(Refusal::of_number(0), None);
    /// ```
    pub fn of_number(number: u32) -> Option<Self> {
        let at = usize::try_from(number).ok()?.checked_sub(1)?;
        ALL.get(at).copied()
    }

    /// Its number in documents 01 and 02.
    pub fn number(self) -> u32 {
        self as u32
    }

    /// What is wrong at the place of the refusal, and what is expected there.
    pub fn meaning(self) -> &'static str {
        match self {
            Refusal::EofObject => "a value is expected here, and the input ends",
            Refusal::DataTooShort => "the field that starts here is cut: the input ends inside it",
            Refusal::UnknownType => "a type letter is expected here, and this byte is none",
            Refusal::NullObject => "a value is expected here, and a null stands here (it may only end a dict)",
            Refusal::InvalidRef => {
                "a reference to a value that is already complete is expected here, and this one names none"
            }
            Refusal::BadSize => "a length is expected here, and this one is negative",
            Refusal::BadType => {
                "this part of a code object is not of the type that belongs here (bytes, tuple, names, string)"
            }
            Refusal::InvalidBytecode => {
                "a sound digit or code object is expected here: a digit is below 32,768 and the last one not 0; \
                 a code object has as many kinds as local names and an even number of code bytes"
            }
            Refusal::InvalidUtf8 => "the text that starts here is not UTF-8 (surrogates would be allowed)",
            Refusal::TooDeep => "the value here is nested more than 2,000 levels deep",
            Refusal::NoNode => "the value that starts here is one too many: 1,048,576 fit in one reading",
            Refusal::NoEntry => "the child that starts here is one too many: 1,048,576 fit in one reading",
            Refusal::NoSlot => "the shared value that starts here is one too many: 1,048,576 fit in one reading",
            Refusal::InputTooLong => "the input is longer than 16,777,216 bytes",
            Refusal::NotCarried => "a float written as decimal digits (letter f or x) stands here; these are not read",
            Refusal::BadTable => "the stores hold no sound record of this node",
            Refusal::NoRoom => "what is written does not fit",
            Refusal::NumberRange => {
                "a number here leaves its range: a code object's argument counts add up to 2^32 or more, \
                 a line table's entry has a number of 2^32 or more or steps to a line out of 32 bits, \
                 or an exception table's number is 2^32 or more or its depth 2^31 or more"
            }
            Refusal::NoMarker => "an entry of an exception table is expected here, and this byte has no start marker",
            Refusal::NoSuchStart => "no instruction or start of a row has this number",
            Refusal::AlreadyEnded => "this reading by piece has ended, or its state is none that a call leaves",
            Refusal::RepeatedTag => "the field that starts here has the tag of a field before it",
            Refusal::NoSuchField => {
                "the field or edition that is asked for is not there, or a file to be saved has none or one that is \
                 saved already"
            }
            Refusal::NotJoined => {
                "both line tables must be whole, and the second must start from the line that the first leaves"
            }
            Refusal::TrailingBytes => "the golden's values end here, and bytes follow",
            Refusal::ValueTooLong => {
                "the value that starts here is longer than 65,535 bytes, the most that a field holds"
            }
        }
    }
}

/// Number and name: `9 InvalidUtf8`.
impl fmt::Display for Refusal {
    fn fmt(&self, f: &mut fmt::Formatter) -> fmt::Result {
        write!(f, "{} {self:?}", self.number())
    }
}

/// Where a refusal stands.
#[derive(Clone, Copy, Debug, PartialEq, Eq, Hash)]
pub enum Place {
    /// A byte of the input, counted from its start.
    Byte(usize),
    /// A node of the stores, by its number.
    Node(u32),
    /// No place in the input: this much room was lent, and it does not do.
    Room(u32),
}

impl fmt::Display for Place {
    fn fmt(&self, f: &mut fmt::Formatter) -> fmt::Result {
        match self {
            Place::Byte(at) => write!(f, "byte {at}"),
            Place::Node(number) => write!(f, "node {number}"),
            Place::Room(room) => write!(f, "room for {room}"),
        }
    }
}

/// A refusal and its place. Shown, also by a `main` that ends with it, it is a sentence.
#[derive(Clone, Copy, PartialEq, Eq, Hash)]
pub struct Refused {
    /// Which.
    pub refusal: Refusal,
    /// Where.
    pub place: Place,
}

impl Refused {
    /// The answer of a call as a result: its number, and its place by what places mean in that call.
    pub(crate) fn unless_accepted(number: u32, place: impl FnOnce(Refusal) -> Place) -> Result<(), Self> {
        match Refusal::of_number(number) {
            None => Ok(()),
            Some(refusal) => Err(Self { refusal, place: place(refusal) }),
        }
    }

    /// Where a place is a byte of the input, and of [`Refusal::NoRoom`] the room that there is.
    pub(crate) fn unless_accepted_in_bytes(number: u32, place: u32) -> Result<(), Self> {
        Self::unless_accepted(number, |refusal| match refusal {
            Refusal::NoRoom => Place::Room(place),
            _ => Place::Byte(place as usize),
        })
    }

    /// The same refusal in an input that has `before` more bytes at its front.
    pub fn after(self, before: usize) -> Self {
        match self.place {
            Place::Byte(at) => Self { place: Place::Byte(at + before), ..self },
            _ => self,
        }
    }
}

/// Number, name, place and meaning, on one line.
impl fmt::Display for Refused {
    fn fmt(&self, f: &mut fmt::Formatter) -> fmt::Result {
        let before = if matches!(self.place, Place::Room(_)) { "with" } else { "at" };
        write!(f, "{} {before} {}: {}", self.refusal, self.place, self.refusal.meaning())
    }
}

/// The sentence too: a `main` that ends with an error shows it in this form.
impl fmt::Debug for Refused {
    fn fmt(&self, f: &mut fmt::Formatter) -> fmt::Result {
        write!(f, "{self}")
    }
}

impl std::error::Error for Refused {}

#[cfg(test)]
mod tests {
    use super::*;
    use sillgarland_sys::refusals;

    #[test]
    fn each_number_gives_the_refusal_of_that_number() {
        for number in 1..=LAST_NUMBER {
            assert_eq!(Refusal::of_number(number).unwrap().number(), number);
        }
        assert_eq!(Refusal::of_number(refusals::ACCEPTED), None);
        assert_eq!(Refusal::of_number(LAST_NUMBER + 1), None);
        assert_eq!(Refusal::of_number(u32::MAX), None);
    }

    #[test]
    fn numbers_are_those_of_the_port() {
        for (_, name, number) in refusals::TABLE {
            assert_eq!(Refusal::of_number(*number).unwrap().to_string(), format!("{number} {name}"));
        }
        assert_eq!(Refusal::EofObject.number(), 1);
        assert_eq!(Refusal::NoMarker.number(), 19);
        assert_eq!(Refusal::ValueTooLong.number(), LAST_NUMBER);
    }

    #[test]
    fn one_line_for_people() {
        let told = |refusal, place| Refused { refusal, place }.to_string();
        assert_eq!(
            told(Refusal::BadSize, Place::Byte(1)),
            "6 BadSize at byte 1: a length is expected here, and this one is negative"
        );
        assert_eq!(
            told(Refusal::BadTable, Place::Node(3)),
            "16 BadTable at node 3: the stores hold no sound record of this node"
        );
        assert_eq!(told(Refusal::NoRoom, Place::Room(9)), "17 NoRoom with room for 9: what is written does not fit");
    }

    #[test]
    fn only_bytes_move() {
        let at = |place| Refused { refusal: Refusal::TooDeep, place }.after(7).place;
        assert_eq!(at(Place::Byte(3)), Place::Byte(10));
        assert_eq!(at(Place::Node(3)), Place::Node(3));
        assert_eq!(at(Place::Room(3)), Place::Room(3));
    }
}
