//! The rules that refuse a call.
use std::error::Error;
use std::fmt;

/// Declares the rules, each with its number and its sentence.
macro_rules! rules {
    ($($name:ident = $number:literal, $sentence:literal;)*) => {
        /// The first rule that a call breaks. The rules stand in checking order, and compare by their numbers. `enum pool_refusal`
        /// of `include/pagepool.h` has the same.
        ///
        /// ```
        /// use pagepool::Refusal;
        /// assert_eq!(Refusal::NoFrame.number(), 15);
        /// assert_eq!(Refusal::try_from(15), Ok(Refusal::NoFrame));
        /// assert_eq!(Refusal::BadSlot.to_string(), "refused by rule 4: The slot is above 15.");
        /// ```
        #[derive(Clone, Copy, Debug, PartialEq, Eq, PartialOrd, Ord, Hash)]
        #[repr(u8)]
        pub enum Refusal {
            $(#[doc = $sentence] $name = $number,)*
        }

        impl Refusal {
            /// Every rule, in checking order.
            pub const ALL: &'static [Refusal] = &[$(Refusal::$name),*];

            /// The rule in words.
            pub const fn sentence(self) -> &'static str {
                match self {
                    $(Refusal::$name => $sentence,)*
                }
            }
        }
    };
}

rules! {
    WrongLength = 1, "A wrong length (frames, store, directory, counters, hits, recording), T or a ceiling out of its range, or a full tally.";
    Disagree = 2, "Records, frames, directory and ceilings don't agree, or a tally's references with its recordings or its counters.";
    BadStore = 28, "The store number isn't below T.";
    BadHandle = 3, "The handle's frame isn't below F or doesn't hold its page of its store, or that has no pins.";
    BadSlot = 4, "The slot is above 15.";
    BadRange = 5, "The offset is above 192, or the length above 192 - offset.";
    IsLocked = 26, "The handle's page is locked. To free it, unfix, evict and unlink it, and link it again without the mark.";
    BadPage = 6, "The page number isn't below N, is 0 in link, or is above 4,095 in a recording.";
    EmptySlot = 7, "Fix or unlink meets a word of 0.";
    AlreadyNamed = 9, "Link's page is named already, by a word of any page of its store.";
    FullSlot = 8, "Link meets a word that isn't 0.";
    Resident = 10, "Unlink's page is resident.";
    NotResident = 11, "Evict's page isn't resident.";
    IsRoot = 20, "Evict's page is the root. It never leaves its frame.";
    IsPinned = 21, "Evict's page is pinned. Unfix it until its pins are gone.";
    IsParent = 22, "Evict's page names a resident page. First evict the resident pages that it names.";
    TooManyPins = 13, "A resident page to be pinned has 65,535 pins.";
    BadStoredPage = 14, "The stored page to be loaded has words that it can't have: only after the store was altered from outside.";
    NoFrame = 15, "The store is below its ceiling, no frame is empty, and a sweep could take none.";
    AtCeiling = 27, "The store is at its ceiling, and has no page of its own that a sweep could take.";
    UnsoundStore = 16, "A store of open isn't sound: a word names no page below N, or a number stands in two words of it.";
}

impl Refusal {
    /// The rule's number.
    pub const fn number(self) -> u8 {
        self as u8
    }
}

impl fmt::Display for Refusal {
    fn fmt(&self, f: &mut fmt::Formatter) -> fmt::Result {
        write!(f, "refused by rule {}: {}", self.number(), self.sentence())
    }
}

impl Error for Refusal {}

/// A number that is no rule's, which the library never answers.
#[derive(Clone, Copy, Debug, PartialEq, Eq)]
pub struct NoRule(pub u8);

impl fmt::Display for NoRule {
    fn fmt(&self, f: &mut fmt::Formatter) -> fmt::Result {
        write!(f, "{} is no rule's number", self.0)
    }
}

impl Error for NoRule {}

impl TryFrom<u8> for Refusal {
    type Error = NoRule;

    fn try_from(number: u8) -> Result<Refusal, NoRule> {
        Refusal::ALL.iter().copied().find(|rule| rule.number() == number).ok_or(NoRule(number))
    }
}

/// What an accepted call gives, or the rule that refused it, by the number in a raw answer.
///
/// # Panics
///
/// With a number that is no rule's: then the archive is another than this package was written for.
pub(crate) fn unless_refused<T>(number: u8, accepted: T) -> Result<T, Refusal> {
    match number {
        0 => Ok(accepted),
        _ => Err(Refusal::try_from(number).expect("the archive is the package's own")),
    }
}
