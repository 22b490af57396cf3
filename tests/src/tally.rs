//! Request A.12, "How many frames to buy": the tally of recordings, its three calls behind one trait.
//!
//! - `model`: the request's sentences as a program; `cache`: the flat cache that it speaks of, which knows no depths.
//! - `host`, `package`: the linked library by its own calls, and through the package's functions and its struct.
//! - `lockstep`: one call on all of them, and what the request says of it.
//! - `recordings`, `damage`, `kinds`: what is added to what, and what was met.
pub mod cache;
pub mod damage;
#[cfg(feature = "host")]
pub mod host;
pub mod kinds;
pub mod lockstep;
pub mod model;
#[cfg(feature = "host")]
pub mod package;
pub mod recordings;

use crate::pool::Refusal;
pub use pagepool::{Share, TallyHead};
use std::fmt;

/// All that a call is handed: the head, and the counters that the host lends, by depth from 1 on.
#[derive(Clone, PartialEq, Eq)]
pub struct Tally {
    pub head: TallyHead,
    pub counts: Vec<u32>,
}

impl Tally {
    /// Of no recordings.
    pub fn empty() -> Tally {
        Tally { head: TallyHead { recordings: 0, references: 0 }, counts: vec![0; model::DEPTHS] }
    }

    /// What the counters come to.
    pub fn counted(&self) -> u64 {
        self.counts.iter().map(|count| u64::from(*count)).sum()
    }

    /// Where two tallies differ first, for a report.
    pub fn difference(&self, other: &Tally) -> Option<String> {
        if (self.head, self.counts.len()) != (other.head, other.counts.len()) {
            return Some(format!("tally, {self:?} and {other:?}"));
        }
        let place = self.counts.iter().zip(&other.counts).position(|(a, b)| a != b)?;
        Some(format!("counter {place}, {} and {}", self.counts[place], other.counts[place]))
    }
}

/// The counters by their number and their sum, which is what a fault needs.
impl fmt::Debug for Tally {
    fn fmt(&self, f: &mut fmt::Formatter) -> fmt::Result {
        let TallyHead { recordings, references } = self.head;
        let (counters, counted) = (self.counts.len(), self.counted());
        write!(f, "{recordings} recordings, {references} references, {counters} counters with {counted}")
    }
}

/// What the request asks of a tally.
pub trait Counting {
    /// Adds a recording.
    fn add(&self, tally: &mut Tally, pages: &[u16]) -> Result<(), Refusal>;
    /// The references at or below a size, and all.
    fn share(&self, tally: &Tally, size: u64) -> Result<Share, Refusal>;
    /// By depth from 1 on, the references at or below it, into numbers that are lent.
    fn report(&self, tally: &Tally, hits: &mut [u64]) -> Result<(), Refusal>;
}

#[cfg(feature = "host")]
pub use host::Library as UnderTest;
#[cfg(not(feature = "host"))]
pub use model::Model as UnderTest;
