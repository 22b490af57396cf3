//! The linked library's calls on a tally, as C makes them.
use super::{Counting, Share, Tally};
use crate::pool::Refusal;
use pagepool::raw;

fn unless_refused<T>(refusal: Refusal, accepted: T) -> Result<T, Refusal> {
    match refusal {
        0 => Ok(accepted),
        _ => Err(refusal),
    }
}

pub struct Library;

impl Counting for Library {
    fn add(&self, tally: &mut Tally, pages: &[u16]) -> Result<(), Refusal> {
        let Tally { head, counts } = tally;
        // SAFETY: each pointer is that of a slice of the length beside it, lent for the call alone.
        let added = unsafe {
            raw::pool_tally_add(*head, counts.as_mut_ptr(), counts.len(), pages.as_ptr(), pages.len())
        };
        *head = added.tally;
        unless_refused(added.refusal, ())
    }

    /// Refused, both numbers are 0.
    fn share(&self, tally: &Tally, size: u64) -> Result<Share, Refusal> {
        let Tally { head, counts } = tally;
        // SAFETY: as in `add`.
        let raw::Share { refusal, within, all } =
            unsafe { raw::pool_tally_share(*head, counts.as_ptr(), counts.len(), size) };
        assert!(refusal == 0 || (within, all) == (0, 0), "{within} of {all} beside refusal {refusal}");
        unless_refused(refusal, Share { within, all })
    }

    fn report(&self, tally: &Tally, hits: &mut [u64]) -> Result<(), Refusal> {
        let counts = &tally.counts;
        // SAFETY: as in `add`.
        let refusal =
            unsafe { raw::pool_tally_report(counts.as_ptr(), counts.len(), hits.as_mut_ptr(), hits.len()) };
        unless_refused(refusal, ())
    }
}
