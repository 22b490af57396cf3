//! The sentences of request A.12 as a program: a depth by the set of the pages since the last reference.
use super::{Counting, Share, Tally};
use crate::pool::Refusal;
use std::collections::HashSet;

/// "Report each depth from 1 to 4,095"
pub const DEPTHS: usize = 4095;
/// "recorded fixes, 1 to 4,096 page numbers each"
pub const MOST_REFERENCES: usize = 4096;
/// "summed over up to 65,535 recordings"
pub const MOST_RECORDINGS: u16 = 65_535;
/// "a page above 4,095"
pub const LAST_PAGE: u16 = 4095;

/// "The depth of a reference is 1 plus the count of different other pages since the last one to the same page; a first reference
/// in its recording has none."
pub fn depth(recording: &[u16], reference: usize) -> Option<usize> {
    let page = recording[reference];
    let last = (0..reference).rev().find(|earlier| recording[*earlier] == page)?;
    let since = &recording[last + 1..reference];
    let others: HashSet<u16> = since.iter().copied().filter(|other| *other != page).collect();
    Some(1 + others.len())
}

/// The depths of a recording's references, none for the first ones.
pub fn depths(recording: &[u16]) -> impl Iterator<Item = Option<usize>> + '_ {
    (0..recording.len()).map(|reference| depth(recording, reference))
}

/// Why an add is refused.
#[derive(Clone, Copy, Debug, PartialEq, Eq, PartialOrd, Ord)]
pub enum Cause {
    /// 1: the counters that are lent aren't as many as there are depths.
    Counters,
    /// 1: "A recording of another length"
    Length,
    /// 1: "or one too many"
    TooMany,
    /// 2: "a tally so far with more references than 4,096 for each recording"
    References,
    /// 2: "or fewer than its depths count"
    Depths,
    /// 6: "a page above 4,095"
    Page,
}

impl Cause {
    /// In the order in which they are judged.
    pub const ALL: [Cause; 6] =
        [Cause::Counters, Cause::Length, Cause::TooMany, Cause::References, Cause::Depths, Cause::Page];

    /// What it "falls under".
    pub fn number(self) -> Refusal {
        match self {
            Cause::Counters | Cause::Length | Cause::TooMany => 1,
            Cause::References | Cause::Depths => 2,
            Cause::Page => 6,
        }
    }

    fn stands(self, tally: &Tally, pages: &[u16]) -> bool {
        let (recordings, references) = (u64::from(tally.head.recordings), u64::from(tally.head.references));
        match self {
            Cause::Counters => tally.counts.len() != DEPTHS,
            Cause::Length => !(1..=MOST_REFERENCES).contains(&pages.len()),
            Cause::TooMany => recordings + 1 > MOST_RECORDINGS.into(),
            Cause::References => references > 4096 * recordings,
            Cause::Depths => references < tally.counted(),
            Cause::Page => pages.iter().any(|page| *page > LAST_PAGE),
        }
    }
}

/// All that stands against an add.
pub fn causes(tally: &Tally, pages: &[u16]) -> Vec<Cause> {
    Cause::ALL.into_iter().filter(|cause| cause.stands(tally, pages)).collect()
}

fn counters(tally: &Tally) -> Result<(), Refusal> {
    if tally.counts.len() == DEPTHS {
        Ok(())
    } else {
        Err(1)
    }
}

/// The references that are counted with depths up to a size.
fn within(tally: &Tally, size: u64) -> u64 {
    let depths = (1..).zip(&tally.counts);
    depths.filter(|(depth, _)| *depth <= size).map(|(_, count)| u64::from(*count)).sum()
}

pub struct Model;

impl Counting for Model {
    fn add(&self, tally: &mut Tally, pages: &[u16]) -> Result<(), Refusal> {
        if let Some(cause) = causes(tally, pages).first() {
            return Err(cause.number());
        }
        tally.head.recordings += 1;
        tally.head.references += pages.len() as u32;
        for depth in depths(pages).flatten() {
            tally.counts[depth - 1] += 1;
        }
        Ok(())
    }

    /// "the share at or below a size as two whole numbers (those references, and all with the first ones)"
    fn share(&self, tally: &Tally, size: u64) -> Result<Share, Refusal> {
        counters(tally)?;
        Ok(Share { within: within(tally, size), all: tally.head.references.into() })
    }

    fn report(&self, tally: &Tally, hits: &mut [u64]) -> Result<(), Refusal> {
        counters(tally)?;
        if hits.len() != DEPTHS {
            return Err(1);
        }
        let mut sum = 0;
        for (hits, count) in hits.iter_mut().zip(&tally.counts) {
            sum += u64::from(*count);
            *hits = sum;
        }
        Ok(())
    }
}
