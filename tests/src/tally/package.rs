//! The linked library through the package: by its functions, which take head and counters apart, and by its struct.
use super::{Counting, Share, Tally};
use crate::pool::Refusal;
use pagepool::{tally_add, tally_report, tally_share, ReportRow, TallyHead};

fn numbered<T>(answer: Result<T, pagepool::Refusal>) -> Result<T, Refusal> {
    answer.map_err(pagepool::Refusal::number)
}

pub struct Functions;

impl Counting for Functions {
    fn add(&self, tally: &mut Tally, pages: &[u16]) -> Result<(), Refusal> {
        numbered(tally_add(&mut tally.head, &mut tally.counts, pages))
    }

    fn share(&self, tally: &Tally, size: u64) -> Result<Share, Refusal> {
        numbered(tally_share(tally.head, &tally.counts, size))
    }

    fn report(&self, tally: &Tally, hits: &mut [u64]) -> Result<(), Refusal> {
        numbered(tally_report(&tally.counts, hits))
    }
}

/// The struct made of a tally's parts. It is refused by 1 with another number of counters than there are depths, and then has no
/// calls.
pub struct Struct;

fn held(tally: &Tally) -> Result<pagepool::Tally, Refusal> {
    let held = numbered(pagepool::Tally::from_parts(tally.head, tally.counts.clone()))?;
    assert_eq!((held.head(), held.counts()), (tally.head, &tally.counts[..]), "the parts of the struct");
    Ok(held)
}

impl Counting for Struct {
    fn add(&self, tally: &mut Tally, pages: &[u16]) -> Result<(), Refusal> {
        let mut held = held(tally)?;
        let added = held.add(pages);
        tally.head = TallyHead { recordings: held.recordings(), references: held.references() };
        tally.counts = held.counts().to_vec();
        numbered(added)
    }

    fn share(&self, tally: &Tally, size: u64) -> Result<Share, Refusal> {
        Ok(held(tally)?.share(size))
    }

    /// "each depth from 1 to 4,095, rising, with its number of references, 0 included"
    fn report(&self, tally: &Tally, hits: &mut [u64]) -> Result<(), Refusal> {
        let report = held(tally)?.report();
        if report.len() != hits.len() {
            return Err(1);
        }
        for ((depth, row), references) in (1..).zip(&report).zip(&tally.counts) {
            let ReportRow { depth: shown, references: counted, .. } = row;
            assert_eq!((*shown, counted), (depth, references), "a row of the report");
        }
        hits.iter_mut().zip(report).for_each(|(hits, row)| *hits = row.hits);
        Ok(())
    }
}
