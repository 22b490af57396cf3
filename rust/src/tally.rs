//! How many frames to buy: the tally of recorded fixes, and its calls on a head and counters lent by the caller.
use crate::raw;
use crate::refusal::{unless_refused, Refusal};
use std::fmt;

/// The largest depth: a tally has a counter for each from 1 on.
pub const DEPTHS: usize = 4095;
/// The most page numbers of a recording, of which each is below [`MOST_PAGES`](crate::MOST_PAGES).
pub const MOST_REFERENCES: usize = 4096;
/// The most recordings of a tally.
pub const MOST_RECORDINGS: u16 = 65_535;

/// The head of a tally, all zero where there are no recordings. Its counters are lent beside it.
#[repr(C)]
#[derive(Clone, Copy, Debug, Default, PartialEq, Eq, Hash)]
pub struct TallyHead {
    /// The recordings that were added.
    pub recordings: u16,
    /// All their references, the first ones included.
    pub references: u32,
}

/// What a cache of a size hits.
#[derive(Clone, Copy, Debug, PartialEq, Eq, Hash)]
pub struct Share {
    /// The references whose depth is at most the size, which are the hits.
    pub within: u64,
    /// All references, the first ones included.
    pub all: u64,
}

/// Each depth from 1 to 4,095, rising.
pub type Report = Vec<ReportRow>;

/// A depth of a report.
#[derive(Clone, Copy, Debug, PartialEq, Eq, Hash)]
pub struct ReportRow {
    /// The depth, which is the size of a cache too.
    pub depth: u16,
    /// The references of that depth, 0 included.
    pub references: u32,
    /// The hits of a cache of that many pages: the references of that depth and of each before it.
    pub hits: u64,
}

/// Adds a recording to a [`Tally`] whose counters are lent: its references, and to the counter of each depth those of that depth.
/// Refused: 1, 2, 6. Then nothing is added.
///
/// By [`WrongLength`](Refusal::WrongLength) where the counters aren't 4,095, where the recording has no page or more than 4,096,
/// and where the tally is full, with 65,535 recordings. By [`Disagree`](Refusal::Disagree) where the tally so far can't be one:
/// it has more references than 4,096 for each recording, or fewer than its counters come to. By [`BadPage`](Refusal::BadPage)
/// where a page is above 4,095, wherever it stands.
pub fn tally_add(head: &mut TallyHead, counts: &mut [u32], pages: &[u16]) -> Result<(), Refusal> {
    // SAFETY, here and below: each pointer is that of a slice of the length beside it, lent for the call alone; the slice that can
    // be written overlaps no other.
    let added =
        unsafe { raw::pool_tally_add(*head, counts.as_mut_ptr(), counts.len(), pages.as_ptr(), pages.len()) };
    *head = added.tally;
    unless_refused(added.refusal, ())
}

/// The hits of a cache of a size, and all references. Any size will do: 0 has no hits, and from 4,095 on every depth is within it.
/// Refused: 1. That is where the counters aren't 4,095; they are summed as they are, and nothing else of the tally is tested.
pub fn tally_share(head: TallyHead, counts: &[u32], size: u64) -> Result<Share, Refusal> {
    let share = unsafe { raw::pool_tally_share(head, counts.as_ptr(), counts.len(), size) };
    unless_refused(share.refusal, Share { within: share.within, all: share.all })
}

/// The hits of every size at once: `hits[k]` becomes those of a cache of k + 1 pages, the sum of the counters from 0 to k.
/// Refused: 1. That is where counters or hits aren't 4,095; the hits then stay as they were.
pub fn tally_report(counts: &[u32], hits: &mut [u64]) -> Result<(), Refusal> {
    let refusal =
        unsafe { raw::pool_tally_report(counts.as_ptr(), counts.len(), hits.as_mut_ptr(), hits.len()) };
    unless_refused(refusal, ())
}

/// Up to 65,535 recordings, summed: how many there are, all their references, and how many of these have each depth from 1 to
/// 4,095, counter k for depth k + 1.
///
/// A recording is a list of page numbers, one for each recorded fix, in their order: 1 to 4,096 of them, none above 4,095. Each is
/// a reference to its page. The depth of a reference is 1 plus the count of different other pages since the last reference to the
/// same page; the first reference to a page in its recording has none.
///
/// A cache of f pages hits exactly the references whose depth is at most f. That cache is flat and without pins, is empty at each
/// recording's start, and replaces the page least recently used; a larger one always contains the smaller. The pool goes by its
/// sweep, and keeps the root, pinned pages and parents, so that its own hits can differ.
///
/// ```
/// use pagepool::{Refusal, ReportRow, Share, Tally};
///
/// let mut tally = Tally::new();
/// tally.add(&[5, 7, 5, 5, 9, 7])?; // depths: none, none, 2, 1, none, 3
/// tally.add(&[7, 5, 7])?; // none, none, 2: each recording begins with no page
///
/// // A cache of 2 pages hits 3 of the 9 references; one of 3 pages hits a fourth, and more pages gain nothing.
/// assert_eq!(tally.share(2), Share { within: 3, all: 9 });
/// assert_eq!(tally.share(3), Share { within: 4, all: 9 });
/// assert_eq!(tally.share(u64::MAX), Share { within: 4, all: 9 });
///
/// // Every depth from 1 to 4,095, with its references and the hits of a cache of that size.
/// let report = tally.report();
/// assert_eq!(report.len(), 4095);
/// assert_eq!(report[1], ReportRow { depth: 2, references: 2, hits: 3 });
///
/// // Refused, nothing is added.
/// assert_eq!(tally.add(&[]), Err(Refusal::WrongLength));
/// assert_eq!(tally.add(&[5, 4096]), Err(Refusal::BadPage));
/// assert_eq!((tally.recordings(), tally.references()), (2, 9));
/// # Ok::<(), Refusal>(())
/// ```
#[derive(Clone, PartialEq, Eq)]
pub struct Tally {
    head: TallyHead,
    /// Always 4,095.
    counts: Box<[u32]>,
}

impl Tally {
    /// The tally of no recordings.
    pub fn new() -> Tally {
        Tally { head: TallyHead::default(), counts: vec![0; DEPTHS].into() }
    }

    /// A tally that was kept elsewhere, refused by [`WrongLength`](Refusal::WrongLength) where its counters aren't 4,095. Whether
    /// head and counters can be those of recordings says the next [`add`](Tally::add).
    ///
    /// ```
    /// use pagepool::{Refusal, Tally, TallyHead};
    ///
    /// let head = TallyHead { recordings: 1, references: 4097 };
    /// let mut tally = Tally::from_parts(head, vec![0; 4095])?;
    /// assert_eq!(tally.add(&[7]), Err(Refusal::Disagree));
    /// assert_eq!(Tally::from_parts(head, [0; 4096]), Err(Refusal::WrongLength));
    /// # Ok::<(), Refusal>(())
    /// ```
    pub fn from_parts(head: TallyHead, counts: impl Into<Box<[u32]>>) -> Result<Tally, Refusal> {
        let counts = counts.into();
        match counts.len() {
            DEPTHS => Ok(Tally { head, counts }),
            _ => Err(Refusal::WrongLength),
        }
    }

    /// As [`tally_add`].
    pub fn add(&mut self, pages: &[u16]) -> Result<(), Refusal> {
        tally_add(&mut self.head, &mut self.counts, pages)
    }

    /// As [`tally_share`], which isn't refused here.
    pub fn share(&self, size: u64) -> Share {
        tally_share(self.head, &self.counts, size).expect("4,095 counters")
    }

    /// Each depth from 1 to 4,095, rising, with its references, and with the hits that [`tally_report`] gives.
    pub fn report(&self) -> Report {
        let mut hits = vec![0; DEPTHS];
        tally_report(&self.counts, &mut hits).expect("4,095 counters");
        let figures = self.counts.iter().zip(hits);
        (1..).zip(figures).map(|(depth, (&references, hits))| ReportRow { depth, references, hits }).collect()
    }

    /// The recordings that were added.
    pub fn recordings(&self) -> u16 {
        self.head.recordings
    }

    /// All their references, the first ones included.
    pub fn references(&self) -> u32 {
        self.head.references
    }

    /// Recordings and references.
    pub fn head(&self) -> TallyHead {
        self.head
    }

    /// The 4,095 counters: counter k has the references of depth k + 1.
    pub fn counts(&self) -> &[u32] {
        &self.counts
    }
}

/// The tally of no recordings.
impl Default for Tally {
    fn default() -> Tally {
        Tally::new()
    }
}

/// Shows the depths that aren't without references, each with them.
impl fmt::Debug for Tally {
    fn fmt(&self, f: &mut fmt::Formatter) -> fmt::Result {
        write!(f, "{:?}", self.head)?;
        for (depth, count) in (1..).zip(&self.counts).filter(|(_, count)| **count != 0) {
            write!(f, "\n  {depth}: {count}")?;
        }
        Ok(())
    }
}
