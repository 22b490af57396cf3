//! The recordings that the tally's calls are timed on.
use crate::shapes::State;
use pagepool::{
    FrameIndex, Generator, Handle, PageNumber, StoreNumber, Stores, MOST_PAGES, MOST_REFERENCES, PAGE_SIZE,
    SLOTS,
};
use random::Random;
use std::sync::OnceLock;
use words::record::{call_of, Call};

#[derive(Clone, Copy, Debug, PartialEq)]
pub enum Recording {
    AllDifferent,
    OnePage,
    /// Half as many pages as references, in the same order twice.
    CyclicHalf,
    /// A sixteenth as many pages as references, in the same order again and again.
    CyclicSixteenth,
    /// The same of 64 pages.
    CyclicFew,
    /// Half as many pages as references, and the same backwards.
    UpThenDown,
    /// Half as many pages as references, and the same in another order.
    Reordered,
    /// An eighth as many pages as references, each time any of them.
    AnyOfEighth,
    /// As many pages as references, each time any of them.
    AnyOfAll,
    /// From the root of a tree of 4,096 pages to any leaf, again and again.
    Walks,
    /// The same to some leaves more often than to others.
    SkewedWalks,
    /// The fixes that the workload of seed 7 has accepted, on the listing's pool.
    Workload,
}

impl Recording {
    pub const ALL: [Recording; 12] = [
        Recording::AllDifferent,
        Recording::OnePage,
        Recording::CyclicHalf,
        Recording::CyclicSixteenth,
        Recording::CyclicFew,
        Recording::UpThenDown,
        Recording::Reordered,
        Recording::AnyOfEighth,
        Recording::AnyOfAll,
        Recording::Walks,
        Recording::SkewedWalks,
        Recording::Workload,
    ];

    pub fn name(self) -> &'static str {
        match self {
            Recording::AllDifferent => "all different",
            Recording::OnePage => "one page",
            Recording::CyclicHalf => "cyclic over half",
            Recording::CyclicSixteenth => "cyclic over a sixteenth",
            Recording::CyclicFew => "cyclic over 64",
            Recording::UpThenDown => "up then down",
            Recording::Reordered => "half, reordered",
            Recording::AnyOfEighth => "any of an eighth",
            Recording::AnyOfAll => "any of all",
            Recording::Walks => "walks",
            Recording::SkewedWalks => "skewed walks",
            Recording::Workload => "workload",
        }
    }

    /// The lengths at which it is timed.
    pub fn lengths(self) -> &'static [usize] {
        match self {
            Recording::CyclicSixteenth
            | Recording::CyclicFew
            | Recording::Reordered
            | Recording::AnyOfAll
            | Recording::SkewedWalks => &[MOST_REFERENCES],
            Recording::Workload => &[FIXES],
            _ => &[64, 256, 1024, MOST_REFERENCES],
        }
    }

    /// Whether these are several.
    pub fn grows(self) -> bool {
        self.lengths().len() > 1
    }

    /// The pages of so many references, which are even; by a seed, where they are drawn.
    pub fn pages(self, length: usize, seed: u64) -> Vec<u16> {
        let mut random = Random::new(seed);
        let half = length / 2;
        let page = |at: usize| at as u16;
        match self {
            Recording::AllDifferent => (0..length).map(page).collect(),
            Recording::OnePage => vec![5; length],
            Recording::CyclicHalf => (0..length).map(|at| page(at % half)).collect(),
            Recording::CyclicSixteenth => (0..length).map(|at| page(at % (length / 16))).collect(),
            Recording::CyclicFew => (0..length).map(|at| page(at % 64)).collect(),
            Recording::UpThenDown => (0..length).map(|at| page(at.min(length - 1 - at))).collect(),
            Recording::Reordered => (0..half).map(page).chain(reordered(&mut random, half)).collect(),
            Recording::AnyOfEighth => (0..length).map(|_| page(random.below(length / 8))).collect(),
            Recording::AnyOfAll => (0..length).map(|_| page(random.below(length))).collect(),
            Recording::Walks => walks(length, || random.between(FIRST_LEAF, MOST_PAGES - 1)),
            Recording::SkewedWalks => walks(length, || {
                let drawn = (0..3).map(|_| random.between(FIRST_LEAF, MOST_PAGES - 1));
                drawn.min().unwrap_or(FIRST_LEAF)
            }),
            Recording::Workload => workload(length),
        }
    }
}

/// The pages from 0 on in any order.
fn reordered(random: &mut Random, count: usize) -> Vec<u16> {
    let mut pages: Vec<u16> = (0..count as u16).collect();
    for end in (1..count).rev() {
        pages.swap(end, random.below(end + 1));
    }
    pages
}

/// Page p has the children 16 p + 1 to 16 p + 16, as far as there are pages: from this one on there are none.
const FIRST_LEAF: usize = MOST_PAGES / SLOTS;

/// The pages on the way from the root to a leaf, for one leaf after the other; the last way is broken off.
fn walks(length: usize, mut leaf: impl FnMut() -> usize) -> Vec<u16> {
    let mut pages = Vec::new();
    while pages.len() < length {
        let mut way = vec![leaf()];
        while way[way.len() - 1] > 0 {
            way.push((way[way.len() - 1] - 1) / SLOTS);
        }
        pages.extend(way.into_iter().rev().map(|page| page as u16));
    }
    pages.truncate(length);
    pages
}

/// A record names no store: the listing's pool has this one.
const STORE: StoreNumber = StoreNumber(0);

/// So many are gathered of a workload, in half a second: one call in some thousands is an accepted fix.
const FIXES: usize = 256;

/// The pages of the accepted fixes: the calls of the workload, made one after the other on 4 frames and 16 zero pages.
fn workload(length: usize) -> Vec<u16> {
    static FIXED: OnceLock<Vec<u16>> = OnceLock::new();
    let gathered = || {
        let (mut state, mut generator, mut pages) = (opened(), Generator::seeded(7), Vec::new());
        while pages.len() < FIXES {
            let entry = state.draw(&mut generator).expect("records as calls left them");
            let call = call_of(&entry).expect("a call from 1 to 9");
            pages.extend(fixed(&mut state, &call).map(|page| page.0));
        }
        pages
    };
    FIXED.get_or_init(gathered)[..length].to_vec()
}

fn opened() -> State {
    crate::shapes::opened(4, Stores::one(4), vec![0; 16 * PAGE_SIZE])
}

/// Makes a call of a record, whatever it answers. Gives the page of an accepted fix.
fn fixed(state: &mut State, call: &Call) -> Option<PageNumber> {
    let held = |handle: &words::record::Handle| Handle {
        frame: FrameIndex(handle.frame),
        store: STORE,
        page: PageNumber(handle.page),
    };
    let done = match call {
        Call::Fix { slot, handle } => {
            let fixed = state.fix(held(handle), usize::from(*slot));
            return fixed.ok().map(|fixed| fixed.handle.page);
        }
        Call::Root => state.root(STORE).map(|_| ()),
        Call::Unfix { handle } => state.unfix(held(handle)),
        Call::Write { offset, data, handle } => state.write(held(handle), usize::from(*offset), data),
        Call::Link { page, slot, handle } => {
            state.link(held(handle), usize::from(*slot), PageNumber(*page), false)
        }
        Call::Unlink { slot, handle } => state.unlink(held(handle), usize::from(*slot)),
        Call::Evict { page } => state.evict(STORE, PageNumber(*page)),
        _ => state.settle(),
    };
    let _ = done;
    None
}
