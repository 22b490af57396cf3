//! T and the ceilings, request A.11: what opens met of them, and what refused a call where they, or the stores of records, are wrong.
use super::{is_root, rules};
use crate::calls::{Answer, Call};
use crate::records::{stores_of, FrameIndex, Pool, State, StoreNumber, Stores, MOST_STORES, PAGE_SIZE};
use std::collections::BTreeSet;

/// What a call met of T, of ceilings, or of the stores of records.
#[derive(Clone, Copy, Debug, PartialEq, Eq, PartialOrd, Ord)]
pub enum Figure {
    /// An accepted open with so many stores; of a pool that had another T, or the same and other ceilings.
    Opened(u8),
    OtherStores,
    OtherCeilings,
    /// An open that is refused by 1 for its figures alone: a T that is 0 or above 4, one that leaves a rest of the pages, too few
    /// frames, the ceiling of a store that is 0 or above F, or one of no store that isn't 0.
    NoStore,
    StoresAbove,
    PagesLeft,
    FewFrames,
    CeilingZero,
    CeilingAbove,
    CeilingOfNone,
    /// An open that is refused by 16 though its first store is sound, and one that would be accepted with another T.
    UnsoundLater,
    UnsoundAsSo,
    /// Another call that is refused by 1 for the T of the records, or for a ceiling there.
    RecordedStores,
    RecordedCeiling,
    /// A call that is refused by 2 for a ceiling below the resident pages alone, or for the store of one record alone: a root's,
    /// another page's, an empty frame's, or one from F on.
    AboveCeiling,
    RootsStore,
    ChildsStore,
    EmptysStore,
    StoreFromF,
}

impl Figure {
    /// What a list can meet.
    pub const ALL: [Figure; 15] = [
        Figure::Opened(1),
        Figure::Opened(2),
        Figure::Opened(3),
        Figure::Opened(4),
        Figure::OtherStores,
        Figure::OtherCeilings,
        Figure::NoStore,
        Figure::StoresAbove,
        Figure::PagesLeft,
        Figure::FewFrames,
        Figure::CeilingZero,
        Figure::CeilingAbove,
        Figure::CeilingOfNone,
        Figure::UnsoundLater,
        Figure::UnsoundAsSo,
    ];

    /// What needs an alteration from outside.
    pub const ALTERED: [Figure; 7] = [
        Figure::RecordedStores,
        Figure::RecordedCeiling,
        Figure::AboveCeiling,
        Figure::RootsStore,
        Figure::ChildsStore,
        Figure::EmptysStore,
        Figure::StoreFromF,
    ];
}

/// What a call met. Of the calls but open, unfix is asked.
pub fn met(before: &State, call: &Call, answer: &Answer) -> BTreeSet<Figure> {
    match (call, answer) {
        (Call::Open(stores), Answer::Done) => opened(&before.pool, *stores),
        (Call::Open(stores), Answer::Refused(1)) => misfit(before, *stores).into_iter().collect(),
        (Call::Open(stores), Answer::Refused(16)) => unsound(before, *stores),
        (Call::Unfix(_), Answer::Refused(1)) => recorded(before).into_iter().collect(),
        (Call::Unfix(_), Answer::Refused(2)) => disagreeing(before),
        _ => BTreeSet::new(),
    }
}

fn opened(pool: &Pool, stores: Stores) -> BTreeSet<Figure> {
    let mut met = BTreeSet::from([Figure::Opened(stores.count)]);
    if *pool != Pool::ZERO {
        met.extend((pool.stores != stores.count).then_some(Figure::OtherStores));
        let others = pool.stores == stores.count && pool.ceilings != stores.ceilings;
        met.extend(others.then_some(Figure::OtherCeilings));
    }
    met
}

/// The ceilings that so many stores can have over so many frames at most.
fn highest(stores: u8, frames: u16) -> Stores {
    let ceilings = std::array::from_fn(|store| if store < stores.into() { frames as u8 } else { 0 });
    Stores { count: stores, ceilings }
}

fn fits(state: &State, stores: Stores) -> bool {
    rules::figures(&state.frames, &state.store, stores).is_ok()
        && rules::directory_length(&state.directory).is_ok()
}

/// Why an open's figures don't fit, where others would.
fn misfit(state: &State, stores: Stores) -> Option<Figure> {
    let frames = (state.frames.len() / PAGE_SIZE) as u16;
    let other_fits = (1..=MOST_STORES as u8).any(|count| fits(state, highest(count, frames)));
    if !other_fits {
        return None;
    }
    let pages = state.store.len() / PAGE_SIZE;
    let count = usize::from(stores.count);
    Some(match count {
        0 => Figure::NoStore,
        _ if count > MOST_STORES => Figure::StoresAbove,
        _ if !pages.is_multiple_of(count) => Figure::PagesLeft,
        _ if usize::from(frames) <= count => Figure::FewFrames,
        _ if !fits(state, highest(stores.count, frames)) => return None,
        _ if stores.ceilings[..count].contains(&0) => Figure::CeilingZero,
        _ if stores.ceilings[..count].iter().any(|ceiling| u16::from(*ceiling) > frames) => {
            Figure::CeilingAbove
        }
        _ => Figure::CeilingOfNone,
    })
}

fn unsound(state: &State, stores: Stores) -> BTreeSet<Figure> {
    let first = &state.store[..state.store.len() / usize::from(stores.count)];
    let mut met = BTreeSet::new();
    met.extend(rules::sound(first, 1).is_ok().then_some(Figure::UnsoundLater));
    let frames = (state.frames.len() / PAGE_SIZE) as u16;
    let mut others = (1..=MOST_STORES as u8).filter(|count| fits(state, highest(*count, frames)));
    met.extend(others.any(|count| rules::sound(&state.store, count).is_ok()).then_some(Figure::UnsoundAsSo));
    met
}

/// Why the figures of records don't fit, where others would with the same F and N.
fn recorded(state: &State) -> Option<Figure> {
    let Pool { count, pages, stores, .. } = state.pool;
    let with = |other: u8| {
        let stores = highest(other, count);
        fits(state, stores) && rules::figures(&state.frames, &state.store, stores) == Ok((count, pages))
    };
    if stores_of(&state.pool) != highest(stores, count) && with(stores) {
        return Some(Figure::RecordedCeiling);
    }
    (1..=MOST_STORES as u8).any(with).then_some(Figure::RecordedStores)
}

/// The store that the record of a frame should have: a root's own, its parent's, and none where the frame is empty.
fn proper_store(pool: &Pool, frame: FrameIndex) -> Option<StoreNumber> {
    let record = pool.record(frame);
    if u16::from(frame.0) >= pool.count || !record.is_used() {
        Some(StoreNumber(0))
    } else if is_root(pool, frame) {
        Some(StoreNumber(frame.0))
    } else {
        pool.records.get(usize::from(record.parent)).map(|parent| parent.store)
    }
}

/// What is alone why records, frames and directory don't agree.
fn disagreeing(state: &State) -> BTreeSet<Figure> {
    let (pool, mut met) = (&state.pool, BTreeSet::new());
    let agrees = |pool: Pool| rules::state(&State { pool, ..state.clone() }).is_ok();
    let stores = highest(pool.stores, pool.count);
    if pool.ceilings != stores.ceilings && agrees(Pool { ceilings: stores.ceilings, ..*pool }) {
        met.insert(Figure::AboveCeiling);
    }
    let frames = (0..pool.records.len() as u8).map(FrameIndex);
    let wrong = |frame: &FrameIndex| proper_store(pool, *frame) != Some(pool.record(*frame).store);
    for frame in frames.filter(wrong) {
        let mut other = *pool;
        other.record_mut(frame).store = proper_store(pool, frame).unwrap_or_default();
        if agrees(other) {
            met.insert(match frame {
                _ if u16::from(frame.0) >= pool.count => Figure::StoreFromF,
                _ if !pool.record(frame).is_used() => Figure::EmptysStore,
                _ if is_root(pool, frame) => Figure::RootsStore,
                _ => Figure::ChildsStore,
            });
        }
    }
    met
}
