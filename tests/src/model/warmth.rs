//! Usages that a fix leaves, request A.5. Document 01's sweep is kept here for the comparison alone, with the frames that take part
//! in it by request A.11.
use super::moves::{evictable, loaded};
use super::stays::{stay, Stay};
use super::{at_ceiling, held, occupied};
use crate::calls::Answer;
use crate::ensure;
use crate::pool::Fixed;
use crate::records::{FrameIndex, Handle, Page, Pool, State, StoreNumber, MAX_USAGE};
use std::collections::BTreeSet;

/// What a fix did to the usage of a page that was there. One that it left as it was had less than 3, so that a raise would show.
#[derive(Clone, Copy, Debug, PartialEq, Eq, PartialOrd, Ord)]
pub enum Warmth {
    /// A sweep raised a pinned page with no resident child.
    PinnedLeaf,
    /// A sweep raised a pinned page with a resident child.
    PinnedParent,
    /// A sweep raised the page whose child was loaded.
    HandlesPage,
    /// A sweep raised a page by more than one.
    SeveralLooks,
    /// A sweep raised a page to 3, and looked at it again.
    StoppedAtThree,
    /// A sweep raised two pages by different numbers, neither of them stopped at 3: it ended within a round.
    PartialRound,
    /// A sweep ended before its first look at a pinned page.
    NotReached,
    /// A look left a pinned root.
    PinnedRoot,
    /// A look left a page with a resident child and no pins.
    Parent,
    /// A fix of a resident page left another, pinned.
    Hit,
    /// A load into an empty frame left a pinned page.
    EmptyFrame,
    /// A denied load left a pinned page.
    Denied,
}

impl Warmth {
    pub const ALL: [Warmth; 12] = [
        Warmth::PinnedLeaf,
        Warmth::PinnedParent,
        Warmth::HandlesPage,
        Warmth::SeveralLooks,
        Warmth::StoppedAtThree,
        Warmth::PartialRound,
        Warmth::NotReached,
        Warmth::PinnedRoot,
        Warmth::Parent,
        Warmth::Hit,
        Warmth::EmptyFrame,
        Warmth::Denied,
    ];
}

/// A fix that swept took the frame that document 01's sweep takes, and left of each record what so many looks leave; any other
/// left every record but that of the page which it pinned. Gives what it met.
pub fn compare(
    before: &State,
    after: &State,
    (handle, slot): (Handle, usize),
    answer: &Answer,
) -> Result<BTreeSet<Warmth>, String> {
    match answer {
        Answer::Fixed(fixed) if fixed.looks > 0 => {
            as_formerly(before, after, fixed)?;
            by_looks(before, after, (handle, slot), fixed)?;
            Ok(swept(before, handle, fixed.looks))
        }
        Answer::Fixed(fixed) => {
            unswept(before, after, fixed)?;
            let hit = before.pool.record(fixed.handle.frame).is_used();
            let kind = if hit { Warmth::Hit } else { Warmth::EmptyFrame };
            Ok(left(before, fixed.handle.frame, kind))
        }
        Answer::Refused(15 | 27) => {
            let taken = former_sweep(before, handle.store);
            ensure!(taken.is_none(), "denied, and document 01's sweep takes a frame");
            Ok(left(before, FrameIndex(0), Warmth::Denied))
        }
        _ => Ok(BTreeSet::new()),
    }
}

/// The frames that take part in a sweep for a store: those of its own pages where it is at its ceiling, and otherwise of all.
pub fn taking_part(state: &State, store: StoreNumber) -> Vec<FrameIndex> {
    if at_ceiling(&state.pool, store) {
        held(&state.pool, store).collect()
    } else {
        occupied(&state.pool).collect()
    }
}

/// Document 01's sweep, which leaves every page that it passes over: the frame that it takes, its looks, and what it leaves.
fn former_sweep(state: &State, store: StoreNumber) -> Option<(FrameIndex, u16, Pool)> {
    let (mut pool, taking_part) = (state.pool, taking_part(state, store));
    for looks in 1..=4 * pool.count {
        let frame = pool.hand;
        pool.hand = FrameIndex(((u16::from(frame.0) + 1) % pool.count) as u8);
        if !taking_part.contains(&frame) || !evictable(state, frame) {
            continue;
        }
        if pool.record(frame).usage == 0 {
            return Some((frame, looks, pool));
        }
        pool.record_mut(frame).usage -= 1;
    }
    None
}

/// Frame, looks and hand are those of document 01's sweep, and so is every record but a pinned page's and the loaded one's.
fn as_formerly(before: &State, after: &State, fixed: &Fixed) -> Result<(), String> {
    let store = fixed.handle.store;
    let former = former_sweep(before, store).ok_or("document 01's sweep takes no frame")?;
    let (frame, looks, pool) = former;
    let ends = (fixed.handle.frame, fixed.looks, after.pool.hand);
    ensure!(ends == (frame, looks, pool.hand), "frame, looks and hand {ends:?}, formerly {former:?}");
    for other in occupied(&before.pool).filter(|other| *other != frame && !is_warmed(before, store, *other)) {
        let (record, formerly) = (after.pool.record(other), pool.record(other));
        ensure!(record == formerly, "frame {other}: {record:?}, formerly {formerly:?}");
    }
    Ok(())
}

/// "Each look of a sweep that passes over a pinned page other than the root"
fn is_pinned(state: &State, frame: FrameIndex) -> bool {
    matches!(stay(state, frame), Some(Stay::PinnedLeaf | Stay::PinnedParent))
}

/// The same where the page takes part in the sweep for a store.
fn is_warmed(state: &State, store: StoreNumber, frame: FrameIndex) -> bool {
    is_pinned(state, frame) && taking_part(state, store).contains(&frame)
}

/// How far a frame lies from the hand, going round.
fn distance(pool: &Pool, frame: FrameIndex) -> u16 {
    (u16::from(frame.0) + pool.count - u16::from(pool.hand.0)) % pool.count
}

/// How many of a sweep's looks are at a frame.
pub fn looks_at(pool: &Pool, frame: FrameIndex, looks: u16) -> u8 {
    let distance = distance(pool, frame);
    if looks <= distance {
        return 0;
    }
    ((looks - 1 - distance) / pool.count + 1) as u8
}

/// The look at which a page open to eviction would go.
fn due(pool: &Pool, frame: FrameIndex) -> u16 {
    u16::from(pool.record(frame).usage) * pool.count + distance(pool, frame) + 1
}

/// The records after a sweep, worked out from the number of its looks and not walked.
fn by_looks(
    before: &State,
    after: &State,
    (handle, slot): (Handle, usize),
    fixed: &Fixed,
) -> Result<(), String> {
    let (pool, looks, taken) = (&before.pool, fixed.looks, fixed.handle.frame);
    let taking_part = taking_part(before, fixed.handle.store);
    let open = taking_part.iter().copied().filter(|frame| stay(before, *frame).is_none());
    let first = open.map(|frame| (due(pool, frame), frame)).min();
    ensure!(first == Some((looks, taken)), "frame {taken} by {looks} looks, and not {first:?}");
    let mut expected = *pool;
    expected.hand = FrameIndex(((u16::from(pool.hand.0) + looks) % pool.count) as u8);
    for frame in taking_part {
        let (usage, times) = (pool.record(frame).usage, looks_at(pool, frame, looks));
        expected.record_mut(frame).usage = match stay(before, frame) {
            None => usage.saturating_sub(times),
            Some(_) if is_pinned(before, frame) => MAX_USAGE.min(usage + times),
            Some(_) => usage,
        };
    }
    *expected.record_mut(taken) = loaded(Page::from(fixed.handle), handle.frame, slot);
    ensure!(after.pool == expected, "{looks} looks leave\n{:?}\nand not\n{expected:?}", after.pool);
    Ok(())
}

/// Without a sweep, only the record of the frame that was answered differs.
fn unswept(before: &State, after: &State, fixed: &Fixed) -> Result<(), String> {
    let (mut expected, frame) = (before.pool, fixed.handle.frame);
    *expected.record_mut(frame) = *after.pool.record(frame);
    ensure!(after.pool == expected, "a fix without looks leaves\n{:?}\nfrom\n{:?}", after.pool, before.pool);
    Ok(())
}

/// The kind, where a pinned page other than a root and that in one frame has less than 3.
fn left(state: &State, but: FrameIndex, kind: Warmth) -> BTreeSet<Warmth> {
    let cool = |frame| is_pinned(state, frame) && state.pool.record(frame).usage < MAX_USAGE;
    let mut others = occupied(&state.pool).filter(|frame| *frame != but);
    others.any(cool).then_some(kind).into_iter().collect()
}

/// What a sweep of so many looks met.
fn swept(state: &State, handle: Handle, looks: u16) -> BTreeSet<Warmth> {
    let (mut met, mut raises) = (BTreeSet::new(), BTreeSet::new());
    for frame in taking_part(state, handle.store) {
        let (usage, times) = (state.pool.record(frame).usage, looks_at(&state.pool, frame, looks));
        met.extend(stay(state, frame).and_then(|stay| passed_over(stay, usage, times)));
        if is_pinned(state, frame) && usage < MAX_USAGE {
            let raise = times.min(MAX_USAGE - usage);
            let stopped = times > raise;
            met.extend((raise > 0 && frame == handle.frame).then_some(Warmth::HandlesPage));
            met.extend((raise > 1).then_some(Warmth::SeveralLooks));
            met.extend(stopped.then_some(Warmth::StoppedAtThree));
            raises.extend((raise > 0 && !stopped).then_some(raise));
        }
    }
    met.extend((raises.len() > 1).then_some(Warmth::PartialRound));
    met
}

/// What so many looks did to a page that stays, if its usage was below 3.
fn passed_over(stay: Stay, usage: u8, times: u8) -> Option<Warmth> {
    let kind = match stay {
        Stay::PinnedLeaf | Stay::PinnedParent if times == 0 => Warmth::NotReached,
        Stay::PinnedLeaf => Warmth::PinnedLeaf,
        Stay::PinnedParent => Warmth::PinnedParent,
        Stay::PinnedLeafRoot | Stay::PinnedParentRoot if times > 0 => Warmth::PinnedRoot,
        Stay::Parent if times > 0 => Warmth::Parent,
        _ => return None,
    };
    (usage < MAX_USAGE).then_some(kind)
}
