//! What a call does to the directory's chains, request A.3: lists of frames before it and after it.
use super::directory::{bucket_of, byte_after, chain, is_right};
use super::rules;
use crate::calls::{Answer, Call};
use crate::ensure;
use crate::records::{page, FrameIndex, Page, Pool, State, BUCKETS, DIRECTORY_SIZE};
use std::collections::BTreeSet;

/// What a call did to a chain, or met there.
#[derive(Clone, Copy, Debug, PartialEq, Eq, PartialOrd, Ord)]
pub enum Turn {
    /// An entry came to the head of an empty chain, of one with one entry, or of one with more.
    EnteredEmpty,
    EnteredSecond,
    EnteredMore,
    /// An entry left: the only one of its chain, the first or the last of two, or the head, one within, or the last of more.
    LeftAlone,
    LeftFirstOfTwo,
    LeftLastOfTwo,
    LeftHead,
    LeftMiddle,
    LeftLast,
    /// The entry that left at a sweep was in the chain that the newcomer's entered: alone, or not.
    SweptSameAlone,
    SweptSame,
    /// It was in another.
    SweptOther,
    /// An open of no pool yet, its records all zero.
    OpenedFirst,
    /// An open of a pool whose directory didn't agree with its records, that held more than the roots, or just these.
    OpenedWrong,
    OpenedRight,
    OpenedAgain,
}

impl Turn {
    pub const ALL: [Turn; 16] = [
        Turn::EnteredEmpty,
        Turn::EnteredSecond,
        Turn::EnteredMore,
        Turn::LeftAlone,
        Turn::LeftFirstOfTwo,
        Turn::LeftLastOfTwo,
        Turn::LeftHead,
        Turn::LeftMiddle,
        Turn::LeftLast,
        Turn::SweptSameAlone,
        Turn::SweptSame,
        Turn::SweptOther,
        Turn::OpenedFirst,
        Turn::OpenedWrong,
        Turn::OpenedRight,
        Turn::OpenedAgain,
    ];
}

/// The chains of a directory by their buckets.
type Chains = Vec<Vec<FrameIndex>>;

fn chains(state: &State) -> Result<Chains, String> {
    let read = |bucket| chain(&state.directory, bucket).ok_or(format!("chain {bucket} doesn't end"));
    (0..BUCKETS).map(read).collect()
}

/// After an accepted call the chains are those before it, but that on loading the newcomer's frame is at the head of its chain, and
/// on eviction the frame that is free is out of its own, first; open leaves the roots alone. Every other byte is 0, which the
/// directory's agreement says; a refused call leaves all. Gives what was met.
pub fn compare(
    (before, after): (&State, &State),
    call: &Call,
    answer: &Answer,
) -> Result<BTreeSet<Turn>, String> {
    let mut turns = BTreeSet::new();
    if !answer.accepted() {
        ensure!(after.directory == before.directory, "{answer:?}, and the directory changes");
        return Ok(turns);
    }
    if let Call::Open(stores) = call {
        let alone = roots_alone(stores.count);
        ensure!(after.directory == alone, "open leaves {:?}", after.directory);
        turns.insert(opened(before, after));
        return Ok(turns);
    }
    let mut expected = chains(before)?;
    let arrived = arrived(before, answer);
    let left = departed(before, call, arrived.map(|(_, frame)| frame));
    if let Some((page, frame)) = left {
        turns.insert(take_out(&mut expected[bucket_of(page.number)], frame)?);
    }
    if let Some((page, frame)) = arrived {
        turns.extend(left.map(|(victim, _)| swept(&expected, victim, page)));
        turns.insert(enter(&mut expected[bucket_of(page.number)], frame));
    }
    let now = chains(after)?;
    ensure!(now == expected, "chains {:?}, and not {:?}", filled(&now), filled(&expected));
    rules::state(after).map_err(|number| format!("the next call is refused by {number}"))?;
    if turns.is_empty() {
        ensure!(after.directory == before.directory, "the directory changes, and no page came or went");
    }
    Ok(turns)
}

/// The chains that aren't empty, for a report.
fn filled(chains: &Chains) -> Vec<(usize, &Vec<FrameIndex>)> {
    chains.iter().enumerate().filter(|(_, chain)| !chain.is_empty()).collect()
}

/// Request A.11: the roots "entered in the directory in that order", each at the head of chain 0.
fn roots_alone(stores: u8) -> Vec<u8> {
    let mut bytes = vec![0; DIRECTORY_SIZE];
    bytes[0] = stores;
    (0..stores).for_each(|frame| bytes[byte_after(FrameIndex(frame))] = frame);
    bytes
}

fn opened(before: &State, after: &State) -> Turn {
    if before.pool == Pool::ZERO {
        Turn::OpenedFirst
    } else if !is_right(before) {
        Turn::OpenedWrong
    } else if before.directory == after.directory {
        Turn::OpenedAgain
    } else {
        Turn::OpenedRight
    }
}

/// The page that an accepted call took out of its frame: that of an evict, or what was in the frame that a page came into.
fn departed(before: &State, call: &Call, arrived: Option<FrameIndex>) -> Option<(Page, FrameIndex)> {
    let held = |(held, frame): &(Page, FrameIndex)| match call {
        Call::Evict(store, number) => *held == page(*store, *number),
        _ => Some(*frame) == arrived,
    };
    before.occupied().map(|(frame, record)| (Page::from(record), frame)).find(held)
}

/// The page that an accepted fix brought into a frame.
fn arrived(before: &State, answer: &Answer) -> Option<(Page, FrameIndex)> {
    let Answer::Fixed(fixed) = answer else { return None };
    let page = Page::from(fixed.handle);
    let there = before.occupied().any(|(_, record)| Page::from(record) == page);
    (!there).then_some((page, fixed.handle.frame))
}

fn take_out(chain: &mut Vec<FrameIndex>, frame: FrameIndex) -> Result<Turn, String> {
    let at = chain.iter().position(|other| *other == frame);
    let at = at.ok_or(format!("frame {frame} left, and wasn't in its chain, {chain:?}"))?;
    chain.remove(at);
    Ok(match (at, chain.len()) {
        (_, 0) => Turn::LeftAlone,
        (0, 1) => Turn::LeftFirstOfTwo,
        (_, 1) => Turn::LeftLastOfTwo,
        (0, _) => Turn::LeftHead,
        (at, others) if at == others => Turn::LeftLast,
        _ => Turn::LeftMiddle,
    })
}

fn enter(chain: &mut Vec<FrameIndex>, frame: FrameIndex) -> Turn {
    chain.insert(0, frame);
    match chain.len() {
        1 => Turn::EnteredEmpty,
        2 => Turn::EnteredSecond,
        _ => Turn::EnteredMore,
    }
}

/// What a sweep's load met, once the victim's entry is out of its chain.
fn swept(chains: &Chains, victim: Page, page: Page) -> Turn {
    if bucket_of(victim.number) != bucket_of(page.number) {
        Turn::SweptOther
    } else if chains[bucket_of(page.number)].is_empty() {
        Turn::SweptSameAlone
    } else {
        Turn::SweptSame
    }
}
