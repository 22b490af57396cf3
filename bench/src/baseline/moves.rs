//! A page leaving its frame, coming into one, and settling; and the frame that a load takes.
use super::keys::Keys;
use super::page::{pages_of, pages_of_mut, put_name, put_word, swizzled_to, word, Page, SWIZZLE_BIT};
use super::{directory, place, records};
use pagepool::{FrameIndex, FrameRecord, PageNumber, Pool, Refusal, StoreNumber, LOCK_BIT, MAX_USAGE, SLOTS};

/// The frame that a swizzled word names.
pub fn frame_in(word: u32) -> FrameIndex {
    FrameIndex(word as u8)
}

/// A word with the page number that it stands for, and with its mark.
pub fn plain(records: &[FrameRecord], word: u32) -> u32 {
    if word < SWIZZLE_BIT {
        word
    } else {
        word & LOCK_BIT | u32::from(records[usize::from(frame_in(word))].page)
    }
}

/// Takes a page without swizzled words out of its frame. Its bytes are then its image.
pub fn evict(pool: &mut Pool, frames: &mut [u8], store: &mut [u8], directory: &mut [u8], frame: FrameIndex) {
    let record = std::mem::replace(pool.record_mut(frame), FrameRecord::EMPTY);
    let frames = pages_of_mut(frames);
    if record.is_dirty() {
        pages_of_mut(store)[place(pool, record.store, record.page)] = frames[usize::from(frame)];
    }
    put_name(&mut frames[usize::from(record.parent)], record.slot.into(), record.page.into());
    directory::take_out(directory, frame, record.page);
}

/// Loads a page into an empty frame, for a slot of its parent's frame, which holds a page of the same store.
pub fn load(
    pool: &mut Pool,
    frames: &mut [u8],
    store: &[u8],
    (parent, of_store): (FrameIndex, StoreNumber),
    slot: usize,
    frame: FrameIndex,
    page: PageNumber,
) {
    let frames = pages_of_mut(frames);
    frames[usize::from(frame)] = pages_of(store)[place(pool, of_store, page)];
    put_name(&mut frames[usize::from(parent)], slot, swizzled_to(frame));
    *pool.record_mut(frame) =
        FrameRecord { used: 1, dirty: 0, usage: 1, slot: slot as u8, parent, store: of_store, pins: 1, page };
}

/// Writes the image of each dirty page to its store, and marks it clean.
pub fn settle(pool: &mut Pool, frames: &[Page], store: &mut [Page]) {
    let parents = parents(pool);
    for (frame, page) in frames.iter().enumerate() {
        let record = pool.records[frame];
        if record.is_dirty() {
            pool.records[frame].dirty = 0;
            let stored = &mut store[place(pool, record.store, record.page)];
            *stored = *page;
            if parents >> frame & 1 == 1 {
                unswizzle(stored, page, &pool.records);
            }
        }
    }
}

/// Puts a page's words into its image.
fn unswizzle(image: &mut Page, page: &Page, records: &[FrameRecord]) {
    for slot in 0..SLOTS {
        put_word(image, slot, plain(records, word(page, slot)));
    }
}

/// The frames that are parents, as a mask: where records and frames agree, those with a swizzled word.
fn parents(pool: &Pool) -> u64 {
    let others = &records(pool)[usize::from(pool.stores)..];
    others.iter().fold(0, |mask, record| mask | u64::from(record.used) << record.parent.0)
}

/// An empty frame for a load of a page of a store, and the looks of the sweep that emptied it.
pub fn frame_for_load(
    pool: &mut Pool,
    frames: &mut [u8],
    store: &mut [u8],
    directory: &mut [u8],
    of_store: StoreNumber,
    keys: &Keys,
) -> Result<(FrameIndex, u16), Refusal> {
    let held = keys.held(of_store);
    let at_ceiling = held >= pool.ceilings[usize::from(of_store)].into();
    if !at_ceiling && keys.occupied() < pool.count {
        return Ok((first_empty(pool), 0));
    }
    // Where all frames are the store's own, none is to be left out.
    let swept = if at_ceiling && held < pool.count { own(pool, of_store) } else { u64::MAX };
    let refusal = if at_ceiling { Refusal::AtCeiling } else { Refusal::NoFrame };
    let (victim, looks) = sweep(pool, swept).ok_or(refusal)?;
    evict(pool, frames, store, directory, victim);
    Ok((victim, looks))
}

/// The frames with pages of a store, as a mask.
fn own(pool: &Pool, of_store: StoreNumber) -> u64 {
    let is_own = |record: &FrameRecord| record.is_used() & (record.store == of_store);
    let frames = records(pool).iter().enumerate();
    frames.fold(0, |mask, (frame, record)| mask | u64::from(is_own(record)) << frame)
}

/// The first empty frame at or after the hand, going round. There is one.
fn first_empty(pool: &Pool) -> FrameIndex {
    let (before, after) = records(pool).split_at(pool.hand.into());
    let empty = |records: &[FrameRecord]| records.iter().position(|record| !record.is_used());
    let frame = empty(after).map(|at| at + before.len()).or_else(|| empty(before));
    FrameIndex(frame.unwrap_or(0) as u8)
}

/// The clock sweep, worked out and not walked: the open frame of least usage that comes first from the hand on is taken, after
/// as many whole rounds as that usage. Each look takes one off the usage of an open frame, and adds one to that of a pinned one,
/// the roots' excepted; frames that aren't in the mask stay as they are. Gives the frame that is taken, with the looks.
fn sweep(pool: &mut Pool, swept: u64) -> Option<(FrameIndex, u16)> {
    let (count, hand) = (usize::from(pool.count), usize::from(pool.hand));
    let Looked { open, warmed } = looked(pool, swept);
    let rounds = (0..=MAX_USAGE).find(|usage| open[usize::from(*usage)] != 0)?;
    let victim = first_from(hand, open[usize::from(rounds)]);
    let any = open.iter().fold(0, |any, mask| any | mask);
    if rounds > 0 {
        lose_usage(pool, any, rounds);
    }
    let passed = passed(hand, victim);
    lose_usage(pool, any & passed, 1);
    gain_usage(pool, warmed, rounds, passed);
    pool.hand = FrameIndex(if victim + 1 < count { victim as u8 + 1 } else { 0 });
    let distance = if victim < hand { victim + count - hand } else { victim - hand };
    Some((FrameIndex(victim as u8), u16::from(rounds) * pool.count + distance as u16 + 1))
}

/// Takes so much off the usage of the frames of a mask.
fn lose_usage(pool: &mut Pool, mut mask: u64, lost: u8) {
    while mask != 0 {
        pool.records[mask.trailing_zeros() as usize].usage -= lost;
        mask &= mask - 1;
    }
}

/// Adds to the usage of the frames of a mask one for each whole round, and one for those that are passed after, up to the
/// largest.
fn gain_usage(pool: &mut Pool, frames: u64, rounds: u8, passed: u64) {
    let mut mask = if rounds > 0 { frames } else { frames & passed };
    while mask != 0 {
        let frame = mask.trailing_zeros() as usize;
        let usage = &mut pool.records[frame].usage;
        *usage = MAX_USAGE.min(*usage + rounds + (passed >> frame & 1) as u8);
        mask &= mask - 1;
    }
}

/// The frames from the hand on, going round, that come before the victim, as a mask.
fn passed(hand: usize, victim: usize) -> u64 {
    let below = |frame: usize| (1 << frame) - 1;
    if victim < hand {
        below(victim) | !below(hand)
    } else {
        below(victim) & !below(hand)
    }
}

/// The first frame of a mask at or after the hand, going round. The mask isn't empty.
fn first_from(hand: usize, mask: u64) -> usize {
    let ahead = mask >> hand << hand;
    let from = if ahead == 0 { mask } else { ahead };
    from.trailing_zeros() as usize
}

/// The frames of which a look changes something, as masks.
struct Looked {
    /// Those open to eviction, for each usage: not a root's, not pinned, with no swizzled word.
    open: [u64; MAX_USAGE as usize + 1],
    /// Those that are pinned, the roots' excepted, and below the largest usage.
    warmed: u64,
}

/// Those of the frames in a mask, none of which is empty.
fn looked(pool: &Pool, swept: u64) -> Looked {
    let (records, roots) = (records(pool), (1 << pool.stores) - 1);
    let (mut pinned, mut low, mut high) = (0, 0, 0);
    for (frame, record) in records.iter().enumerate() {
        pinned |= u64::from(record.pins != 0) << frame;
        low |= u64::from(record.usage & 1) << frame;
        high |= u64::from(record.usage >> 1) << frame;
    }
    let swept = swept & !roots & u64::MAX >> (64 - records.len());
    let open = swept & !(pinned | parents(pool));
    Looked {
        open: [open & !low & !high, open & low & !high, open & !low & high, open & low & high],
        warmed: swept & pinned & !(low & high),
    }
}
