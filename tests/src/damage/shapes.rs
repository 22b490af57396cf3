//! Changes of records and words together, each broken in one respect alone.
use super::occupied;
use crate::records::{
    page_of_mut, put_word, unmarked, with_mark, FrameIndex, Page, PageNumber, State, LOCK_BIT, MOST_FRAMES,
    PAGE_SIZE, SLOTS, SWIZZLE_BIT,
};
use random::Random;

pub fn put_frame_word(state: &mut State, frame: FrameIndex, slot: usize, word: u32) {
    put_word(page_of_mut(&mut state.frames, frame.into()), slot, word);
}

/// Takes a frame out of its parent and hangs it below another, by record and word, which is marked or not.
fn hang(state: &mut State, frame: FrameIndex, parent: FrameIndex, slot: usize, locked: bool) {
    let old = *state.pool.record(frame);
    if usize::from(old.parent) < state.frame_count() && usize::from(old.slot) < SLOTS {
        put_frame_word(state, old.parent, old.slot.into(), 0);
    }
    put_frame_word(state, parent, slot, with_mark(SWIZZLE_BIT + u32::from(frame), locked));
    let record = state.pool.record_mut(frame);
    (record.parent, record.slot) = (parent, slot as u8);
}

/// An occupied frame that isn't a root's.
fn child(random: &mut Random, state: &State) -> Option<FrameIndex> {
    random.choose(state.occupied().map(|(frame, _)| frame).filter(|frame| !state.is_root(*frame)))
}

/// A slot of a frame with a word of 0.
pub fn free_slot(random: &mut Random, state: &State, frame: FrameIndex) -> Option<usize> {
    let words = state.words(frame).enumerate();
    random.choose(words.filter(|(_, word)| *word == 0).map(|(slot, _)| slot))
}

/// A frame moved below another, with record and word in agreement.
fn hang_somewhere(random: &mut Random, state: &mut State, frame: FrameIndex, parent: FrameIndex) {
    if let Some(slot) = free_slot(random, state, parent) {
        hang(state, frame, parent, slot, random.percent(30));
    }
}

/// A frame that is its own parent, or two that are each other's: each points back, and only the way to
/// the root is broken.
pub fn parent_loop(random: &mut Random, state: &mut State) {
    if let (Some(first), Some(second)) = (child(random, state), child(random, state)) {
        hang_somewhere(random, state, first, second);
        hang_somewhere(random, state, second, first);
    }
}

/// A frame moved below any other.
pub fn moved_child(random: &mut Random, state: &mut State) {
    if let (Some(frame), Some(parent)) = (child(random, state), occupied(random, state)) {
        hang_somewhere(random, state, frame, parent);
    }
}

/// A frame moved below any other, with the store of that in its record: its children keep theirs.
pub fn moved_store(random: &mut Random, state: &mut State) {
    if let (Some(frame), Some(parent)) = (child(random, state), occupied(random, state)) {
        hang_somewhere(random, state, frame, parent);
        state.pool.record_mut(frame).store = state.pool.record(parent).store;
    }
}

/// A word of 0 swizzled to the frame of a root, whose parent fields then name that word, or don't.
pub fn other_roots_word(random: &mut Random, state: &mut State) {
    let roots = usize::from(state.pool.stores).clamp(1, MOST_FRAMES);
    let root = FrameIndex(random.below(roots) as u8);
    let Some(frame) = occupied(random, state) else { return };
    if let Some(slot) = free_slot(random, state, frame) {
        put_frame_word(state, frame, slot, with_mark(SWIZZLE_BIT + u32::from(root), random.percent(30)));
        if random.percent(50) {
            let record = state.pool.record_mut(root);
            (record.parent, record.slot) = (frame, slot as u8);
        }
    }
}

/// A frame whose parent names it beyond the last slot, in the payload.
pub fn slot_in_payload(random: &mut Random, state: &mut State) {
    if let (Some(frame), Some(parent)) = (child(random, state), occupied(random, state)) {
        let slot = random.pick(&[SLOTS, SLOTS + 1, 63]);
        hang(state, frame, parent, slot, random.percent(30));
    }
}

/// A frame below an empty one, whose bytes name it.
pub fn below_empty(random: &mut Random, state: &mut State) {
    let used = |frame: &FrameIndex| state.pool.record(*frame).is_used();
    let empty = random.choose((0..state.frame_count() as u8).map(FrameIndex).filter(|frame| !used(frame)));
    if let (Some(frame), Some(parent)) = (child(random, state), empty) {
        let slot = random.below(SLOTS);
        hang(state, frame, parent, slot, random.percent(30));
    }
}

/// The root's first word swizzled to a frame whose parent fields are 0: the root's own, or an empty one.
pub fn first_word(random: &mut Random, state: &mut State) {
    if state.frame_count() > 0 {
        let any = random.below(state.frame_count()) as u32;
        let frame = random.pick(&[0, any, any, state.pool.count.into(), 63, 64]);
        put_frame_word(state, FrameIndex(0), 0, with_mark(SWIZZLE_BIT + frame, random.percent(40)));
    }
}

/// A page that a word of the occupied frames gives by its number, which is of the frame's store.
fn number(random: &mut Random, state: &State) -> Option<Page> {
    let words =
        state.occupied().flat_map(|(frame, record)| state.words(frame).map(|word| (record.store, word)));
    let numbers = words.filter(|(_, word)| *word != 0 && *word < SWIZZLE_BIT);
    random.choose(numbers.map(|(store, word)| Page { store, number: PageNumber(unmarked(word) as u16) }))
}

/// A page number that stands in two words of occupied frames.
pub fn number_twice(random: &mut Random, state: &mut State) {
    if let (Some(page), Some(frame)) = (number(random, state), occupied(random, state)) {
        if let Some(slot) = free_slot(random, state, frame) {
            put_frame_word(state, frame, slot, with_mark(page.number.into(), random.percent(30)));
        }
    }
}

/// A stored page that could be loaded next, with words that it may not have.
pub fn spoilt_load(random: &mut Random, state: &mut State) {
    let Some(page) = number(random, state) else {
        return;
    };
    let words = unloadable(random, state, page.number.into());
    if let Some(stored) = state.store.chunks_exact_mut(PAGE_SIZE).nth(page.place(state.pool.pages)) {
        for word in words {
            put_word(stored, random.below(SLOTS), with_mark(word, random.percent(30)));
        }
    }
}

/// A swizzled word, a number not below N, the page's own, a resident page's, any, bit 30 alone, or any twice.
fn unloadable(random: &mut Random, state: &State, page: u32) -> Vec<u32> {
    let pages = state.pool.pages.max(1).into();
    let any = random.below(pages) as u32;
    match random.below(7) {
        0 => vec![SWIZZLE_BIT | random.below(64) as u32],
        1 => vec![(pages + random.below(3)) as u32],
        2 => vec![page],
        3 => occupied(random, state).map(|frame| state.pool.record(frame).page.into()).into_iter().collect(),
        4 => vec![any],
        5 => vec![LOCK_BIT],
        _ => vec![any; 2],
    }
}
