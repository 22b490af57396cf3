//! Changes of marks.
use super::{occupied, shapes};
use crate::records::{
    page_of_mut, put_word, unmarked, word_in, FrameIndex, State, LOCK_BIT, PAGE_SIZE, SLOTS, SWIZZLE_BIT,
};
use random::Random;

/// The words of a buffer's pages, each with its page and slot.
fn words_of(bytes: &[u8]) -> impl Iterator<Item = (usize, usize, u32)> + '_ {
    let pages = bytes.chunks_exact(PAGE_SIZE).enumerate();
    pages.flat_map(|(page, bytes)| (0..SLOTS).map(move |slot| (page, slot, word_in(bytes, slot))))
}

/// The words of occupied frames that aren't 0, each with its frame and slot.
fn naming(state: &State) -> impl Iterator<Item = (FrameIndex, usize, u32)> + '_ {
    let words = |frame| state.words(frame).enumerate().map(move |(slot, word)| (frame, slot, word));
    state.occupied().flat_map(move |(frame, _)| words(frame)).filter(|(_, _, word)| *word != 0)
}

/// A word of an occupied frame that names something marked, or its mark taken away; or all of them at once.
pub fn turned(random: &mut Random, state: &mut State) {
    let mut words: Vec<_> = naming(state).collect();
    if random.percent(80) {
        words = random.choose(words).into_iter().collect();
    }
    for (frame, slot, word) in words {
        shapes::put_frame_word(state, frame, slot, word ^ LOCK_BIT);
    }
}

/// The same for a word of the store.
pub fn turned_in_store(random: &mut Random, state: &mut State) {
    let word = random.choose(words_of(&state.store).filter(|(_, _, word)| *word != 0));
    if let Some((page, slot, word)) = word {
        put_word(page_of_mut(&mut state.store, page), slot, word ^ LOCK_BIT);
    }
}

/// Bit 30 on a word of 0: of an occupied frame, of an empty one, or of a stored page.
pub fn alone(random: &mut Random, state: &mut State) {
    let count = state.frame_count();
    let used = |frame: &usize| state.pool.records[*frame].is_used();
    let kind = random.below(3);
    let (bytes, page) = match kind {
        0 => (&state.frames, random.choose((0..count).filter(used))),
        1 => (&state.frames, random.choose((0..count).filter(|frame| !used(frame)))),
        _ => (&state.store, random.choose(0..state.store.len() / PAGE_SIZE)),
    };
    let Some(page) = page else { return };
    let of_page = words_of(bytes).filter(|(other, _, word)| *other == page && *word == 0);
    if let Some((page, slot, _)) = random.choose(of_page) {
        let bytes = if kind < 2 { &mut state.frames } else { &mut state.store };
        put_word(page_of_mut(bytes, page), slot, LOCK_BIT);
    }
}

/// A number of a word, or a resident page's own, a second time, marked where it isn't and the other way round: in place of a word
/// of 0, of an occupied frame or in the store.
pub fn other_mark_too(random: &mut Random, state: &mut State) {
    let is_number = |word: &u32| *word != 0 && *word < SWIZZLE_BIT;
    let resident: Vec<u32> = state.occupied().map(|(_, record)| record.page.into()).collect();
    let in_frames: Vec<u32> = naming(state).map(|(_, _, word)| word).filter(is_number).collect();
    let number = match random.below(4) {
        0 => random.choose(resident),
        1 => random.choose(words_of(&state.store).map(|(_, _, word)| word).filter(is_number)),
        _ => random.choose(in_frames),
    };
    let Some(word) = number.map(|number| number ^ LOCK_BIT) else { return };
    if random.percent(50) {
        let Some(frame) = occupied(random, state) else { return };
        if let Some(slot) = shapes::free_slot(random, state, frame) {
            shapes::put_frame_word(state, frame, slot, word);
        }
    } else if let Some((page, slot, _)) = random.choose(words_of(&state.store).filter(is_free)) {
        put_word(page_of_mut(&mut state.store, page), slot, word);
    }
}

/// A word of 0.
fn is_free((_, _, word): &(usize, usize, u32)) -> bool {
    *word == 0
}

/// A marked swizzled word where it may not stand: to the root's frame, to one that doesn't point back, or in the store.
pub fn swizzled(random: &mut Random, state: &mut State) {
    let any = random.below(state.frame_count().max(1)) as u32;
    let word = SWIZZLE_BIT | LOCK_BIT | random.pick(&[0, any, any, state.pool.count.into()]);
    if random.percent(60) {
        if let Some(frame) = occupied(random, state) {
            shapes::put_frame_word(state, frame, random.below(SLOTS), word);
        }
    } else if let Some((page, slot, _)) = random.choose(words_of(&state.store).filter(in_use)) {
        put_word(page_of_mut(&mut state.store, page), slot, word);
    }
}

/// A word that names a page.
fn in_use((_, _, word): &(usize, usize, u32)) -> bool {
    unmarked(*word) != 0
}
