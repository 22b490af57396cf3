//! Changes of the frames and the store.
use super::occupied;
use crate::records::{
    page_of_mut, put_word, State, LOCK_BIT, MOST_FRAMES, PAGE_SIZE, PAYLOAD_SIZE, PAYLOAD_START, SLOTS,
    SWIZZLE_BIT,
};
use random::Random;

/// The frames or the store.
fn either<'a>(random: &mut Random, state: &'a mut State) -> &'a mut Vec<u8> {
    if random.percent(65) {
        &mut state.frames
    } else {
        &mut state.store
    }
}

/// One bit turned, most of the time of a word.
pub fn bit(random: &mut Random, state: &mut State) {
    let bytes = either(random, state);
    if bytes.len() < PAGE_SIZE {
        return;
    }
    let page = random.below(bytes.len() / PAGE_SIZE);
    let end = if random.percent(80) { PAYLOAD_START } else { PAGE_SIZE };
    page_of_mut(bytes, page)[random.below(end)] ^= 1 << random.below(8);
}

/// A word that may fit nowhere, at times marked: about N, about F, a frame, a resident page, or any.
fn odd_word(random: &mut Random, state: &State) -> u32 {
    let (count, pages) = (u32::from(state.pool.count), u32::from(state.pool.pages));
    let record = random.pick(&state.pool.records);
    let frame = random.below(MOST_FRAMES) as u32;
    let mark = if random.percent(25) { LOCK_BIT } else { 0 };
    mark ^ match random.below(8) {
        0 => 0,
        1 => random.pick(&[1, pages.wrapping_sub(1), pages, pages + 1, LOCK_BIT - 1, SWIZZLE_BIT - 1]),
        2 => SWIZZLE_BIT | random.pick(&[0, count.wrapping_sub(1), count, 64, 255, 1 << 29]),
        3 => SWIZZLE_BIT | (frame % count.max(1)),
        4 => SWIZZLE_BIT | frame << 8 | (frame % count.max(1)),
        5 => record.page.into(),
        6 => random.below(usize::from(state.pool.pages).max(1)) as u32,
        _ => random.draw() as u32,
    }
}

fn put_odd_word(random: &mut Random, bytes: &mut [u8], page: usize, word: u32) {
    put_word(page_of_mut(bytes, page), random.below(SLOTS), word);
}

/// A word of an occupied frame, or of the store.
pub fn word(random: &mut Random, state: &mut State) {
    if random.percent(30) {
        return stored_word(random, state);
    }
    let word = odd_word(random, state);
    if let Some(frame) = occupied(random, state) {
        put_odd_word(random, &mut state.frames, frame.into(), word);
    }
}

pub fn stored_word(random: &mut Random, state: &mut State) {
    let word = odd_word(random, state);
    let pages = state.store.len() / PAGE_SIZE;
    if pages > 0 {
        let page = random.below(pages);
        put_odd_word(random, &mut state.store, page, word);
    }
}

/// A whole page cleared, made up, or copied from another.
fn change_page(random: &mut Random, bytes: &mut [u8]) {
    let pages = bytes.len() / PAGE_SIZE;
    if pages == 0 {
        return;
    }
    let (page, other) = (random.below(pages), random.below(pages));
    match random.below(3) {
        0 => page_of_mut(bytes, page).fill(0),
        1 => random.fill(page_of_mut(bytes, page)),
        _ => bytes.copy_within(PAGE_SIZE * other..PAGE_SIZE * (other + 1), PAGE_SIZE * page),
    }
}

pub fn page(random: &mut Random, state: &mut State) {
    let bytes = either(random, state);
    change_page(random, bytes);
}

pub fn stored_page(random: &mut Random, state: &mut State) {
    change_page(random, &mut state.store);
}

/// A payload byte of a frame.
pub fn payload(random: &mut Random, state: &mut State) {
    if let Some(frame) = random.choose(0..state.frames.len() / PAGE_SIZE) {
        let at = PAYLOAD_START + random.below(PAYLOAD_SIZE);
        page_of_mut(&mut state.frames, frame)[at] ^= 1 << random.below(8);
    }
}

/// Frames or store longer or shorter by a byte or a page, or empty; at times with the records' figure.
pub fn lengths(random: &mut Random, state: &mut State) {
    let kind = random.below(6);
    let with_figures = random.percent(25);
    let bytes = either(random, state);
    let length = match kind {
        0 => 0,
        1 => bytes.len() + 1,
        2 => bytes.len().saturating_sub(1),
        3 => bytes.len().saturating_sub(PAGE_SIZE),
        4 => PAGE_SIZE,
        _ => bytes.len() + PAGE_SIZE,
    };
    bytes.resize(length, 0);
    if with_figures {
        state.pool.count = (state.frames.len() / PAGE_SIZE) as u16;
        state.pool.pages = (state.store.len() / PAGE_SIZE / usize::from(state.pool.stores).max(1)) as u16;
    }
}
