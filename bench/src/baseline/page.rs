//! Pages of a buffer, and the words of a page.
use pagepool::{FrameIndex, LOCK_BIT, PAGE_SIZE, SLOTS};

pub const SWIZZLE_BIT: u32 = 1 << 31;

pub type Page = [u8; PAGE_SIZE];

pub fn pages_of(buffer: &[u8]) -> &[Page] {
    buffer.as_chunks().0
}

pub fn pages_of_mut(buffer: &mut [u8]) -> &mut [Page] {
    buffer.as_chunks_mut().0
}

/// The words of a page as they stand there: they are gone through in place.
pub type StoredWords = [[u8; 4]; SLOTS];

pub fn stored_words(page: &Page) -> &StoredWords {
    page.as_chunks().0.first_chunk().expect("a page begins with its words")
}

/// The words of a page without their marks.
pub fn unmarked(page: &Page) -> StoredWords {
    words(page).map(|word| name(word).to_le_bytes())
}

/// Whether a word of a page is a mark alone.
pub fn has_mark_alone(page: &Page) -> bool {
    words(page).iter().fold(false, |alone, word| alone | (*word == LOCK_BIT))
}

/// The words of a page, by slot.
#[inline(always)]
pub fn words(page: &Page) -> [u32; SLOTS] {
    std::array::from_fn(|slot| word(page, slot))
}

pub fn word(page: &Page, slot: usize) -> u32 {
    u32::from_le_bytes(page.as_chunks().0[slot])
}

pub fn put_word(page: &mut Page, slot: usize, word: u32) {
    page.as_chunks_mut().0[slot] = word.to_le_bytes();
}

/// A word without its mark: what it names.
pub fn name(word: u32) -> u32 {
    word & !LOCK_BIT
}

pub fn is_marked(word: u32) -> bool {
    word & LOCK_BIT != 0
}

/// Puts another name into a word, which keeps its mark.
pub fn put_name(page: &mut Page, slot: usize, name: u32) {
    let mark = word(page, slot) & LOCK_BIT;
    put_word(page, slot, mark | name);
}

pub fn swizzled_to(frame: FrameIndex) -> u32 {
    SWIZZLE_BIT | u32::from(frame)
}

/// The words of a page, overlaid.
pub fn overlaid(page: &Page) -> u32 {
    overlay(&words(page))
}

/// Words overlaid: 0 where each is.
pub fn overlay(words: &[u32]) -> u32 {
    words.iter().fold(0, |bits, word| bits | word)
}

/// Whether a word of the page is swizzled.
pub fn has_swizzled(page: &Page) -> bool {
    overlaid(page) >= SWIZZLE_BIT
}
