//! Document 01, "Numbered denials", with document 02's: what each rule tests. A rule broken is its number.
use super::agreement::{agree, all_distinct};
use super::directory;
use super::{frame_of, held, is_locked, page_in, read, unswizzled, Reading};
use crate::pool::Refusal;
use crate::records::{
    page_of, stores_of, unmarked, word_in, FrameIndex, Handle, Page, PageNumber, Pool, State, StoreNumber,
    Stores, LEAST_FRAMES, MOST_FRAMES, MOST_PAGES, MOST_STORES, PAGE_SIZE, PAYLOAD_SIZE, SLOTS,
};

pub fn rule(number: Refusal, kept: bool) -> Result<(), Refusal> {
    if kept {
        Ok(())
    } else {
        Err(number)
    }
}

/// 1, for open: "Frames or store have a length other than those above." Request A.11: "T is 1 to 4 and F at least T + 1. Every store
/// has a ceiling of 1 to F resident pages, its root included"; "0 for no store"; "Figures outside these fall under refusal 1". Gives F
/// and N.
pub fn figures(frames: &[u8], store: &[u8], stores: Stores) -> Result<(u16, u16), Refusal> {
    let is = |bytes: &[u8], pages: usize| bytes.len() == PAGE_SIZE * pages;
    let stored = usize::from(stores.count);
    rule(1, (1..=MOST_STORES).contains(&stored))?;
    let count = (LEAST_FRAMES..=MOST_FRAMES).find(|count| is(frames, *count)).ok_or(1)?;
    let pages = (1..=MOST_PAGES).find(|pages| is(store, stored * pages)).ok_or(1)?;
    rule(1, count > stored)?;
    let (own, none) = stores.ceilings.split_at(stored);
    rule(1, own.iter().all(|ceiling| (1..=count).contains(&usize::from(*ceiling))))?;
    rule(1, none.iter().all(|ceiling| *ceiling == 0))?;
    Ok((count as u16, pages as u16))
}

/// 1, by request A.3: "A directory of wrong length falls under refusal 1".
pub fn directory_length(directory: &[u8]) -> Result<(), Refusal> {
    rule(1, directory::has_its_length(directory))
}

/// 1: "or other than at opening.", with the figures that "stand beside F and N".
fn lengths(state: &State) -> Result<(), Refusal> {
    let opened = figures(&state.frames, &state.store, stores_of(&state.pool))?;
    directory_length(&state.directory)?;
    rule(1, opened == (state.pool.count, state.pool.pages))
}

/// 1, and 2: "Records and frames don't agree (every call but open)." Request A.3: nor may the directory.
pub fn state(state: &State) -> Result<(), Refusal> {
    lengths(state)?;
    rule(2, agree(&state.pool, &state.frames))?;
    rule(2, directory::agrees(&state.pool, &state.directory))
}

/// 28: "the store number isn't below T, after 2".
pub fn store(pool: &Pool, store: StoreNumber) -> Result<(), Refusal> {
    rule(28, store.0 < pool.stores)
}

/// 28, and 3: "The handle's frame index isn't below F, that frame doesn't hold its page, or its pins are 0."
pub fn handle(pool: &Pool, handle: Handle) -> Result<(), Refusal> {
    store(pool, handle.store)?;
    rule(3, u16::from(handle.frame.0) < pool.count)?;
    let record = pool.record(handle.frame);
    rule(3, record.is_used() && page_in(pool, handle.frame) == Page::from(handle) && record.pins != 0)
}

/// 4: "The slot is above 15."
pub fn slot(slot: usize) -> Result<(), Refusal> {
    rule(4, slot < SLOTS)
}

/// 5: "The offset is above 192 or the length above 192 − offset."
pub fn range(offset: usize, length: usize) -> Result<(), Refusal> {
    rule(5, offset <= PAYLOAD_SIZE && length <= PAYLOAD_SIZE - offset)
}

/// 26: "the handle's page is locked, after 5 and before 6".
pub fn unlocked(state: &State, handle: Handle) -> Result<(), Refusal> {
    rule(26, !is_locked(state, handle.frame))
}

/// 6: "The page number isn't below N."
pub fn page(pool: &Pool, page: PageNumber) -> Result<(), Refusal> {
    rule(6, page.0 < pool.pages)
}

/// The same in link: ".. or is 0 in link."
pub fn linked_page(pool: &Pool, page: PageNumber) -> Result<(), Refusal> {
    rule(6, page != PageNumber(0))?;
    self::page(pool, page)
}

/// 9: "Link's page is already named by a word of any page, resident pages taken by their images and the
/// others from the store.", of the pages of its store.
pub fn unnamed(state: &State, page: Page) -> Result<(), Refusal> {
    let number = u32::from(page.number);
    let others = (0..state.pool.pages).map(|other| page.beside(PageNumber(other)));
    let named = others.into_iter().any(|other| match frame_of(&state.pool, other) {
        Some(frame) => image_names(state, frame, number),
        None => names(page_of(&state.store, other.place(state.pool.pages)), number),
    });
    rule(9, !named)
}

/// A page names another with one of its words, marked or not.
fn names(page: &[u8], number: u32) -> bool {
    (0..SLOTS).any(|slot| unmarked(word_in(page, slot)) == number)
}

/// The image of the page in a frame names a page.
pub fn image_names(state: &State, frame: FrameIndex, number: u32) -> bool {
    let page = page_of(&state.frames, frame.into());
    (0..SLOTS).any(|slot| unmarked(unswizzled(&state.pool, word_in(page, slot))) == number)
}

/// 14: "The stored page to be loaded has a word with bit 31 set, not below N, repeated within it, or
/// naming a page that a resident page already names.", one of its store. Request A.8: bit 30 "on a word of otherwise 0".
pub fn loadable(state: &State, page: Page) -> Result<(), Refusal> {
    let stored = page_of(&state.store, page.place(state.pool.pages));
    let mut numbers = Vec::new();
    for slot in 0..SLOTS {
        match read(word_in(stored, slot)) {
            Reading::Nothing => {}
            Reading::MarkAlone | Reading::Frame(_) => return Err(14),
            Reading::Page(number) => numbers.push(number),
        }
    }
    rule(14, numbers.iter().all(|number| *number < state.pool.pages.into()))?;
    rule(14, all_distinct(&numbers))?;
    let named = |number: &u32| held(&state.pool, page.store).any(|frame| image_names(state, frame, *number));
    rule(14, !numbers.iter().any(named))
}

/// 16: "every word is 0 or a page number from 1 to N − 1 and no number stands in two words." Request A.8: "Opening accepts bit 30
/// on a word naming a page and denies it on a word of otherwise 0". Request A.11: "16 is for any of them".
pub fn sound(store: &[u8], stores: u8) -> Result<(), Refusal> {
    store.chunks(store.len() / usize::from(stores)).try_for_each(sound_by_itself)
}

/// One store is.
fn sound_by_itself(store: &[u8]) -> Result<(), Refusal> {
    let pages = store.len() / PAGE_SIZE;
    let mut numbers = Vec::new();
    for (page, slot) in (0..pages).flat_map(|page| (0..SLOTS).map(move |slot| (page, slot))) {
        match read(word_in(page_of(store, page), slot)) {
            Reading::Nothing => {}
            Reading::MarkAlone | Reading::Frame(_) => return Err(16),
            Reading::Page(number) => numbers.push(number),
        }
    }
    rule(16, numbers.iter().all(|number| (*number as usize) < pages))?;
    rule(16, all_distinct(&numbers))
}
