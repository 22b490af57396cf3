//! Rules 9, 14 and 16: which numbers stand in the words of a store.
use super::page::{name, overlaid, overlay, stored_words, words, Page};
use super::seen::{with_table, Numbers};
use super::{frame_of, PageNumber};
use pagepool::{Pool, StoreNumber};

/// Whether a page of a store, which has these pages, is named by one that isn't resident. Its words, and residence, are asked for
/// only where one of their halves is the number, whatever its mark.
pub fn is_stored(pool: &Pool, store: &[Page], of_store: StoreNumber, page: PageNumber) -> bool {
    store.iter().enumerate().any(|(other, stored)| {
        has_half(stored, page.0)
            && words(stored).map(name).contains(&page.into())
            && frame_of(pool, of_store, PageNumber(other as u16)).is_none()
    })
}

/// Whether a half of one of a page's words is a number.
fn has_half(page: &Page, number: u16) -> bool {
    let halves = stored_words(page).as_flattened().as_chunks().0;
    halves.iter().fold(false, |hit, half| hit | (u16::from_le_bytes(*half) == number))
}

/// Whether a stored page may come in beside the resident pages of its store, whose names are in the table.
pub fn may_come_in<const MOST: usize>(stored: &Page, pages: PageNumber, seen: &mut Numbers<MOST>) -> bool {
    overlaid(stored) == 0 || add_words(stored, pages.into(), seen)
}

/// Whether each of the stores, of so many pages, is sound. Pages without words are skipped.
pub fn are_sound(stores: &[Page], pages: usize) -> bool {
    let first = StoreNumber(0);
    stores.chunks_exact(pages).all(|store| with_table!(1, pages, |seen| is_sound(store, seen.of(first))))
}

fn is_sound<const MOST: usize>(store: &[Page], seen: &mut Numbers<MOST>) -> bool {
    store.iter().all(|page| overlaid(page) == 0 || add_words(page, store.len() as u32, seen))
}

/// Adds the words of a page to the table: whether each is 0, or names a page from 1 to N - 1 that is new, marked or not. Four words
/// of 0 are passed over at once.
fn add_words<const MOST: usize>(page: &Page, pages: u32, seen: &mut Numbers<MOST>) -> bool {
    let mut fits = |word: &u32| {
        let page = name(*word);
        *word == 0 || (page < pages && !seen.add(page))
    };
    words(page).chunks_exact(4).all(|four| overlay(four) == 0 || four.iter().all(&mut fits))
}
