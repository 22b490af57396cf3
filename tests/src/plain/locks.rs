//! Request A.8, of every list: "Whoever writes, links, unlinks or inserts in a locked page is refused, so its payload in the map
//! never changes while the marked word stands."
use super::{Check, Plain};
use crate::calls::{Answer, Call};
use crate::ensure;
use crate::model::locks::Lock;
use crate::pool::{Machine, Named};
use crate::records::{
    is_marked, page_of, unmarked, word_in, Page, PageNumber, State, StoreNumber, PAYLOAD_SIZE, SLOTS,
};
use std::collections::{BTreeMap, BTreeSet};

/// The pages that marked words of the map name, wherever these stand, each with the bytes that it has had in the map since. Beside
/// them those whose mark is gone.
#[derive(Clone, Default)]
pub struct Locks {
    kept: BTreeMap<Page, Vec<u8>>,
    left: BTreeMap<Page, Vec<u8>>,
}

impl Locks {
    /// Those of the first store's first so many pages.
    pub(super) fn of_first(mut self, pages: usize) -> Locks {
        let is_there = |page: &Page| page.store == StoreNumber(0) && usize::from(page.number) < pages;
        self.kept.retain(|page, _| is_there(page));
        self.left.retain(|page, _| is_there(page));
        self
    }
}

impl Plain {
    /// The word in a slot of a page, apart.
    pub(super) fn word(&self, page: Page, slot: usize) -> Named {
        let word = word_in(self.page(page), slot);
        Named { page: PageNumber(unmarked(word) as u16), locked: is_marked(word) }
    }

    /// The pages that marked words name.
    fn marked(&self) -> BTreeSet<Page> {
        let words = |page| (0..SLOTS).map(move |slot| (page, self.word(page, slot)));
        let marked = self.all_pages().flat_map(words).filter(|(_, word)| word.locked);
        marked.map(|(page, word)| page.beside(word.page)).collect()
    }

    fn is_locked(&self, page: Page) -> bool {
        self.locks.kept.contains_key(&page)
    }

    /// Whether a call is an edit that breaks no rule before 26, and if so whether its page is locked.
    pub fn foretell_lock(&self, machine: &impl Machine, state: &State, call: &Call) -> Option<bool> {
        let (handle, fits) = match call {
            Call::Write(handle, offset, bytes) => {
                (handle, *offset <= PAYLOAD_SIZE && bytes.len() <= PAYLOAD_SIZE - offset)
            }
            Call::Link(handle, slot, ..) | Call::Unlink(handle, slot) => (handle, *slot < SLOTS),
            _ => return None,
        };
        (fits && self.is_held(machine, state, *handle)).then(|| self.is_locked(Page::from(*handle)))
    }

    /// What was foretold, and whatever the handle: no edit of a page that a marked word names is accepted.
    pub fn check_edit(&self, call: &Call, locked: Option<bool>, answer: &Answer) -> Check {
        ensure!((*answer == Answer::Refused(26)) == (locked == Some(true)), "locked {locked:?}: {answer:?}");
        if let Call::Write(handle, ..) | Call::Link(handle, ..) | Call::Unlink(handle, _) = call {
            let page = Page::from(*handle);
            ensure!(!answer.accepted() || !self.is_locked(page), "accepted in page {page}, which is locked");
        }
        Ok(())
    }

    /// After a call, an accepted open too: what a marked word named before it has the bytes that it had since that word stands.
    pub fn check_kept(&self) -> Check {
        for (page, bytes) in &self.locks.kept {
            ensure!(self.page(*page) == bytes, "page {page}, which is locked, has other bytes in the map");
        }
        Ok(())
    }

    /// The locked pages anew, once the map's words may have changed, by an open or not. Gives what was met.
    pub fn follow_locks(&mut self, opened: bool) -> Vec<Lock> {
        let (marked, mut met) = (self.marked(), Vec::new());
        let Locks { mut kept, left } = std::mem::take(&mut self.locks);
        for (page, bytes) in left {
            if self.page(page) != bytes {
                met.push(Lock::ChangedUnmarked);
            } else if !marked.contains(&page) {
                self.locks.left.insert(page, bytes);
            }
        }
        for page in marked {
            let stood = kept.remove(&page);
            met.extend((opened && stood.is_some()).then_some(Lock::StoodOverOpen));
            let bytes = stood.unwrap_or_else(|| self.page(page).to_vec());
            self.locks.kept.insert(page, bytes);
        }
        self.locks.left.extend(kept);
        met
    }

    /// Inside a list a root is never locked, a locked page is never dirty, and its store has its bytes.
    pub fn check_locked(&self, state: &State) -> Check {
        for root in state.store_numbers().map(Page::root) {
            ensure!(!self.is_locked(root), "page {root} is locked");
        }
        for (frame, record) in state.occupied().filter(|(_, record)| record.is_dirty()) {
            let page = Page::from(record);
            ensure!(!self.is_locked(page), "page {page}, which is locked, is dirty in frame {frame}");
        }
        for (page, bytes) in &self.locks.kept {
            let stored = page_of(&state.store, page.place(state.pool.pages));
            ensure!(stored == bytes, "page {page}, which is locked, has other bytes in the store");
        }
        Ok(())
    }
}
