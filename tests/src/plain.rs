//! Document 01, "The plain map and the words of demand 3": what holds along an unaltered list of calls. Request A.11: "There is one
//! plain map per store and one resident tree under each root."
mod directory;
mod locks;
mod neighbours;
mod point;
mod residency;

use crate::calls::{Answer, Call};
use crate::ensure;
use crate::pool::{Machine, Place, Refusal};
use crate::records::{
    page, page_of, page_of_mut, put_word, with_mark, FrameIndex, Handle, Page, State, StoreNumber, Stores,
    PAGE_SIZE, PAYLOAD_START, SLOTS,
};
use locks::Locks;
use residency::{frame_found, Residency};

/// Up to so many pages of all stores, a load asks find for every one.
const FEW_PAGES: usize = 64;

/// What was found wrong, in words.
pub type Check = Result<(), String>;

/// How often a page was pinned and unpinned since the open, and the frame in the answer that pinned it.
#[derive(Clone, Copy, Default)]
struct Balance {
    fixes: u64,
    unfixes: u64,
    frame: FrameIndex,
}

/// The plain map of one store with no frames, and the balance of pins of its pages.
#[derive(Clone)]
struct Map {
    bytes: Vec<u8>,
    balance: Vec<Balance>,
}

/// The plain maps by their stores, the ceilings of these, and the locked pages.
#[derive(Clone)]
pub struct Plain {
    maps: Vec<Map>,
    stores: Stores,
    locks: Locks,
}

impl Plain {
    /// "At the accepted open it is the store, byte for byte", and no page is pinned.
    pub fn open(store: &[u8], stores: Stores) -> Plain {
        let pages = store.len() / PAGE_SIZE / usize::from(stores.count);
        let map = |bytes: &[u8]| Map { bytes: bytes.to_vec(), balance: vec![Balance::default(); pages] };
        Plain { maps: store.chunks(PAGE_SIZE * pages).map(map).collect(), stores, locks: Locks::default() }
    }

    /// The same at an accepted open within a list: what is said of locked pages goes on across it, where a page is in the same place
    /// after it, which with another N are those of store 0 alone.
    pub fn reopen(&mut self, store: &[u8], stores: Stores) {
        let opened = Plain::open(store, stores);
        let locks = std::mem::take(&mut self.locks);
        let locks = if opened.pages() == self.pages() { locks } else { locks.of_first(opened.pages()) };
        *self = Plain { locks, ..opened };
    }

    /// N.
    fn pages(&self) -> usize {
        self.maps[0].balance.len()
    }

    /// The pages of all stores.
    fn all_pages(&self) -> impl Iterator<Item = Page> {
        let (stores, pages) = (self.maps.len() as u8, self.pages() as u16);
        (0..stores).flat_map(move |store| (0..pages).map(move |number| page(store, number)))
    }

    /// The maps one after another, as the stores are.
    fn bytes(&self) -> Vec<u8> {
        self.maps.iter().flat_map(|map| map.bytes.iter().copied()).collect()
    }

    fn balance(&self, page: Page) -> &Balance {
        &self.maps[usize::from(page.store)].balance[usize::from(page.number)]
    }

    fn balance_mut(&mut self, page: Page) -> &mut Balance {
        &mut self.maps[usize::from(page.store)].balance[usize::from(page.number)]
    }

    /// Feeds the map a call's name, its arguments and whether it was accepted.
    pub fn feed(&mut self, call: &Call, accepted: bool) {
        if !accepted {
            return;
        }
        match call {
            Call::Write(handle, offset, bytes) => {
                let start = PAYLOAD_START + offset;
                self.page_mut(Page::from(*handle))[start..start + bytes.len()].copy_from_slice(bytes);
            }
            Call::Link(handle, slot, number, locked) => {
                put_word(self.page_mut(Page::from(*handle)), *slot, with_mark((*number).into(), *locked));
            }
            Call::Unlink(handle, slot) => put_word(self.page_mut(Page::from(*handle)), *slot, 0),
            _ => {}
        }
    }

    /// Counts the pin that an answer gives or an accepted unfix takes.
    pub fn count(&mut self, call: &Call, answer: &Answer) {
        match (call, answer) {
            (_, Answer::Fixed(fixed)) => {
                let pinned = self.pinned(Page::from(fixed.handle));
                let balance = self.balance_mut(Page::from(fixed.handle));
                balance.fixes += 1;
                if !pinned {
                    balance.frame = fixed.handle.frame;
                }
            }
            (Call::Unfix(handle), Answer::Done) => {
                self.balance_mut(Page::from(*handle)).unfixes += 1;
            }
            _ => {}
        }
    }

    fn page(&self, page: Page) -> &[u8] {
        page_of(&self.maps[usize::from(page.store)].bytes, page.number.into())
    }

    fn page_mut(&mut self, page: Page) -> &mut [u8] {
        page_of_mut(&mut self.maps[usize::from(page.store)].bytes, page.number.into())
    }

    /// The page that a slot of a page names, the root for none.
    fn named(&self, page: Page, slot: usize) -> Page {
        page.beside(self.word(page, slot).page)
    }

    /// "the accepted roots and fixes that answered its number outnumber the accepted unfixes of it"
    fn pinned(&self, page: Page) -> bool {
        let balance = self.balance(page);
        balance.fixes > balance.unfixes
    }

    /// A call's answer is the map's. The state is the one that the call left.
    pub fn check_answer(&self, machine: &impl Machine, state: &State, call: &Call, answer: &Answer) -> Check {
        match (call, answer) {
            // an open may name figures that don't fit
            (Call::Open(_), Answer::Refused(1)) => {}
            (_, Answer::Refused(number)) => {
                ensure!(![1, 2, 14].contains(number), "{number} in an unaltered list");
            }
            (Call::Show(handle), Answer::Place(place)) => {
                self.check_payload(state, Page::from(*handle), place)?;
            }
            (Call::Peek(store, number), Answer::Place(place)) => {
                self.check_payload(state, page(*store, *number), place)?
            }
            (Call::Word(handle, slot), Answer::Named(named)) => {
                ensure!(*named == self.word(Page::from(*handle), *slot), "word gives {named:?}");
            }
            (Call::Root(store), Answer::Fixed(fixed)) => {
                self.check_handle(machine, state, page(*store, 0), fixed.handle)?;
            }
            (Call::Fix(handle, slot), Answer::Fixed(fixed)) => {
                let page = self.named(Page::from(*handle), *slot);
                self.check_handle(machine, state, page, fixed.handle)?;
            }
            (Call::Settle, Answer::Done) => {
                ensure!(state.store == self.bytes(), "the settled stores aren't the maps");
            }
            _ => {}
        }
        Ok(())
    }

    fn check_payload(&self, state: &State, page: Page, place: &Place) -> Check {
        let payload = &self.page(page)[PAYLOAD_START..];
        ensure!(place.bytes(state) == Some(payload), "page {page} shown at {place:?}");
        Ok(())
    }

    fn check_handle(&self, machine: &impl Machine, state: &State, page: Page, handle: Handle) -> Check {
        ensure!(Page::from(handle) == page, "{handle:?} for page {page}");
        let found = frame_found(machine, state, page);
        ensure!(found == Ok(Some(handle.frame)), "{handle:?} found at {found:?}");
        Ok(())
    }

    /// Whether a call asks for a load, and if so the number by which that must be denied a frame, if it must be.
    pub fn foretell_denial(
        &self,
        machine: &impl Machine,
        state: &State,
        call: &Call,
    ) -> Result<Option<Option<Refusal>>, String> {
        let Call::Fix(handle, slot) = *call else {
            return Ok(None);
        };
        if !self.asks_load(machine, state, handle, slot) {
            return Ok(None);
        }
        let resident = if self.pages() * self.maps.len() <= FEW_PAGES {
            Residency::of_all(machine, state)?
        } else {
            Residency::of_recorded(machine, state)?
        };
        Ok(Some(self.denied_by(&resident, handle.store)))
    }

    /// "a page that isn't resident is to come in and no rule tested before 15 is broken"
    fn asks_load(&self, machine: &impl Machine, state: &State, handle: Handle, slot: usize) -> bool {
        if !self.is_held(machine, state, handle) || slot >= SLOTS {
            return false;
        }
        let page = self.named(Page::from(handle), slot);
        !page.is_root() && frame_found(machine, state, page) == Ok(None)
    }

    /// A handle of a page that is pinned in its frame.
    fn is_held(&self, machine: &impl Machine, state: &State, handle: Handle) -> bool {
        usize::from(handle.store) < self.maps.len()
            && usize::from(handle.page) < self.pages()
            && self.pinned(Page::from(handle))
            && frame_found(machine, state, Page::from(handle)) == Ok(Some(handle.frame))
    }

    /// The number by which a load of a store is denied a frame. 15 where it is below its ceiling, "none is empty and every resident
    /// page but the root is pinned or has a resident child", "every root excepted"; 27 where it is at its ceiling and "each of its own
    /// resident pages but its root is pinned or has a resident child".
    fn denied_by(&self, resident: &Residency, store: StoreNumber) -> Option<Refusal> {
        let has_child = |page| {
            let named = (0..SLOTS).map(|slot| self.named(page, slot));
            named.into_iter().any(|child| !child.is_root() && resident.frame(child).is_some())
        };
        let stays = |page: Page| page.is_root() || self.pinned(page) || has_child(page);
        let own: Vec<Page> = resident.pages().filter(|page| page.store == store).collect();
        if own.len() >= self.stores.ceilings[usize::from(store)].into() {
            own.into_iter().all(stays).then_some(27)
        } else {
            (resident.is_full() && resident.pages().all(stays)).then_some(15)
        }
    }
}
