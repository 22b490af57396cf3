//! What demand 3 says of every point of a list.
use super::residency::Residency;
use super::{Check, Plain};
use crate::calls::{Answer, Call};
use crate::ensure;
use crate::pool::Machine;
use crate::records::{
    page, page_of, put_word, with_mark, word_in, FrameIndex, FrameRecord, Page, State, LOCK_BIT, SLOTS,
    SWIZZLE_BIT,
};

impl Plain {
    /// Everything that is said of a point of the list, and what the calls that change nothing would
    /// answer there.
    pub fn check_point(&self, machine: &impl Machine, state: &State) -> Check {
        let resident = Residency::of_all(machine, state)?;
        self.check_empty_frames(state, &resident)?;
        self.check_ceilings(state, &resident)?;
        self.check_pinned(&resident)?;
        self.check_tree(&resident)?;
        self.check_frames(state, &resident)?;
        self.check_store(state)?;
        self.check_locked(state)?;
        self.check_settle(machine, state)?;
        self.check_peeks(machine, state)?;
        self.check_handles(machine, state, &resident)
    }

    /// "A frame that is no page's is empty."
    fn check_empty_frames(&self, state: &State, resident: &Residency) -> Check {
        for frame in resident.empty_frames() {
            let record = state.pool.record(frame);
            ensure!(*record == FrameRecord::EMPTY, "frame {frame} has {record:?}");
        }
        Ok(())
    }

    /// Request A.11: no store has more resident pages than its ceiling, and a frame's record names the store of its page.
    fn check_ceilings(&self, state: &State, resident: &Residency) -> Check {
        for store in state.store_numbers() {
            let pages = resident.pages().filter(|page| page.store == store).count();
            let most = self.stores.ceilings[usize::from(store)];
            ensure!(pages <= most.into(), "{pages} pages of store {store}, whose ceiling is {most}");
        }
        for handle in resident.handles() {
            let (page, record) = (Page::from(handle), state.pool.record(handle.frame));
            ensure!(Page::from(record) == page, "page {page}, and {record:?}");
        }
        Ok(())
    }

    /// "From the answer that pins it until it is pinned no more, its frame is the one in that answer."
    fn check_pinned(&self, resident: &Residency) -> Check {
        for page in self.all_pages().filter(|page| self.pinned(*page)) {
            let kept = self.balance(page).frame;
            let frame = resident.frame(page);
            ensure!(frame == Some(kept), "page {page} pinned in {kept}, now {frame:?}");
        }
        Ok(())
    }

    /// "the root is resident. Every other resident page is named by exactly one word of the resident
    /// pages in the map", and parents lead to the root. Request A.11: "frames 0 to T − 1 hold their roots", with "one resident tree
    /// under each root".
    fn check_tree(&self, resident: &Residency) -> Check {
        for store in 0..self.stores.count {
            let root = resident.frame(page(store, 0));
            ensure!(root == Some(FrameIndex(store)), "the root of store {store} is in {root:?}");
        }
        for page in resident.pages() {
            let mut at = page;
            for _ in resident.pages() {
                at = if at.is_root() { at } else { self.parent(resident, at)? };
            }
            ensure!(at == Page::root(page.store), "page {page} isn't below its root");
        }
        Ok(())
    }

    /// The one resident page that names a page.
    fn parent(&self, resident: &Residency, page: Page) -> Result<Page, String> {
        let namers: Vec<Page> = resident
            .pages()
            .filter(|other| other.store == page.store)
            .flat_map(|other| (0..SLOTS).map(move |slot| (other, slot)))
            .filter(|(other, slot)| self.named(*other, *slot) == page)
            .map(|(other, _)| other)
            .collect();
        ensure!(namers.len() == 1, "page {page} is named by {namers:?}");
        Ok(namers[0])
    }

    /// "In its frame a resident page has its bytes in the map, except that a word naming a resident
    /// page is swizzled to that page's frame."
    fn check_frames(&self, state: &State, resident: &Residency) -> Check {
        for handle in resident.handles() {
            let (frame, page) = (handle.frame, Page::from(handle));
            let held = page_of(&state.frames, frame.into());
            ensure!(held == self.swizzled(resident, page), "page {page} in frame {frame} isn't the map's");
        }
        Ok(())
    }

    /// A page's bytes in the map, with the words that name resident pages swizzled, which keep their marks.
    fn swizzled(&self, resident: &Residency, page: Page) -> Vec<u8> {
        let mut bytes = self.page(page).to_vec();
        for slot in 0..SLOTS {
            let (child, locked) = (self.named(page, slot), self.word(page, slot).locked);
            if let Some(frame) = resident.frame(child).filter(|_| !child.is_root()) {
                put_word(&mut bytes, slot, with_mark(SWIZZLE_BIT + u32::from(frame), locked));
            }
        }
        bytes
    }

    /// "No word in the store has bit 31 set." Request A.8: nor is one bit 30 alone.
    fn check_store(&self, state: &State) -> Check {
        for page in self.all_pages() {
            for slot in 0..SLOTS {
                let word = word_in(page_of(&state.store, page.place(state.pool.pages)), slot);
                ensure!(
                    word < SWIZZLE_BIT && word != LOCK_BIT,
                    "{word:#x} in slot {slot} of stored page {page}"
                );
            }
        }
        Ok(())
    }

    /// A settle here would be accepted and leave the map in the store.
    fn check_settle(&self, machine: &impl Machine, state: &State) -> Check {
        let mut settled = state.clone();
        let answer = Call::Settle.make(machine, &mut settled);
        ensure!(answer == Answer::Done, "settle gives {answer:?}");
        self.check_answer(machine, &settled, &Call::Settle, &answer)
    }

    /// Every page can be found and peeked.
    fn check_peeks(&self, machine: &impl Machine, state: &State) -> Check {
        self.all_pages().try_for_each(|page| self.check_found(machine, state, page))
    }

    /// Every pinned page can be shown, and its words be read.
    fn check_handles(&self, machine: &impl Machine, state: &State, resident: &Residency) -> Check {
        for handle in resident.handles().filter(|handle| self.pinned(Page::from(*handle))) {
            let page = Page::from(handle);
            let place = machine.show(state, handle);
            let place = place.map_err(|number| format!("show of {handle:?} gives {number}"))?;
            self.check_payload(state, page, &place)?;
            for slot in 0..SLOTS {
                let word = machine.word(state, handle, slot);
                ensure!(word == Ok(self.word(page, slot)), "word {slot} of {handle:?}: {word:?}");
            }
        }
        Ok(())
    }
}
