//! Which pages are resident: "A page is resident where find would give a frame, and that is its frame."
use crate::ensure;
use crate::pool::{Machine, Refusal};
use crate::records::{FrameIndex, Handle, Page, PageNumber, State};
use std::collections::BTreeMap;

/// The frame that find gives, by however many entries compared.
pub fn frame_found(machine: &impl Machine, state: &State, page: Page) -> Result<Option<FrameIndex>, Refusal> {
    machine.find(state, page).map(|found| found.frame)
}

pub struct Residency {
    frame_of: BTreeMap<Page, FrameIndex>,
    page_in: Vec<Option<Page>>,
}

impl Residency {
    /// Asks for every page of every store. "No two share one."
    pub fn of_all(machine: &impl Machine, state: &State) -> Result<Residency, String> {
        let pages =
            |store| (0..state.pool.pages).map(move |number| Page { store, number: PageNumber(number) });
        Self::of(machine, state, state.store_numbers().flat_map(pages))
    }

    /// Asks for the pages in the records alone: the same answer wherever records and find agree.
    pub fn of_recorded(machine: &impl Machine, state: &State) -> Result<Residency, String> {
        let recorded = state.pool.records.iter().filter(|record| record.is_used());
        Self::of(machine, state, recorded.map(Page::from))
    }

    fn of(
        machine: &impl Machine,
        state: &State,
        pages: impl Iterator<Item = Page>,
    ) -> Result<Residency, String> {
        let mut resident =
            Residency { frame_of: BTreeMap::new(), page_in: vec![None; state.pool.count.into()] };
        for page in pages {
            let found = frame_found(machine, state, page);
            let found = found.map_err(|number| format!("find of {page} gives {number}"))?;
            if let Some(frame) = found {
                resident.put(page, frame)?;
            }
        }
        Ok(resident)
    }

    fn put(&mut self, page: Page, frame: FrameIndex) -> Result<(), String> {
        ensure!(usize::from(frame) < self.page_in.len(), "page {page} in frame {frame}");
        let other = self.page_in[usize::from(frame)].replace(page);
        ensure!(other.is_none(), "pages {page} and {other:?} in frame {frame}");
        self.frame_of.insert(page, frame);
        Ok(())
    }

    pub fn frame(&self, page: Page) -> Option<FrameIndex> {
        self.frame_of.get(&page).copied()
    }

    /// The resident pages, each with its frame.
    pub fn handles(&self) -> impl Iterator<Item = Handle> + '_ {
        let pages = (0..).map(FrameIndex).zip(&self.page_in);
        pages.filter_map(|(frame, page)| {
            page.map(|page| Handle { frame, store: page.store, page: page.number })
        })
    }

    pub fn pages(&self) -> impl Iterator<Item = Page> + '_ {
        self.page_in.iter().flatten().copied()
    }

    pub fn empty_frames(&self) -> impl Iterator<Item = FrameIndex> + '_ {
        (0..).map(FrameIndex).zip(&self.page_in).filter(|(_, page)| page.is_none()).map(|(frame, _)| frame)
    }

    /// No frame is empty.
    pub fn is_full(&self) -> bool {
        self.empty_frames().next().is_none()
    }
}
