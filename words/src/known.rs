//! What the accepted calls of a recording tell of the listing's pool: which page each slot names, which frame holds it, and its
//! pins.
use crate::listing::Line;
use crate::record::Call;
use std::collections::BTreeMap;

/// The listing's pool, from its opening over zero pages on.
#[derive(Clone)]
pub struct Known {
    /// The page in each slot of each page, by the links and unlinks.
    named: BTreeMap<(u16, u8), u16>,
    /// The page in each frame. What was in a frame that a fix answers has left it.
    held: BTreeMap<u8, u16>,
    /// The roots and fixes of each page less its unfixes.
    pins: BTreeMap<u16, u32>,
}

impl Known {
    /// The root is in frame 0, and nothing else is anywhere.
    pub fn opened() -> Known {
        Known { named: BTreeMap::new(), held: BTreeMap::from([(0, 0)]), pins: BTreeMap::new() }
    }

    /// An accepted call, and the line that it answered.
    pub fn feed(&mut self, call: &Call, line: Line) {
        match call {
            Call::Root | Call::Fix { .. } => {
                self.held.insert(line.frame, line.page);
                *self.pins.entry(line.page).or_default() += 1;
            }
            Call::Unfix { handle } => {
                let pins = self.pins.entry(handle.page).or_default();
                *pins = pins.saturating_sub(1);
            }
            Call::Link { page, slot, handle } => {
                self.named.insert((handle.page, *slot), *page);
            }
            Call::Unlink { slot, handle } => {
                self.named.remove(&(handle.page, *slot));
            }
            Call::Evict { page } => self.held.retain(|_, held| held != page),
            Call::Write { .. } | Call::Settle | Call::Find { .. } => (),
        }
    }

    /// The page that a slot of a page names.
    pub fn named(&self, page: u16, slot: u8) -> Option<u16> {
        self.named.get(&(page, slot)).copied()
    }

    /// The page that names a page, and its slot.
    pub fn namer(&self, page: u16) -> Option<(u16, u8)> {
        self.named.iter().find(|(_, named)| **named == page).map(|(namer, _)| *namer)
    }

    /// The frame that holds a page.
    pub fn frame(&self, page: u16) -> Option<u8> {
        self.held.iter().find(|(_, held)| **held == page).map(|(frame, _)| *frame)
    }

    /// The pins of a page.
    pub fn pins(&self, page: u16) -> u32 {
        self.pins.get(&page).copied().unwrap_or(0)
    }

    /// The resident pages but the root that name no resident page.
    pub fn leaves(&self) -> Vec<u16> {
        let pages = self.held.values().copied();
        pages.filter(|page| *page != 0 && self.children(*page).is_empty()).collect()
    }

    /// The resident pages that a page names, each with the slot that names it.
    pub fn children(&self, page: u16) -> Vec<(u8, u16)> {
        let slots = self.named.range((page, 0)..=(page, u8::MAX)).map(|((_, slot), named)| (*slot, *named));
        slots.filter(|(_, named)| self.frame(*named).is_some()).collect()
    }
}
