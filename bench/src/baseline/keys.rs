//! The page in each frame, in one number with its store.
use pagepool::{FrameRecord, PageNumber, StoreNumber, MOST_FRAMES, MOST_PAGES};

/// By frame the page's key, 0 for none: 4,096 times its store and its number there. The first root's is 0 too, in frame 0.
pub struct Keys([u16; MOST_FRAMES]);

/// How far the keys of a store are from those of the next.
const STEP: u16 = MOST_PAGES as u16;

impl Keys {
    pub const NONE: Keys = Keys([0; MOST_FRAMES]);

    /// Those of records that are all zero where their frames are empty.
    pub fn of(records: &[FrameRecord; MOST_FRAMES]) -> Keys {
        Keys(records.map(|record| key(record.store, record.page)))
    }

    pub fn put(&mut self, frame: usize, store: StoreNumber, page: PageNumber) {
        self.0[frame] = key(store, page);
    }

    /// How many frames hold a page of a store.
    pub fn held(&self, store: StoreNumber) -> u16 {
        let is_own = |key: &u16| u16::from((*key != 0) & (*key / STEP == u16::from(store.0)));
        self.0.iter().map(is_own).sum::<u16>() + u16::from(store == StoreNumber(0))
    }

    /// How many frames hold a page.
    pub fn occupied(&self) -> u16 {
        self.0.iter().map(|key| u16::from(*key != 0)).sum::<u16>() + 1
    }

    /// By frame what is made of the page's number, none where it is empty.
    pub fn by_page(&self, none: u16, made: impl Fn(u16) -> u16) -> [u16; MOST_FRAMES] {
        let mut by_frame = self.0.map(|key| if key == 0 { none } else { made(key % STEP) });
        by_frame[0] = made(0);
        by_frame
    }
}

fn key(store: StoreNumber, page: PageNumber) -> u16 {
    STEP * u16::from(store.0) + page.0
}
