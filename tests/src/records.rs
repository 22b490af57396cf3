//! The pool's records and the buffers beside them, laid out as at the C boundary.
pub use pagepool::{
    Entry, FrameIndex, FrameRecord, Generator, Handle, PageNumber, Pool, StoreNumber, Stores, LEAST_FRAMES,
    MAX_USAGE, MOST_FRAMES, MOST_PAGES, PAGE_SIZE, PAYLOAD_SIZE, PAYLOAD_START, SLOTS,
};
use std::fmt;

pub const SWIZZLE_BIT: u32 = 1 << 31;

/// Request A.8: "Bit 30 of a word marks the page it names as locked".
pub const LOCK_BIT: u32 = 1 << 30;

/// Request A.3: "bucket p mod 67".
pub const BUCKETS: usize = 67;

/// Request A.3: "131 bytes".
pub const DIRECTORY_SIZE: usize = 131;

/// Request A.11: "T is 1 to 4".
pub const MOST_STORES: usize = 4;

/// The mark of a word, or none.
pub const fn mark_of(word: u32) -> u32 {
    word & LOCK_BIT
}

pub const fn is_marked(word: u32) -> bool {
    mark_of(word) != 0
}

/// A word without its mark: what it names.
pub const fn unmarked(word: u32) -> u32 {
    word & !LOCK_BIT
}

/// What a word names, with the mark or without it.
pub const fn with_mark(name: u32, locked: bool) -> u32 {
    if locked {
        name | LOCK_BIT
    } else {
        name
    }
}

/// A page of one of the stores. Request A.11: "pages are compared within their store".
#[derive(Clone, Copy, Debug, PartialEq, Eq, PartialOrd, Ord)]
pub struct Page {
    pub store: StoreNumber,
    pub number: PageNumber,
}

pub const fn page(store: u8, number: u16) -> Page {
    Page { store: StoreNumber(store), number: PageNumber(number) }
}

impl Page {
    /// The root of a store.
    pub const fn root(store: StoreNumber) -> Page {
        Page { store, number: PageNumber(0) }
    }

    pub fn is_root(self) -> bool {
        self.number == PageNumber(0)
    }

    /// Another page of the same store.
    pub fn beside(self, number: PageNumber) -> Page {
        Page { number, ..self }
    }

    /// Where the page stands in the buffer that has the stores, of N pages each, "one after another".
    pub fn place(self, pages: u16) -> usize {
        usize::from(self.store) * usize::from(pages) + usize::from(self.number)
    }
}

impl fmt::Display for Page {
    fn fmt(&self, f: &mut fmt::Formatter) -> fmt::Result {
        write!(f, "{} of store {}", self.number, self.store)
    }
}

impl From<Handle> for Page {
    fn from(handle: Handle) -> Page {
        Page { store: handle.store, number: handle.page }
    }
}

impl From<&FrameRecord> for Page {
    fn from(record: &FrameRecord) -> Page {
        Page { store: record.store, number: record.page }
    }
}

/// The figures that a pool was opened with.
pub fn stores_of(pool: &Pool) -> Stores {
    Stores { count: pool.stores, ceilings: pool.ceilings }
}

/// All that a call is handed: the records, and the frames, the stores and the directory that the host lends.
#[derive(Clone, PartialEq, Eq)]
pub struct State {
    pub pool: Pool,
    pub frames: Vec<u8>,
    pub store: Vec<u8>,
    pub directory: Vec<u8>,
}

impl State {
    /// The frames that records and buffer both have, which is F unless they were altered.
    pub fn frame_count(&self) -> usize {
        MOST_FRAMES.min(self.pool.count.into()).min(self.frames.len() / PAGE_SIZE)
    }

    /// Those of them that hold a page, with their records.
    pub fn occupied(&self) -> impl Iterator<Item = (FrameIndex, &FrameRecord)> {
        (0..)
            .map(FrameIndex)
            .zip(&self.pool.records[..self.frame_count()])
            .filter(|(_, record)| record.is_used())
    }

    /// One store, which may fill every frame.
    pub fn as_one(&self) -> Stores {
        Stores::one((self.frames.len() / PAGE_SIZE) as u8)
    }

    /// The stores that the records have, T unless they were altered.
    pub fn store_numbers(&self) -> impl Iterator<Item = StoreNumber> {
        (0..self.pool.stores.min(MOST_STORES as u8)).map(StoreNumber)
    }

    /// Whether a frame holds the root of a store.
    pub fn is_root(&self, frame: FrameIndex) -> bool {
        frame.0 < self.pool.stores
    }

    /// The bytes of a page in its store, which may be cut off there.
    pub fn stored(&self, page: Page) -> Option<&[u8]> {
        self.store.chunks_exact(PAGE_SIZE).nth(page.place(self.pool.pages))
    }

    /// The words of a frame, by slot.
    pub fn words(&self, frame: FrameIndex) -> impl Iterator<Item = u32> + '_ {
        let page = page_of(&self.frames, frame.into());
        (0..SLOTS).map(|slot| word_in(page, slot))
    }

    /// Where two states differ first, for a report.
    pub fn difference(&self, other: &State) -> Option<String> {
        if self.pool != other.pool {
            return Some(format!("records\n{:?}\nand\n{:?}", self.pool, other.pool));
        }
        first_difference(&self.frames, &other.frames)
            .map(|at| format!("frames at {at}"))
            .or_else(|| first_difference(&self.store, &other.store).map(|at| format!("store at {at}")))
            .or_else(|| {
                first_difference(&self.directory, &other.directory).map(|at| format!("directory at {at}"))
            })
    }
}

fn first_difference(a: &[u8], b: &[u8]) -> Option<String> {
    if a == b {
        return None;
    }
    let place = a.iter().zip(b).position(|(x, y)| x != y);
    Some(match place {
        Some(at) => format!("byte {at}: {} and {}", a[at], b[at]),
        None => format!("the end: {} and {} bytes", a.len(), b.len()),
    })
}

/// The handle of a page in a frame, where there is one store.
pub const fn handle(frame: u8, page: u16) -> Handle {
    handle_in(frame, 0, page)
}

/// The handle of a page of a store.
pub const fn handle_in(frame: u8, store: u8, page: u16) -> Handle {
    Handle { frame: FrameIndex(frame), store: StoreNumber(store), page: PageNumber(page) }
}

/// The handle of the page in a frame that has this record.
pub fn handle_of(frame: FrameIndex, record: &FrameRecord) -> Handle {
    Handle { frame, store: record.store, page: record.page }
}

/// The 256 bytes of a page of the store, or of a frame.
pub fn page_of(bytes: &[u8], index: usize) -> &[u8] {
    &bytes[PAGE_SIZE * index..PAGE_SIZE * (index + 1)]
}

pub fn page_of_mut(bytes: &mut [u8], index: usize) -> &mut [u8] {
    &mut bytes[PAGE_SIZE * index..PAGE_SIZE * (index + 1)]
}

/// The word in a slot of a page.
pub fn word_in(page: &[u8], slot: usize) -> u32 {
    let at = 4 * slot;
    u32::from_le_bytes([page[at], page[at + 1], page[at + 2], page[at + 3]])
}

pub fn put_word(page: &mut [u8], slot: usize, word: u32) {
    page[4 * slot..4 * slot + 4].copy_from_slice(&word.to_le_bytes());
}
