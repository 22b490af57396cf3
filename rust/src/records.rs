//! The pool's records, laid out as at the C boundary, and the figures of a page, of a frame, of the stores and of the directory.
use std::fmt;

/// The bytes of a page, and of a frame: 16 words of 4 bytes, then 192 payload bytes.
pub const PAGE_SIZE: usize = 256;
/// The words of a page.
pub const SLOTS: usize = 16;
/// Where the payload begins in a page.
pub const PAYLOAD_START: usize = 64;
/// The payload bytes of a page.
pub const PAYLOAD_SIZE: usize = 192;
/// Bit 30 of a word in the store: it marks the page that the rest of the word names as locked.
pub const LOCK_BIT: u32 = 0x4000_0000;
/// The least F, which is at least T + 1 too.
pub const LEAST_FRAMES: usize = 2;
/// The largest F.
pub const MOST_FRAMES: usize = 64;
/// The largest N.
pub const MOST_PAGES: usize = 4096;
/// The largest T.
pub const MOST_STORES: usize = 4;
/// The chains of the directory: page p is in chain p mod 67.
pub const BUCKETS: usize = 67;
/// The bytes of the directory: one for the head of each chain, then one for each of 64 frames.
pub const DIRECTORY_SIZE: usize = BUCKETS + MOST_FRAMES;
/// The largest usage count. Document 01: the largest heat.
pub const MAX_USAGE: u8 = 3;
/// The most pins of a page.
pub const MAX_PINS: u16 = 65_535;

/// Which page of its store. The root is page 0.
#[repr(transparent)]
#[derive(Clone, Copy, Debug, Default, PartialEq, Eq, PartialOrd, Ord, Hash)]
pub struct PageNumber(pub u16);

/// Which frame. The root of store t is in frame t.
#[repr(transparent)]
#[derive(Clone, Copy, Debug, Default, PartialEq, Eq, PartialOrd, Ord, Hash)]
pub struct FrameIndex(pub u8);

/// Which store. Where there is one, it is store 0.
#[repr(transparent)]
#[derive(Clone, Copy, Debug, Default, PartialEq, Eq, PartialOrd, Ord, Hash)]
pub struct StoreNumber(pub u8);

impl From<PageNumber> for usize {
    fn from(page: PageNumber) -> usize {
        page.0.into()
    }
}

impl From<StoreNumber> for usize {
    fn from(store: StoreNumber) -> usize {
        store.0.into()
    }
}

impl From<FrameIndex> for usize {
    fn from(frame: FrameIndex) -> usize {
        frame.0.into()
    }
}

impl From<PageNumber> for u32 {
    fn from(page: PageNumber) -> u32 {
        page.0.into()
    }
}

impl From<FrameIndex> for u32 {
    fn from(frame: FrameIndex) -> u32 {
        frame.0.into()
    }
}

impl fmt::Display for PageNumber {
    fn fmt(&self, f: &mut fmt::Formatter) -> fmt::Result {
        self.0.fmt(f)
    }
}

impl fmt::Display for FrameIndex {
    fn fmt(&self, f: &mut fmt::Formatter) -> fmt::Result {
        self.0.fmt(f)
    }
}

impl fmt::Display for StoreNumber {
    fn fmt(&self, f: &mut fmt::Formatter) -> fmt::Result {
        self.0.fmt(f)
    }
}

/// How many stores a pool has, and the ceiling of each, as [`open`](crate::open) takes them.
///
/// ```
/// use pagepool::Stores;
///
/// // One store over 16 frames, all of which it may fill.
/// assert_eq!(Stores::one(16), Stores { count: 1, ceilings: [16, 0, 0, 0] });
/// // Three stores, the last of which never has more than 4 resident pages, its root among them.
/// assert_eq!(Stores::of([16, 16, 4]), Stores { count: 3, ceilings: [16, 16, 4, 0] });
/// ```
#[derive(Clone, Copy, Debug, PartialEq, Eq, Hash)]
pub struct Stores {
    /// T, 1 to 4. F is at least T + 1.
    pub count: u8,
    /// The most resident pages of each store, its root included: 1 to F for each of the T stores, and 0 for the others.
    pub ceilings: [u8; MOST_STORES],
}

impl Stores {
    /// One store, whose ceiling is F.
    pub const fn one(frames: u8) -> Stores {
        Stores { count: 1, ceilings: [frames, 0, 0, 0] }
    }

    /// A store for each of these ceilings, of which there are 1 to 4.
    pub const fn of<const T: usize>(ceilings: [u8; T]) -> Stores {
        const { assert!(1 <= T && T <= MOST_STORES, "1 to 4 stores") };
        let mut stores = Stores { count: T as u8, ceilings: [0; MOST_STORES] };
        let mut store = 0;
        while store < T {
            stores.ceilings[store] = ceilings[store];
            store += 1;
        }
        stores
    }
}

/// What is known of one frame. The all-zero record is the empty frame's.
#[repr(C)]
#[derive(Clone, Copy, Debug, Default, PartialEq, Eq)]
pub struct FrameRecord {
    /// 1 where the frame holds a page, otherwise 0.
    pub used: u8,
    /// 1 where the page was changed since it was loaded or settled, otherwise 0.
    pub dirty: u8,
    /// The usage count of the clock sweep, 0 to 3. Up to 3 each pin raises it by one, and so does each look of a sweep that
    /// passes over the page while it is pinned, unless it is a root; a look at a page that evict would accept lowers it by
    /// one, and at 0 takes the page. A sweep for a store at its ceiling leaves the usages of all other stores. Document 01: heat.
    pub usage: u8,
    /// The slot of the parent's word that names the page, 0 for a root. Document 01: parent slot.
    pub slot: u8,
    /// The parent's frame, 0 for a root. Document 01: parent frame.
    pub parent: FrameIndex,
    /// The store that the page is of, and its parent too.
    pub store: StoreNumber,
    /// The pins of the page.
    pub pins: u16,
    /// The page in the frame, by its number in its store.
    pub page: PageNumber,
}

impl FrameRecord {
    /// An empty frame's record, all zero.
    pub const EMPTY: FrameRecord = FrameRecord {
        used: 0,
        dirty: 0,
        usage: 0,
        slot: 0,
        parent: FrameIndex(0),
        store: StoreNumber(0),
        pins: 0,
        page: PageNumber(0),
    };

    /// Whether the frame holds a page.
    pub const fn is_used(&self) -> bool {
        self.used == 1
    }

    /// Whether the page was changed since it was loaded or settled.
    pub const fn is_dirty(&self) -> bool {
        self.dirty == 1
    }
}

/// The pool's records: one for each of up to 64 frames, F, N, T, the stores' ceilings and the clock hand.
#[repr(C)]
#[derive(Clone, Copy, PartialEq, Eq)]
pub struct Pool {
    /// By frame; from F on, all zero.
    pub records: [FrameRecord; MOST_FRAMES],
    /// F.
    pub count: u16,
    /// N.
    pub pages: u16,
    /// T.
    pub stores: u8,
    /// The most resident pages of each store, its root included; 0 from T on.
    pub ceilings: [u8; MOST_STORES],
    /// Where the next sweep begins.
    pub hand: FrameIndex,
}

impl Pool {
    /// The records of no pool: every call but open is refused.
    pub const ZERO: Pool = Pool {
        records: [FrameRecord::EMPTY; MOST_FRAMES],
        count: 0,
        pages: 0,
        stores: 0,
        ceilings: [0; MOST_STORES],
        hand: FrameIndex(0),
    };

    /// The record of a frame.
    ///
    /// # Panics
    ///
    /// From frame 64 on.
    pub fn record(&self, frame: FrameIndex) -> &FrameRecord {
        &self.records[usize::from(frame)]
    }

    /// The record of a frame, to be altered.
    ///
    /// # Panics
    ///
    /// From frame 64 on.
    pub fn record_mut(&mut self, frame: FrameIndex) -> &mut FrameRecord {
        &mut self.records[usize::from(frame)]
    }
}

/// All zero.
impl Default for Pool {
    fn default() -> Pool {
        Pool::ZERO
    }
}

/// Shows the records that aren't empty, each with its frame.
impl fmt::Debug for Pool {
    fn fmt(&self, f: &mut fmt::Formatter) -> fmt::Result {
        write!(f, "F {} N {} T {} ", self.count, self.pages, self.stores)?;
        write!(f, "ceilings {:?} hand {}", self.ceilings, self.hand)?;
        for (frame, record) in self.records.iter().enumerate() {
            if *record != FrameRecord::EMPTY {
                write!(f, "\n  {frame}: {record:?}")?;
            }
        }
        Ok(())
    }
}

/// A pinned page: its frame, its store and its number there. It is good until the page's pins are gone.
#[repr(C)]
#[derive(Clone, Copy, Debug, PartialEq, Eq, Hash)]
pub struct Handle {
    /// The frame that holds the page.
    pub frame: FrameIndex,
    /// The store that the page is of.
    pub store: StoreNumber,
    /// The page.
    pub page: PageNumber,
}

/// A record of the call listing. By byte: 0 the call, 1 the frame, 2 and 3 the page (little-endian), 4 the slot, 5 the offset, 6
/// the length, 7 to 15 the data. The calls are 1 root, 2 fix, 3 unfix, 4 write, 5 link, 6 unlink, 7 evict, 8 settle, 9 find. Frame
/// and page are a handle, but that evict and find go by the page alone, and that link's handle has its page in 7 and 8
/// (little-endian): 2 and 3 are the page to be linked. A record names no store.
pub type Entry = [u8; 16];

/// The generator of a workload: a number that is lent to each [`draw`](crate::draw), and moved on there.
#[repr(C)]
#[derive(Clone, Copy, Debug, PartialEq, Eq, Hash)]
pub struct Generator {
    /// Any number will do. From 0 each draw gives 0: no seed gives it, and no draw leads there from another number.
    pub number: u32,
}
