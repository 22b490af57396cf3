//! The shapes of state that calls are timed on: how the store's pages name each other, and which of them are resident.
use crate::baseline;
#[cfg(feature = "former")]
use crate::former::PagePool;
#[cfg(not(feature = "former"))]
use pagepool::PagePool;
use pagepool::{
    FrameIndex, FrameRecord, Handle, PageNumber, Pool, StoreNumber, Stores, BUCKETS, LOCK_BIT, MOST_FRAMES,
    MOST_STORES, PAGE_SIZE, PAYLOAD_START, SLOTS,
};

/// The records, the frames, the store and the directory of a host.
pub type State = PagePool<Vec<u8>, Vec<u8>>;

/// The most stores that the linked library takes: one before request A.11.
pub const STORES: usize = if cfg!(feature = "former") { 1 } else { MOST_STORES };

/// Puts records into a state.
pub fn put_records(state: &mut State, records: &Pool) {
    #[cfg(not(feature = "former"))]
    {
        state.records = *records;
    }
    #[cfg(feature = "former")]
    state.put_records(records);
}

#[derive(Clone, Copy, Debug, PartialEq)]
pub enum Shape {
    /// Page p names pages 15 p + 1 to 15 p + 15. The frames are full.
    Full,
    /// The root names 16 pages, and no more of these name 15 each than it takes to fill the frames. The frames are full.
    Leaves,
    /// Pages as in `Full`. The root is resident alone.
    Opened,
    /// Pages as in `Full`, but few. The frames are full, or all named pages resident.
    Few,
    /// Each page names the next one. The frames are full.
    Chain,
    /// Pages as in `Chain`, in frames from the last one down, so that each parent but the root lies after its page.
    Turned,
    /// Pages as in `Full`, each word marked, so that every page but the root is locked. The frames are full.
    Marked,
    /// The tree of `Full` over other pages, four of which share a chain of the directory each time. The frames are full.
    Fours,
    /// The same over the pages that share the root's chain, which so holds every resident page. The frames are full.
    OneChain,
    /// Four stores, the pages of each as in `Full`. The frames are full, of the same places of each store.
    Four,
    /// Pages as in `Four`. The roots are resident alone.
    FourOpened,
    /// The state of `Full`, with as many pages as in `Four`, for a look at both.
    One,
    /// That of `Opened`, with as many pages as in `FourOpened`.
    OneOpened,
}

/// The handle of a store's root.
pub const fn root_of(store: StoreNumber) -> Handle {
    Handle { frame: FrameIndex(store.0), store, page: PageNumber(0) }
}

pub const ROOT: Handle = root_of(StoreNumber(0));

/// A slot that is empty in every pinned page, except in the root of `Leaves`.
pub const EMPTY_SLOT: usize = 15;

/// The places of `Fours`: as many as there can be frames, and four more, since one page isn't taken in and four share each chain.
const FOURS_PLACES: usize = MOST_FRAMES + 4;

/// F and N for `Fours`: so many pages that some share a chain of the directory, and that another would.
pub const FOURS: [(usize, usize); 3] = [(4, 320), (16, 320), (64, 320)];

/// F and N for `OneChain`: as many frames as there are pages for them in one chain, but for the one that isn't taken in.
pub const ONE_CHAIN: [(usize, usize); 3] = [(4, 4096), (16, 4096), (61, 4096)];

/// The shapes whose pages share chains, each with its F and N.
pub fn sharing() -> impl Iterator<Item = (Shape, usize, usize)> {
    let sized = [(Shape::Fours, FOURS), (Shape::OneChain, ONE_CHAIN)];
    sized.into_iter().flat_map(|(shape, sizes)| sizes.map(|(count, pages)| (shape, count, pages)))
}

impl Shape {
    pub const ALL: [Shape; 13] = [
        Shape::Full,
        Shape::Leaves,
        Shape::Opened,
        Shape::Few,
        Shape::Chain,
        Shape::Turned,
        Shape::Marked,
        Shape::Fours,
        Shape::OneChain,
        Shape::Four,
        Shape::FourOpened,
        Shape::One,
        Shape::OneOpened,
    ];

    pub fn name(self) -> &'static str {
        match self {
            Shape::Full => "full",
            Shape::Leaves => "leaves",
            Shape::Opened => "just opened",
            Shape::Few => "few pages",
            Shape::Chain => "chain",
            Shape::Turned => "turned chain",
            Shape::Marked => "marked",
            Shape::Fours => "four to a chain",
            Shape::OneChain => "all in one chain",
            Shape::Four => "four stores",
            Shape::FourOpened => "four stores, just opened",
            Shape::One => "one store",
            Shape::OneOpened => "one store, just opened",
        }
    }

    /// T.
    pub fn stores(self) -> usize {
        match self {
            Shape::Four | Shape::FourOpened => 4,
            _ => 1,
        }
    }

    /// The page at a place of the tree: in most shapes the place is its number.
    fn number(self, place: usize) -> usize {
        match self {
            Shape::Fours => place / 4 + BUCKETS * (place % 4),
            Shape::OneChain => BUCKETS * place,
            _ => place,
        }
    }

    /// The place and the slot that name a place's page.
    fn parent(self, place: usize) -> (usize, usize) {
        match self {
            Shape::Leaves if place <= SLOTS => (0, place - 1),
            Shape::Leaves => ((place - SLOTS - 1) / 15 + 1, (place - SLOTS - 1) % 15),
            Shape::Chain | Shape::Turned => (place - 1, 0),
            _ => ((place - 1) / 15, (place - 1) % 15),
        }
    }

    /// The place of a page that isn't taken in, so that a pinned page names one that is not; in `Full` and `Four` it names pages
    /// itself.
    fn left_out(self) -> usize {
        if self.stores() == 1 {
            16
        } else {
            15
        }
    }

    /// The places whose pages are named, for F frames and N pages. The last page never is.
    fn named(self, count: usize, pages: usize) -> impl Iterator<Item = usize> {
        let end = match self {
            Shape::Leaves => count.max(SLOTS) + 1,
            Shape::Fours => FOURS_PLACES,
            Shape::OneChain => pages / BUCKETS + 1,
            _ => pages,
        };
        let is_below = move |place| self.number(place) < pages - 1;
        (1..end.min(pages - 1)).filter(move |place| is_below(*place) && is_below(self.parent(*place).0))
    }

    /// The word that names a place's page.
    fn word(self, place: usize) -> u32 {
        self.number(place) as u32 | if self == Shape::Marked { LOCK_BIT } else { 0 }
    }

    /// A store of so many pages.
    pub fn store(self, count: usize, pages: usize) -> Vec<u8> {
        let mut store = vec![0; PAGE_SIZE * pages];
        for (page, bytes) in store.chunks_exact_mut(PAGE_SIZE).enumerate() {
            bytes[PAYLOAD_START..].fill(page as u8 | 1);
        }
        for place in self.named(count, pages) {
            let (parent, slot) = self.parent(place);
            let word = &mut store[PAGE_SIZE * self.number(parent) + 4 * slot..][..4];
            word.copy_from_slice(&self.word(place).to_le_bytes());
        }
        store
    }

    /// A pool over such stores, by the baseline's calls, its frames filled in the order of places, each place in every store. The
    /// pages in the roots' frames and the next one are pinned, and each page has usage 1. A ceiling is F.
    pub fn state(self, count: usize, pages: usize) -> State {
        let stores = Stores { count: self.stores() as u8, ceilings: self.ceilings(count) };
        let mut state = opened(count, stores, self.store(count, pages).repeat(self.stores()));
        let mut handles: Vec<Vec<Handle>> =
            (0..stores.count).map(|store| vec![root_of(StoreNumber(store))]).collect();
        state.records.records[..self.stores()].iter_mut().for_each(|root| root.pins = 1);
        let taken_in = |place: &usize| self.in_chain() || *place != self.left_out();
        let most = if self.is_just_opened() { 0 } else { count - self.stores() };
        let of_each = |place| (0..self.stores()).map(move |store| (place, store));
        for (place, store) in self.named(count, pages).filter(taken_in).flat_map(of_each).take(most) {
            let (parent, slot) = self.parent(place);
            if self == Shape::Turned {
                state.records.hand = FrameIndex((count - place) as u8);
            }
            let parent = handles[store][parent];
            let State { records, frames, store: pages, directory, .. } = &mut state;
            let fixed = baseline::fix(records, frames, pages, directory, parent, slot);
            handles[store].push(fixed.expect("a frame is empty").handle);
        }
        state.records.hand = FrameIndex(0);
        release_most(&mut state);
        state
    }

    fn ceilings(self, count: usize) -> [u8; MOST_STORES] {
        std::array::from_fn(|store| if store < self.stores() { count as u8 } else { 0 })
    }

    fn in_chain(self) -> bool {
        matches!(self, Shape::Chain | Shape::Turned)
    }

    fn is_just_opened(self) -> bool {
        matches!(self, Shape::Opened | Shape::FourOpened | Shape::OneOpened)
    }
}

/// A pool just opened, by the baseline, nothing pinned.
pub fn opened(count: usize, stores: Stores, store: Vec<u8>) -> State {
    let mut state = State::new(vec![0; PAGE_SIZE * count], store);
    let State { records, frames, store, directory, .. } = &mut state;
    baseline::open(records, frames, store, directory, stores).expect("the stores are sound");
    let records = *records;
    put_records(&mut state, &records);
    state
}

/// Leaves the pages in the roots' frames and in the next one pinned.
fn release_most(state: &mut State) {
    let Pool { records, stores, .. } = &mut state.records;
    for (frame, record) in records.iter_mut().enumerate().filter(|(_, record)| record.is_used()) {
        record.pins = u16::from(frame <= usize::from(*stores));
        record.usage = 1;
    }
}

/// The records of the frames that aren't empty.
fn used(state: &State) -> impl DoubleEndedIterator<Item = &FrameRecord> {
    state.records.records.iter().filter(|record| record.is_used())
}

/// A page by its store and its number there.
pub type Page = (StoreNumber, PageNumber);

fn page_of(record: &FrameRecord) -> Page {
    (record.store, record.page)
}

/// The page in the first frame after the roots', which is pinned, or a root where these are alone.
pub fn pinned(state: &State) -> Handle {
    let after = FrameIndex(state.records.stores);
    let frame = if state.records.record(after).is_used() { after } else { FrameIndex(0) };
    let (store, page) = page_of(state.records.record(frame));
    Handle { frame, store, page }
}

/// The last store.
pub fn last_store(state: &State) -> StoreNumber {
    StoreNumber(state.records.stores - 1)
}

/// A slot of a pinned page that names a page that isn't resident: of the last store, where there are several.
pub fn absent(state: &State) -> (Handle, usize) {
    let root = root_of(last_store(state));
    let pages = if root == ROOT { vec![pinned(state), ROOT] } else { vec![root] };
    let slots = pages.into_iter().flat_map(|page| (0..SLOTS).map(move |slot| (page, slot)));
    let mut absent = slots.filter(|(page, slot)| {
        let word = &state.frames[PAGE_SIZE * usize::from(page.frame) + 4 * slot..][..4];
        word != [0; 4] && word[3] < 0x80
    });
    absent.next().expect("a page was left out")
}

/// A slot of a root that names a resident page: of the last store's, where there are several.
pub fn present(state: &State) -> (Handle, usize) {
    let root = root_of(last_store(state));
    (root, usize::from(root == ROOT))
}

/// The page in the last frame that isn't empty.
pub fn last_resident(state: &State) -> Page {
    page_of(used(state).next_back().expect("the root is resident"))
}

/// The last page that a word names, where all but the last page are named.
pub fn last_named(state: &State) -> PageNumber {
    PageNumber(state.records.pages - 2)
}

/// A page that isn't resident and that no word names, in every store.
pub fn unnamed(state: &State) -> PageNumber {
    PageNumber(state.records.pages - 1)
}

/// The resident page for which find compares the most entries: the last of a longest chain.
pub fn last_of_chain(state: &State) -> Page {
    used(state).map(page_of).max_by_key(|page| compared(state, *page)).expect("the root is resident")
}

/// A page of the first store that isn't resident, for which find compares the most entries.
pub fn absent_from_chain(state: &State) -> Page {
    let pages = (0..state.records.pages).map(|page| (StoreNumber(0), PageNumber(page)));
    let absent = pages.filter(|page| used(state).all(|record| page_of(record) != *page));
    absent.max_by_key(|page| compared(state, *page)).expect("more pages than frames")
}

/// Turns the chain of a page round, which is right too.
pub fn reverse_chain(state: &mut State, page: PageNumber) {
    let bucket = usize::from(page) % BUCKETS;
    let (mut before, mut byte) = (0, state.directory[bucket]);
    while byte != 0 {
        let link = BUCKETS + usize::from(byte - 1);
        (before, byte) = (byte, std::mem::replace(&mut state.directory[link], before));
    }
    state.directory[bucket] = before;
}

/// The entries that find compares for a page.
fn compared(state: &State, (store, page): Page) -> u16 {
    let found = baseline::find(&state.records, &state.frames, &state.store, &state.directory, store, page);
    found.expect("records, frames and directory agree").compared
}
