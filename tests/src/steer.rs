//! Chooses random calls that reach deep into the rules: most arguments fit the state, some break a rule.
use crate::calls::Call;
use crate::records::{
    self, handle_of, is_marked, page, stores_of, unmarked, word_in, FrameIndex, FrameRecord, Handle, Page,
    PageNumber, State, StoreNumber, Stores, BUCKETS, MOST_STORES, PAGE_SIZE, PAYLOAD_SIZE, PAYLOAD_START,
    SLOTS, SWIZZLE_BIT,
};
use crate::stores::{any_stores, most_stores};
use random::Random;

/// How often each call is made, by `Call::index`.
type Weights = [usize; 13];

/// Pools fill, empty, turn over, or hold their pages. Open stands apart, since it begins anew.
const MOODS: [Weights; 5] = [
    [0, 8, 60, 12, 6, 6, 8, 16, 24, 6, 6, 4, 6],
    [0, 2, 16, 60, 6, 6, 8, 12, 8, 10, 30, 6, 6],
    [0, 6, 60, 56, 6, 6, 8, 20, 16, 10, 4, 2, 6],
    [0, 10, 20, 20, 10, 10, 10, 20, 20, 20, 20, 10, 10],
    HOLDING,
];

/// Pages stay pinned over many sweeps: but for a few stray ones, a pin is taken off only where the next load would be denied.
const HOLDING: Weights = [0, 0, 60, 1, 4, 4, 4, 8, 24, 8, 2, 2, 4];

pub struct Steer {
    weights: Weights,
    left: usize,
}

impl Steer {
    /// Begins with filling the frames, as often as not to hold their pages.
    pub fn new(random: &mut Random, state: &State) -> Steer {
        Steer { weights: random.pick(&[MOODS[0], HOLDING]), left: 8 * state.frame_count() }
    }

    /// The next call of a list.
    pub fn next(&mut self, random: &mut Random, state: &State) -> Call {
        if self.left == 0 {
            self.weights = random.pick(&MOODS);
            self.left = random.between(10, 50 + 4 * state.frame_count());
        }
        self.left -= 1;
        if random.below(300) == 0 {
            return Call::Open(opening(random, state));
        }
        if random.below(100) == 0 {
            return Call::Open(spoilt_stores(random, state));
        }
        if random.percent(50) && state.occupied().all(|(_, record)| record.pins == 0) {
            return Call::Root(store(random, state));
        }
        if let Some(store) = random.choose(unpinned_roots(state)).filter(|_| random.percent(8)) {
            return Call::Root(store.0);
        }
        if self.weights == HOLDING && random.percent(80) {
            if let Some(handle) = denied_for(random, state) {
                return Call::Unfix(handle);
            }
        }
        let index = self.weighted(random);
        call(random, state, index)
    }

    fn weighted(&self, random: &mut Random) -> usize {
        let mut at = random.below(self.weights.iter().sum());
        let mut index = 0;
        while at >= self.weights[index] {
            at -= self.weights[index];
            index += 1;
        }
        index
    }
}

/// The call of an index, with arguments for a state, which may be damaged.
pub fn call(random: &mut Random, state: &State, index: usize) -> Call {
    let handle = handle(random, state);
    match index {
        0 => Call::Open(opening(random, state)),
        1 => Call::Root(store(random, state)),
        2 => fix(random, state, handle),
        3 => Call::Unfix(handle),
        4 => Call::Show(handle),
        5 => {
            let Page { store, number } = any_of_stores(random, state);
            Call::Peek(store.0, number.0)
        }
        6 => Call::Word(handle, named_slot(random, state, handle)),
        7 => {
            let handle = edited(random, state, handle);
            write(random, state, handle)
        }
        8 => {
            let handle = edited(random, state, handle);
            link(random, state, handle)
        }
        9 => {
            let handle = edited(random, state, handle);
            Call::Unlink(handle, unlinked_slot(random, state, handle))
        }
        10 => {
            let Page { store, number } = evict_page(random, state);
            Call::Evict(store.0, number.0)
        }
        11 => Call::Settle,
        _ => {
            let Page { store, number } = any_of_stores(random, state);
            Call::Find(store.0, number.0)
        }
    }
}

/// The stores of an open: those that the pool has, most of the time, as many with other ceilings, or another number of them; at times
/// figures that don't fit.
fn opening(random: &mut Random, state: &State) -> Stores {
    let frames = (state.frames.len() / PAGE_SIZE).min(records::MOST_FRAMES);
    let most = most_stores(frames).max(1);
    let fitting = (1..=most).filter(|stores| state.store.len().is_multiple_of(stores * PAGE_SIZE));
    let kept = usize::from(state.pool.stores).clamp(1, most);
    match random.below(10) {
        0..4 => stores_of(&state.pool),
        4..6 => any_stores(random, kept as u8, frames.max(kept + 1)),
        6..9 => {
            let stores = random.choose(fitting).unwrap_or(kept);
            any_stores(random, stores as u8, frames.max(stores + 1))
        }
        _ => spoilt_stores(random, state),
    }
}

/// Figures that are wrong in one respect: T, or a ceiling.
fn spoilt_stores(random: &mut Random, state: &State) -> Stores {
    let (mut stores, count) = (stores_of(&state.pool), state.pool.count as u8);
    if random.percent(40) {
        let other = random.between(1, MOST_STORES) as u8;
        let count = random.pick(&[0, other, other, other, 5, 255]);
        return Stores {
            count,
            ..any_stores(random, other, usize::from(state.pool.count).max(usize::from(other) + 1))
        };
    }
    let any = random.draw() as u8;
    let store = random.below(MOST_STORES);
    stores.ceilings[store] = random.pick(&[0, 1, count, count.wrapping_add(1), 255, any]);
    stores
}

/// The stores whose roots have no pins.
fn unpinned_roots(state: &State) -> impl Iterator<Item = StoreNumber> + '_ {
    state.store_numbers().filter(|store| state.pool.record(FrameIndex(store.0)).pins == 0)
}

/// A store's number, at times not below T.
fn store(random: &mut Random, state: &State) -> u8 {
    let stores = state.pool.stores;
    if random.percent(93) {
        random.below(usize::from(stores).max(1)) as u8
    } else {
        random.pick(&[stores, stores.wrapping_add(1), 3, 4, 255])
    }
}

/// A handle of the page in one of the frames that pass a test.
fn handle_where(random: &mut Random, state: &State, test: fn(&FrameRecord) -> bool) -> Option<Handle> {
    let frames = state.occupied().filter(|(_, record)| test(record));
    random.choose(frames.map(|(frame, record)| handle_of(frame, record)))
}

/// A handle, most of the time of a pinned page.
fn handle(random: &mut Random, state: &State) -> Handle {
    match handle_where(random, state, |record| record.pins > 0) {
        Some(handle) if random.percent(92) => handle,
        Some(handle) => spoilt_handle(random, state, handle),
        None => unpinned_handle(random, state),
    }
}

/// A handle for an edit: at times that of a pinned page that is locked.
fn edited(random: &mut Random, state: &State, handle: Handle) -> Handle {
    let is_locked = |(frame, record): &(FrameIndex, &FrameRecord)| {
        let inside = usize::from(record.parent) < state.frame_count() && usize::from(record.slot) < SLOTS;
        let marked = || state.words(record.parent).nth(record.slot.into()).is_some_and(is_marked);
        !state.is_root(*frame) && record.pins > 0 && inside && marked()
    };
    let locked = state.occupied().filter(is_locked);
    match random.choose(locked.map(|(frame, record)| handle_of(frame, record))) {
        Some(locked) if random.percent(12) => locked,
        _ => handle,
    }
}

fn unpinned_handle(random: &mut Random, state: &State) -> Handle {
    let handle = handle_where(random, state, |record| record.pins == 0);
    handle.unwrap_or(records::handle(0, 0))
}

/// A stale or malformed handle: another frame, store or page, or no pins.
fn spoilt_handle(random: &mut Random, state: &State, good: Handle) -> Handle {
    let (count, pages) = (state.pool.count, state.pool.pages);
    let frame = FrameIndex(random.below(state.frame_count().max(1)) as u8);
    match random.below(9) {
        0 => unpinned_handle(random, state),
        1 => Handle { frame, ..good },
        2 => Handle { frame: FrameIndex(random.pick(&[count as u8, 63, 64, 128, 255])), ..good },
        3 => Handle { page: PageNumber(random.pick(&[pages, pages ^ 1, 4096, 65535])), ..good },
        4 => Handle { page: PageNumber(random.below(usize::from(pages).max(1)) as u16), ..good },
        5 => Handle { frame, page: PageNumber(0), ..good },
        6 => Handle { store: StoreNumber(random.below(MOST_STORES) as u8), ..good },
        _ => Handle { store: StoreNumber(store(random, state)), ..good },
    }
}

/// Whether a word is a page number, marked or not.
fn is_number(word: u32) -> bool {
    word != 0 && word < SWIZZLE_BIT
}

/// The slots of a frame whose words pass a test.
fn slots_where(state: &State, frame: FrameIndex, test: fn(u32) -> bool) -> impl Iterator<Item = usize> + '_ {
    state.words(frame).enumerate().filter(move |(_, word)| test(*word)).map(|(slot, _)| slot)
}

/// The slots of pinned pages whose words pass a test.
fn pinned_slots(state: &State, test: fn(u32) -> bool) -> impl Iterator<Item = (Handle, usize)> + '_ {
    let pinned = state.occupied().filter(|(_, record)| record.pins > 0);
    pinned.flat_map(move |(frame, record)| {
        let handle = handle_of(frame, record);
        slots_where(state, frame, test).map(move |slot| (handle, slot))
    })
}

/// A fix: most of the time of a page that isn't resident.
fn fix(random: &mut Random, state: &State, handle: Handle) -> Call {
    match random.choose(pinned_slots(state, is_number)) {
        Some((handle, slot)) if random.percent(60) => Call::Fix(handle, slot),
        _ => Call::Fix(handle, named_slot(random, state, handle)),
    }
}

/// A link: most of the time into an empty slot, otherwise into one that is taken. Three in ten have the mark.
fn link(random: &mut Random, state: &State, handle: Handle) -> Call {
    let locked = random.percent(30);
    match random.choose(pinned_slots(state, |word| word != 0)) {
        Some((handle, slot)) if random.percent(30) => {
            let page = match random.below(5) {
                0 => named_in(state, handle.frame, slot),
                1 => random.choose(named_in_store(state, handle.store)),
                _ => None,
            };
            Call::Link(handle, slot, page.unwrap_or_else(|| link_page(random, state, handle.store)), locked)
        }
        _ => {
            let slot = free_slot(random, state, handle);
            Call::Link(handle, slot, link_page(random, state, handle.store), locked)
        }
    }
}

/// The page that a slot of a frame names.
fn named_in(state: &State, frame: FrameIndex, slot: usize) -> Option<u16> {
    let word = unmarked(state.words(frame).nth(slot)?);
    match word.checked_sub(SWIZZLE_BIT) {
        Some(frame) => state.pool.records.get(frame as usize).map(|record| record.page.0),
        None => Some(word as u16),
    }
}

/// The pages of a store, as they stand there.
fn stored(state: &State, store: StoreNumber) -> impl Iterator<Item = (Page, &[u8])> {
    let pages = (0..state.pool.pages).map(move |number| page(store.0, number));
    pages.map_while(|page| Some((page, state.stored(page)?)))
}

/// The pages that stored pages of a store name which aren't resident themselves.
fn named_in_store(state: &State, store: StoreNumber) -> Vec<u16> {
    let resident: Vec<Page> = state.occupied().map(|(_, record)| Page::from(record)).collect();
    let stored = stored(state, store).filter(|(page, _)| !resident.contains(page));
    let words = stored.flat_map(|(_, page)| (0..SLOTS).map(|slot| word_in(page, slot)));
    words.map(unmarked).filter(|word| *word != 0).map(|word| word as u16).collect()
}

/// A slot, at times above 15.
fn any_slot(random: &mut Random) -> usize {
    if random.percent(90) {
        random.below(SLOTS)
    } else {
        random.pick(&[SLOTS, SLOTS + 1, 255, 256, usize::MAX])
    }
}

/// A slot of the handle's frame whose word passes a test, most of the time.
fn slot_where(random: &mut Random, state: &State, handle: Handle, test: fn(u32) -> bool) -> usize {
    if usize::from(handle.frame) >= state.frame_count() || random.percent(10) {
        return any_slot(random);
    }
    let slot = random.choose(slots_where(state, handle.frame, test));
    slot.unwrap_or_else(|| any_slot(random))
}

/// A slot that names a page, swizzled or not.
fn named_slot(random: &mut Random, state: &State, handle: Handle) -> usize {
    let test = if random.percent(60) { is_number } else { |word| word != 0 };
    slot_where(random, state, handle, test)
}

/// A slot to unlink: most of the time one that names a page, otherwise any.
fn unlinked_slot(random: &mut Random, state: &State, handle: Handle) -> usize {
    if random.percent(85) {
        named_slot(random, state, handle)
    } else {
        any_slot(random)
    }
}

fn free_slot(random: &mut Random, state: &State, handle: Handle) -> usize {
    slot_where(random, state, handle, |word| word == 0)
}

/// A page number, at times not below N.
fn any_page(random: &mut Random, state: &State) -> u16 {
    let pages = state.pool.pages;
    if random.percent(93) {
        random.below(usize::from(pages).max(1)) as u16
    } else {
        random.pick(&[pages, pages.wrapping_add(1), pages ^ 0x100, 4096, 65535])
    }
}

/// A page, as often as not a resident one, at times one of another store with its number.
fn any_of_stores(random: &mut Random, state: &State) -> Page {
    let store = store(random, state);
    match handle_where(random, state, |_| true) {
        Some(handle) if random.percent(40) => Page::from(handle),
        Some(handle) if random.percent(20) => page(store, handle.page.0),
        _ => page(store, sharing(random, state).unwrap_or_else(|| any_page(random, state))),
    }
}

/// At times, where N is above 67: a page with the remainder of a resident one, whose bucket it shares.
fn sharing(random: &mut Random, state: &State) -> Option<u16> {
    let pages = usize::from(state.pool.pages);
    if pages <= BUCKETS || random.percent(40) {
        return None;
    }
    let resident = usize::from(handle_where(random, state, |_| true)?.page);
    random.choose((resident % BUCKETS..pages).step_by(BUCKETS)).map(|page| page as u16)
}

/// A page other than a root, with no resident child.
fn is_leaf(state: &State, frame: FrameIndex) -> bool {
    !state.is_root(frame) && state.words(frame).all(|word| word < SWIZZLE_BIT)
}

/// The resident pages of a store, with their frames.
fn held(state: &State, store: StoreNumber) -> Vec<(FrameIndex, &FrameRecord)> {
    state.occupied().filter(|(_, record)| record.store == store).collect()
}

/// One of the pages because of whose pins a load of any store would be denied, or one of a store at its ceiling.
fn denied_for(random: &mut Random, state: &State) -> Option<Handle> {
    let full = state.occupied().count() == state.frame_count();
    let mut groups: Vec<Vec<(FrameIndex, &FrameRecord)>> = Vec::new();
    groups.extend(full.then(|| state.occupied().collect()));
    for store in state.store_numbers() {
        let pages = held(state, store);
        groups.extend((pages.len() >= state.pool.ceilings[usize::from(store)].into()).then_some(pages));
    }
    let leaves = groups.into_iter().map(|mut pages| {
        pages.retain(|(frame, _)| is_leaf(state, *frame));
        pages
    });
    let shut = leaves.filter(|leaves| !leaves.iter().any(|(_, record)| record.pins == 0));
    let leaf = random.choose(shut.flatten());
    leaf.map(|(frame, record)| handle_of(frame, record))
}

/// A page that can be evicted, as often as not, a resident one that can't, or any.
fn evict_page(random: &mut Random, state: &State) -> Page {
    let wanted = random.percent(65);
    let open = |(frame, record): &(FrameIndex, &FrameRecord)| record.pins == 0 && is_leaf(state, *frame);
    let pages = state.occupied().filter(|page| open(page) == wanted);
    match random.choose(pages.map(|(_, record)| Page::from(record))) {
        Some(page) if random.percent(80) => page,
        _ => any_of_stores(random, state),
    }
}

/// A page to link in a store: one that no word there seems to name, one that the store alone still names, or any.
fn link_page(random: &mut Random, state: &State, store: StoreNumber) -> u16 {
    let is_free = |number: &u16| !seems_named(state, page(store.0, *number));
    let sharing = sharing(random, state).filter(|number| *number != 0 && is_free(number));
    if let Some(number) = sharing {
        return number;
    }
    let tries: Vec<u16> = (0..4).map(|_| any_page(random, state)).collect();
    let number = match random.below(4) {
        0 | 1 => tries.iter().copied().find(is_free),
        2 => random.choose(unlinked(state, store)),
        _ => None,
    };
    number.unwrap_or(tries[0])
}

/// The pages of a store that were unlinked from a resident page since it was written out.
fn unlinked(state: &State, store: StoreNumber) -> Vec<u16> {
    let mut pages = Vec::new();
    for (frame, record) in held(state, store) {
        if let Some(page) = state.stored(Page::from(record)) {
            let cleared = slots_where(state, frame, |word| word == 0);
            pages.extend(cleared.map(|slot| unmarked(word_in(page, slot)) as u16).filter(|page| *page != 0));
        }
    }
    pages
}

/// A word of its store as it stands gives the page, or it is resident.
fn seems_named(state: &State, page: Page) -> bool {
    let names_it = |other: &[u8]| (0..SLOTS).any(|slot| unmarked(word_in(other, slot)) == page.number.into());
    stored(state, page.store).any(|(_, other)| names_it(other))
        || state.occupied().any(|(_, record)| Page::from(record) == page)
}

/// A write at or about the edges of the payload, at times of the bytes that stand there.
fn write(random: &mut Random, state: &State, handle: Handle) -> Call {
    let offset = match random.below(8) {
        0 => random.pick(&[0, 1, 191, 192]),
        1 => random.pick(&[193, 256, usize::MAX - 191, usize::MAX]),
        _ => random.below(PAYLOAD_SIZE),
    };
    let room = PAYLOAD_SIZE.saturating_sub(offset);
    let length = match random.below(8) {
        0 => 0,
        1 => room,
        2 => random.pick(&[room + 1, 193, 256, 300]),
        _ => random.below(room.min(12) + 1),
    };
    let standing = written(state, handle, offset, length).filter(|_| random.percent(10));
    Call::Write(handle, offset, standing.unwrap_or_else(|| random.bytes(length)))
}

/// The bytes that stand where a write goes, if that is in a payload.
fn written(state: &State, handle: Handle, offset: usize, length: usize) -> Option<Vec<u8>> {
    let payload = state.frames.chunks_exact(PAGE_SIZE).nth(handle.frame.into())?.get(PAYLOAD_START..)?;
    Some(payload.get(offset..offset.checked_add(length)?)?.to_vec())
}
