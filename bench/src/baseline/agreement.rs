//! Rule 2 in one pass over the frames. Where each record's parent word is swizzled to its frame, and there are no more words
//! of N or above than such records, every swizzled word points back and every other word is a number below N. Marks aside, but
//! that one alone is no word at all.
use super::keys::Keys;
use super::page::{
    has_mark_alone, is_marked, name, overlaid, stored_words, swizzled_to, unmarked, word, Page, StoredWords,
};
use super::seen::{Numbers, Seen};
use pagepool::{FrameIndex, FrameRecord, PageNumber, Pool, StoreNumber, MAX_USAGE, SLOTS};

/// Whether records and frames agree, and no store has more pages than its ceiling. Adds the resident pages but the roots, and the
/// numbers in their words, to an empty table, and puts the key of each page into another.
pub fn agree<const MOST: usize, const STORES: usize>(
    pool: &Pool,
    frames: &[Page],
    seen: &mut Seen<MOST, STORES>,
    keys: &mut Keys,
) -> bool {
    let (records, rest) = pool.records.split_at(frames.len());
    let roots = if STORES > 1 { pool.stores.into() } else { 1 };
    usize::from(pool.hand) < frames.len()
        && (0..).zip(&records[..roots]).all(root_fits)
        && are_empty(rest)
        && agree_below(records, roots, frames, pool.pages.into(), seen, keys)
        && (0..).zip(&pool.ceilings[..roots]).all(|(store, ceiling)| {
            let ceiling = u16::from(*ceiling);
            ceiling == pool.count || keys.held(StoreNumber(store)) <= ceiling
        })
}

/// The fields of records, overlaid in the two numbers that a record is read in: 0 where they are all zero.
#[derive(Clone, Copy, Default)]
struct Fields {
    first: u64,
    page: u16,
}

impl Fields {
    #[inline(always)]
    fn of(record: &FrameRecord) -> Fields {
        let FrameRecord { used, dirty, usage, slot, parent, store, pins, page } = *record;
        let [low, high] = pins.to_le_bytes();
        let first = u64::from_le_bytes([used, dirty, usage, slot, parent.0, store.0, low, high]);
        Fields { first, page: page.0 }
    }

    #[inline(always)]
    fn with(self, other: Fields) -> Fields {
        Fields { first: self.first | other.first, page: self.page | other.page }
    }

    fn are_zero(self) -> bool {
        self.first | u64::from(self.page) == 0
    }
}

/// Two by two, so that one needn't wait for the other. Not inlined: within a larger function its loop takes longer.
#[inline(never)]
fn are_empty(records: &[FrameRecord]) -> bool {
    let (pairs, rest) = records.as_chunks();
    let (mut even, mut odd) = (Fields::default(), Fields::default());
    for [one, other] in pairs {
        (even, odd) = (even.with(Fields::of(one)), odd.with(Fields::of(other)));
    }
    rest.iter().map(Fields::of).fold(even.with(odd), Fields::with).are_zero()
}

/// How many records from the first on are those of empty frames, which are all zero.
#[inline(never)]
fn empty_run(records: &[FrameRecord]) -> usize {
    records.iter().take_while(|record| Fields::of(record).are_zero()).count()
}

fn root_fits((store, root): (u8, &FrameRecord)) -> bool {
    let is_root = root.is_used() && root.store == StoreNumber(store) && root.page == PageNumber(0);
    let parentless = root.parent == FrameIndex(0) && root.slot == 0;
    is_root && root.dirty <= 1 && parentless && root.usage <= MAX_USAGE
}

/// The same for the records of the F frames alone, whatever the ceilings: whether each fits by itself and its parent's word names
/// its frame, and no page or number stands twice in a store. The first so many frames hold the roots.
fn agree_below<const MOST: usize, const STORES: usize>(
    records: &[FrameRecord],
    roots: usize,
    frames: &[Page],
    end: u32,
    seen: &mut Seen<MOST, STORES>,
    keys: &mut Keys,
) -> bool {
    let (mut tally, mut in_order, mut frame) = (Tally(0), true, roots);
    for (root, page) in frames[..roots].iter().enumerate() {
        let store = StoreNumber(root as u8);
        tally.add_page(page, end, seen.of(store));
        keys.put(root, store, PageNumber(0));
    }
    while frame < records.len() {
        let record = &records[frame];
        if in_range::<STORES>(record, frames.len(), end) {
            if !is_linked::<STORES>(record, frame, records, frames) {
                return false;
            }
            in_order &= usize::from(record.parent) < frame;
            let numbers = seen.of(record.store);
            tally.add_frame();
            tally.add_repeated(numbers.add(record.page.into()));
            tally.add_page(&frames[frame], end, numbers);
            keys.put(frame, record.store, record.page);
            frame += 1;
        } else {
            let run = empty_run(&records[frame..]);
            if run == 0 {
                return false;
            }
            frame += run;
        }
    }
    tally.fits() && (in_order || lead_to_root(records, roots))
}

/// Whether the fields of an occupied frame's record are in their ranges, but that a store only has to have a table: the four small
/// ones in one test.
fn in_range<const STORES: usize>(record: &FrameRecord, count: usize, pages: u32) -> bool {
    const MOST: u32 = u32::from_le_bytes([0, 1, MAX_USAGE, SLOTS as u8 - 1]);
    let small = u32::from_le_bytes([record.used, record.dirty, record.usage, record.slot]);
    (small & !MOST == 1)
        & (usize::from(record.parent) < count)
        & (usize::from(record.store) < STORES)
        & (u32::from(record.page).wrapping_sub(1) < pages - 1)
}

/// Whether a frame's parent holds a page of the frame's store, and the parent's word is swizzled to the frame. The store is then
/// that of the root to which parents lead, and so below T. With one store every page is of it.
fn is_linked<const STORES: usize>(
    record: &FrameRecord,
    frame: usize,
    records: &[FrameRecord],
    frames: &[Page],
) -> bool {
    let parent = usize::from(record.parent);
    let above = &records[parent];
    (above.is_used() && (STORES == 1 || above.store == record.store))
        && name(word(&frames[parent], record.slot.into())) == swizzled_to(FrameIndex(frame as u8))
}

/// How many words are N or above, less the frames that have to be named by one; and, from bit 16 on, how often a page or a number
/// below N stood twice in its store, or a mark alone in a page. Pages without words are passed over.
struct Tally(u32);

impl Tally {
    const REPEATED: u32 = 1 << 16;

    fn add(&mut self, more: u32) {
        self.0 = self.0.wrapping_add(more);
    }

    fn add_frame(&mut self) {
        self.add(u32::MAX);
    }

    fn add_repeated(&mut self, repeated: bool) {
        self.add(if repeated { Tally::REPEATED } else { 0 });
    }

    /// Words without marks are gone through in place, others in a copy without them.
    #[inline(always)]
    fn add_page<const MOST: usize>(&mut self, page: &Page, pages: u32, numbers: &mut Numbers<MOST>) {
        let overlaid = overlaid(page);
        if is_marked(overlaid) {
            self.add_repeated(has_mark_alone(page));
            self.add(of_words(&unmarked(page), pages, numbers));
        } else if overlaid != 0 {
            self.add(of_words(stored_words(page), pages, numbers));
        }
    }

    fn fits(&self) -> bool {
        self.0 == 0
    }
}

/// What the words of a page add to the tally.
#[inline(never)]
fn of_words<const MOST: usize>(words: &StoredWords, pages: u32, numbers: &mut Numbers<MOST>) -> u32 {
    let (mut over, mut repeated) = (0, false);
    for word in words.map(u32::from_le_bytes) {
        if word >= pages {
            over += 1;
        } else if word != 0 {
            repeated |= numbers.add(word);
        }
    }
    over + if repeated { Tally::REPEATED } else { 0 }
}

/// Whether following parents leads each occupied frame to a root's, one of the first so many. A walk stops at a frame that is known
/// to.
#[inline(never)]
fn lead_to_root(records: &[FrameRecord], roots: usize) -> bool {
    let mut known: u64 = (1 << roots) - 1;
    for frame in (roots..records.len()).filter(|frame| records[*frame].is_used()) {
        let (mut walked, mut at) = (0, frame);
        while known >> at & 1 == 0 {
            if walked >> at & 1 == 1 {
                return false;
            }
            walked |= 1 << at;
            at = usize::from(records[at].parent);
        }
        known |= walked;
    }
    true
}
