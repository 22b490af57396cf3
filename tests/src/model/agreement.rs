//! Document 01, "When records and frames agree", sentence by sentence, with request A.11's.
use super::{ceiling, frame_word, held, is_root, occupied, page_in, read, Reading};
use crate::records::{FrameIndex, FrameRecord, Page, PageNumber, Pool, StoreNumber, MAX_USAGE, SLOTS};

/// Records and frames agree. F, N, T and the ceilings are in their ranges, and the frames are F.
pub fn agree(pool: &Pool, frames: &[u8]) -> bool {
    fields_in_range(pool)
        && roots_in_place(pool)
        && pages_apart(pool)
        && empty_blank(pool)
        && parents_name(pool, frames)
        && stores_agree(pool)
        && swizzled_point_back(pool, frames)
        && numbers_absent(pool, frames)
        && no_mark_alone(pool, frames)
        && numbers_once(pool, frames)
        && all_reach_root(pool)
        && ceilings_hold(pool)
}

/// The stores.
fn stores(pool: &Pool) -> impl Iterator<Item = StoreNumber> {
    (0..pool.stores).map(StoreNumber)
}

/// "The hand is below F. Every field is in its range."
fn fields_in_range(pool: &Pool) -> bool {
    let in_range = |record: &FrameRecord| {
        record.page.0 < pool.pages
            && record.store.0 < pool.stores
            && record.used <= 1
            && record.dirty <= 1
            && record.usage <= MAX_USAGE
            && u16::from(record.parent.0) < pool.count
            && usize::from(record.slot) < SLOTS
    };
    u16::from(pool.hand.0) < pool.count && pool.records.iter().all(in_range)
}

/// "Frame 0 holds page 0 and has no parent (its two parent fields are 0)." Request A.11: "frames 0 to T − 1 hold their roots".
fn roots_in_place(pool: &Pool) -> bool {
    stores(pool).all(|store| {
        let frame = FrameIndex(store.0);
        let root = pool.record(frame);
        let is_there = root.is_used() && page_in(pool, frame) == Page::root(store);
        is_there && root.parent == FrameIndex(0) && root.slot == 0
    })
}

/// "No page is in two frames."
fn pages_apart(pool: &Pool) -> bool {
    occupied(pool).all(|f| occupied(pool).all(|g| f == g || page_in(pool, f) != page_in(pool, g)))
}

/// "An empty frame's record, and any record from F on, is all zero."
fn empty_blank(pool: &Pool) -> bool {
    let is_empty = |(frame, record): (usize, &FrameRecord)| {
        (frame < pool.count.into() && record.is_used()) || *record == FrameRecord::EMPTY
    };
    pool.records.iter().enumerate().all(is_empty)
}

/// "Every other occupied frame's parent is occupied, and the parent's word at the parent slot is swizzled
/// to it."
fn parents_name(pool: &Pool, frames: &[u8]) -> bool {
    children(pool).all(|frame| {
        let record = pool.record(frame);
        let word = frame_word(frames, record.parent, record.slot.into());
        pool.record(record.parent).is_used() && read(word) == Reading::Frame(frame.into())
    })
}

/// The occupied frames that hold no root.
fn children(pool: &Pool) -> impl Iterator<Item = FrameIndex> + '_ {
    occupied(pool).filter(|frame| !is_root(pool, *frame))
}

/// Request A.11: "a child's store is its parent's".
fn stores_agree(pool: &Pool) -> bool {
    children(pool).all(|frame| pool.record(pool.record(frame).parent).store == pool.record(frame).store)
}

/// Each word of the occupied frames, with its frame and slot.
fn words<'a>(pool: &'a Pool, frames: &'a [u8]) -> impl Iterator<Item = (FrameIndex, usize, Reading)> + 'a {
    occupied(pool).flat_map(move |frame| {
        (0..SLOTS).map(move |slot| (frame, slot, read(frame_word(frames, frame, slot))))
    })
}

/// "Every swizzled word of an occupied frame names an occupied frame, never the root's, whose record
/// points back to that word."
fn swizzled_point_back(pool: &Pool, frames: &[u8]) -> bool {
    words(pool, frames).all(|(frame, slot, word)| match word {
        Reading::Frame(child) => occupied(pool).any(|other| {
            let record = pool.record(other);
            u32::from(other) == child
                && !is_root(pool, other)
                && record.parent == frame
                && usize::from(record.slot) == slot
        }),
        Reading::Nothing | Reading::MarkAlone | Reading::Page(_) => true,
    })
}

/// "Every other word there is 0 or a number below N of a page that isn't resident.", of the store that the word stands in.
fn numbers_absent(pool: &Pool, frames: &[u8]) -> bool {
    stores(pool).all(|store| {
        let resident: Vec<PageNumber> = held(pool, store).map(|frame| pool.record(frame).page).collect();
        let absent = |number: u32| resident.iter().all(|page| u32::from(*page) != number);
        numbers(pool, frames, store).iter().all(|number| *number < pool.pages.into() && absent(*number))
    })
}

/// Request A.8: bit 30 "on a word of otherwise 0 .. in an occupied frame".
fn no_mark_alone(pool: &Pool, frames: &[u8]) -> bool {
    words(pool, frames).all(|(_, _, word)| word != Reading::MarkAlone)
}

/// "No number stands in two such words.", of one store.
fn numbers_once(pool: &Pool, frames: &[u8]) -> bool {
    stores(pool).all(|store| all_distinct(&numbers(pool, frames, store)))
}

/// The numbers in words of a store's resident pages.
fn numbers(pool: &Pool, frames: &[u8], store: StoreNumber) -> Vec<u32> {
    words(pool, frames)
        .filter(|(frame, _, _)| pool.record(*frame).store == store)
        .filter_map(|(_, _, word)| match word {
            Reading::Page(number) => Some(number),
            Reading::Nothing | Reading::MarkAlone | Reading::Frame(_) => None,
        })
        .collect()
}

pub fn all_distinct(numbers: &[u32]) -> bool {
    (0..numbers.len()).all(|i| !numbers[..i].contains(&numbers[i]))
}

/// "Following parents from any occupied frame reaches frame 0." Request A.11: "one resident tree under each root".
fn all_reach_root(pool: &Pool) -> bool {
    occupied(pool).all(|frame| {
        let mut at = frame;
        for _ in 0..pool.count {
            at = if is_root(pool, at) { at } else { pool.record(at).parent };
        }
        is_root(pool, at)
    })
}

/// Request A.11: "records with more pages of a store than its ceiling under 2".
fn ceilings_hold(pool: &Pool) -> bool {
    stores(pool).all(|store| held(pool, store).count() <= ceiling(pool, store))
}
