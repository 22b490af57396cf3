//! Images, pages that leave a frame or come into one, and the sweep.
use super::{at_ceiling, directory, has_swizzled, is_root, occupied, swizzled_to, unswizzled};
use crate::pool::Refusal;
use crate::records::{
    mark_of, page_of, page_of_mut, put_word, word_in, FrameIndex, FrameRecord, Page, State, StoreNumber,
    MAX_USAGE, SLOTS,
};

/// "The image of a resident page is its bytes with each swizzled word replaced by the number of the page
/// in that frame."
pub fn image(state: &State, frame: FrameIndex) -> Vec<u8> {
    let mut page = page_of(&state.frames, frame.into()).to_vec();
    for slot in 0..SLOTS {
        let word = word_in(&page, slot);
        put_word(&mut page, slot, unswizzled(&state.pool, word));
    }
    page
}

/// Writes the image of the page in a frame to its store, if it is dirty.
pub fn write_out(state: &mut State, frame: FrameIndex) {
    let record = *state.pool.record(frame);
    if record.is_dirty() {
        let (image, place) = (image(state, frame), Page::from(&record).place(state.pool.pages));
        page_of_mut(&mut state.store, place).copy_from_slice(&image);
    }
}

/// The page in an occupied frame isn't a root, isn't pinned, and has no swizzled word.
pub fn evictable(state: &State, frame: FrameIndex) -> bool {
    !is_root(&state.pool, frame) && state.pool.record(frame).pins == 0 && !has_swizzled(state, frame)
}

/// Puts another name into a word. Request A.8: "Loading, eviction, settling, splitting .. carry" its mark.
fn rename(page: &mut [u8], slot: usize, name: u32) {
    let mark = mark_of(word_in(page, slot));
    put_word(page, slot, mark + name);
}

pub fn evict(state: &mut State, frame: FrameIndex) {
    write_out(state, frame);
    let record = *state.pool.record(frame);
    let parent = page_of_mut(&mut state.frames, record.parent.into());
    rename(parent, record.slot.into(), record.page.into());
    directory::take_out(&mut state.directory, record.page, frame);
    *state.pool.record_mut(frame) = FrameRecord::EMPTY;
}

/// Loads a page into an empty frame, for a slot of its parent's frame.
pub fn load(state: &mut State, page: Page, frame: FrameIndex, parent: FrameIndex, slot: usize) {
    let place = page.place(state.pool.pages);
    page_of_mut(&mut state.frames, frame.into()).copy_from_slice(page_of(&state.store, place));
    rename(page_of_mut(&mut state.frames, parent.into()), slot, swizzled_to(frame));
    directory::enter(&mut state.directory, page.number, frame);
    *state.pool.record_mut(frame) = loaded(page, parent, slot);
}

/// The record of a page that was loaded for a slot of its parent's frame.
pub fn loaded(page: Page, parent: FrameIndex, slot: usize) -> FrameRecord {
    let Page { store, number } = page;
    FrameRecord { used: 1, dirty: 0, usage: 1, slot: slot as u8, parent, store, pins: 1, page: number }
}

/// An empty frame for a load of a store's page, and the looks that it took; 15 or 27 where there is none. Request A.11: "A store at
/// its ceiling sweeps its own pages only, even where frames are empty; any other frame costs a look and is left unchanged. Below it,
/// loading goes as in 01".
pub fn make_room(state: &mut State, store: StoreNumber) -> Result<(FrameIndex, u16), Refusal> {
    if at_ceiling(&state.pool, store) {
        return sweep(state, |record| record.is_used() && record.store == store).ok_or(27);
    }
    match first_empty(state) {
        Some(frame) => Ok((frame, 0)),
        None => sweep(state, |_| true).ok_or(15),
    }
}

/// "the first empty one at or after the hand, going round"
fn first_empty(state: &State) -> Option<FrameIndex> {
    let (hand, count) = (state.pool.hand.0, state.pool.count as u8);
    let mut from_hand = (hand..count).chain(0..hand).map(FrameIndex);
    from_hand.find(|frame| !occupied(&state.pool).any(|other| other == *frame))
}

/// "The root, a pinned page and a page with a swizzled word are passed over. Any other with heat above 0 loses 1. One with heat
/// 0 is evicted and its frame used." Request A.5: "Each look of a sweep that passes over a pinned page other than the root raises
/// its heat by one, to 3 at most. Pages passed over for children alone keep their heat." Request A.11: a frame whose record takes no
/// part "costs a look and is left unchanged".
fn sweep(state: &mut State, takes_part: impl Fn(&FrameRecord) -> bool) -> Option<(FrameIndex, u16)> {
    let mut pool = state.pool;
    for looks in 1..=4 * pool.count {
        let frame = pool.hand;
        pool.hand = FrameIndex(((u16::from(frame.0) + 1) % pool.count) as u8);
        let root = is_root(&pool, frame);
        let record = pool.record_mut(frame);
        if !takes_part(record) {
            continue;
        }
        if evictable(state, frame) {
            if record.usage == 0 {
                state.pool = pool;
                evict(state, frame);
                return Some((frame, looks));
            }
            record.usage -= 1;
        } else if !root && record.pins > 0 {
            record.usage = MAX_USAGE.min(record.usage + 1);
        }
    }
    None
}
