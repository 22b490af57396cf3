//! Changes of the records.
use super::occupied;
use crate::records::{
    FrameIndex, FrameRecord, PageNumber, State, StoreNumber, MAX_USAGE, MOST_FRAMES, MOST_STORES,
};
use random::Random;

/// A frame, most of the time one of the F.
fn any_frame(random: &mut Random, state: &State) -> usize {
    let count = usize::from(state.pool.count).clamp(1, MOST_FRAMES);
    let end = if random.percent(85) { count } else { MOST_FRAMES };
    random.below(end)
}

fn any_record<'a>(random: &mut Random, state: &'a mut State) -> &'a mut FrameRecord {
    &mut state.pool.records[any_frame(random, state)]
}

/// A figure about an edge, or any.
fn figure_near(random: &mut Random, edge: u16) -> u16 {
    let any = random.draw() as u16;
    random.pick(&[0, 1, edge.wrapping_sub(1), edge, edge.wrapping_add(1), u16::MAX, any])
}

/// One field set to another value.
pub fn field(random: &mut Random, state: &mut State) {
    let (count, pages, stores) = (state.pool.count, state.pool.pages, state.pool.stores);
    let record = any_record(random, state);
    match random.below(8) {
        0 => record.used = figure_near(random, 2) as u8,
        1 => record.dirty = figure_near(random, 2) as u8,
        2 => record.usage = figure_near(random, u16::from(MAX_USAGE) + 1) as u8,
        3 => record.slot = figure_near(random, 16) as u8,
        4 => record.parent.0 = figure_near(random, count) as u8,
        5 => record.pins = figure_near(random, u16::MAX),
        6 => record.store.0 = figure_near(random, stores.into()) as u8,
        _ => record.page.0 = figure_near(random, pages),
    }
}

/// One bit of a field turned.
pub fn bit(random: &mut Random, state: &mut State) {
    let (narrow, wide) = (1u8 << random.below(8), 1u16 << random.below(16));
    let record = any_record(random, state);
    match random.below(8) {
        0 => record.used ^= narrow,
        1 => record.dirty ^= narrow,
        2 => record.usage ^= narrow,
        3 => record.slot ^= narrow,
        4 => record.parent.0 ^= narrow,
        5 => record.pins ^= wide,
        6 => record.store.0 ^= narrow,
        _ => record.page.0 ^= wide,
    }
}

/// A whole record emptied, made up, copied from another, or changed with another.
pub fn whole(random: &mut Random, state: &mut State) {
    let (frame, other) = (any_frame(random, state), any_frame(random, state));
    match random.below(4) {
        0 => state.pool.records[frame] = FrameRecord::EMPTY,
        1 => state.pool.records[frame] = made_up(random, state),
        2 => state.pool.records[frame] = state.pool.records[other],
        _ => state.pool.records.swap(frame, other),
    }
}

/// A record with fields in their ranges or one above.
fn made_up(random: &mut Random, state: &State) -> FrameRecord {
    FrameRecord {
        used: random.pick(&[0, 0, 1, 1, 1, 1, 2]),
        dirty: random.pick(&[0, 0, 1, 1, 2]),
        usage: random.below(5) as u8,
        slot: random.below(17) as u8,
        parent: FrameIndex(random.below(usize::from(state.pool.count) + 1) as u8),
        store: StoreNumber(random.below(usize::from(state.pool.stores) + 1) as u8),
        pins: random.below(3) as u16,
        page: PageNumber(random.below(usize::from(state.pool.pages) + 1) as u16),
    }
}

/// F, N or the hand set to another value.
pub fn figure(random: &mut Random, state: &mut State) {
    let (count, pages) = (state.pool.count, state.pool.pages);
    match random.below(3) {
        0 => {
            let near = figure_near(random, count);
            state.pool.count = random.pick(&[near, 63, 64, 65]);
        }
        1 => {
            let near = figure_near(random, pages);
            state.pool.pages = random.pick(&[near, 4095, 4096, 4097]);
        }
        _ => state.pool.hand.0 = figure_near(random, count) as u8,
    }
}

/// The store of a record set to another, of any frame or of one from F on; or those of two frames changed.
pub fn store(random: &mut Random, state: &mut State) {
    let (frame, other) = (random.below(MOST_FRAMES), any_frame(random, state));
    let stores = usize::from(state.pool.stores).clamp(1, MOST_STORES);
    let number = random.below(stores + 1) as u8;
    match random.below(3) {
        0 => state.pool.records[frame].store.0 = number.max(1),
        1 => state.pool.records[other].store.0 = number,
        _ => {
            let (of_first, of_second) = (any_frame(random, state), other);
            let store = state.pool.records[of_first].store;
            state.pool.records[of_first].store = state.pool.records[of_second].store;
            state.pool.records[of_second].store = store;
        }
    }
}

/// T set to another value, or a ceiling to one about F, about the resident pages of its store, or any.
pub fn stores(random: &mut Random, state: &mut State) {
    if random.percent(30) {
        let (count, any) = (state.pool.stores, random.draw() as u8);
        state.pool.stores = random.pick(&[0, 1, 2, 3, 4, 5, count.wrapping_add(1), 255, any]);
        return;
    }
    let (store, count) = (random.below(MOST_STORES), state.pool.count as u8);
    let pages = state.occupied().filter(|(_, record)| usize::from(record.store) == store).count() as u8;
    let about = [pages.saturating_sub(1), pages, pages + 1, count, count.wrapping_add(1)];
    state.pool.ceilings[store] = match random.below(6) {
        0 => random.draw() as u8,
        1 => random.pick(&[0, 1, 64, 65, 255]),
        _ => random.pick(&about),
    };
}

/// The ceiling of a store set to another, at least as high as it has resident pages.
pub fn ceiling(random: &mut Random, state: &mut State) {
    let Some(store) = random.choose(state.store_numbers()) else { return };
    let pages = state.occupied().filter(|(_, record)| record.store == store).count();
    let most = state.frame_count();
    if (1..=most).contains(&pages) {
        let any = random.between(pages, most);
        state.pool.ceilings[usize::from(store)] = random.pick(&[pages, pages, any, most]) as u8;
    }
}

/// Usage, pins, dirty mark or hand set to another value in range.
pub fn counts(random: &mut Random, state: &mut State) {
    let Some(frame) = occupied(random, state) else {
        return;
    };
    let count = usize::from(state.pool.count).max(1);
    let record = state.pool.record_mut(frame);
    match random.below(4) {
        0 => record.usage = random.below(usize::from(MAX_USAGE) + 1) as u8,
        1 => record.pins = random.below(3) as u16,
        2 => record.dirty ^= 1,
        _ => state.pool.hand.0 = random.below(count) as u8,
    }
}

/// A page with all the pins that it can have, or nearly.
pub fn most_pins(random: &mut Random, state: &mut State) {
    if let Some(frame) = occupied(random, state) {
        state.pool.record_mut(frame).pins = u16::MAX - random.below(2) as u16;
    }
}
