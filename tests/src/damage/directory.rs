//! Changes of the directory: any byte, its length, and chains that are wrong in one respect alone.
use super::occupied;
use crate::model::directory::{bucket_of, byte_after, chain, enter, is_right, residents, take_out};
use crate::records::{FrameIndex, State, BUCKETS, DIRECTORY_SIZE, MOST_FRAMES};
use random::Random;

/// Another length: none, a byte less or more, or any.
pub fn length(random: &mut Random, state: &mut State) {
    let any = random.below(2 * DIRECTORY_SIZE);
    let length = random.pick(&[0, BUCKETS, DIRECTORY_SIZE - 1, DIRECTORY_SIZE + 1, 2 * DIRECTORY_SIZE, any]);
    state.directory.resize(length, 0);
}

/// A byte that may fit nowhere: about F, about the last frame, another frame's, or any.
fn odd_byte(random: &mut Random, state: &State) -> u8 {
    let (count, any) = (state.pool.count as u8, random.draw() as u8);
    let frame = random.below(state.frame_count().max(1)) as u8 + 1;
    random.pick(&[0, 1, frame, frame, count, count.wrapping_add(1), 63, 64, 65, 131, 255, any])
}

/// Any byte set to another value.
pub fn byte(random: &mut Random, state: &mut State) {
    let byte = odd_byte(random, state);
    if let Some(at) = random.choose(0..state.directory.len()) {
        state.directory[at] = byte;
    }
}

/// A head's byte, or that of a resident page's frame.
pub fn link(random: &mut Random, state: &mut State) {
    let Some(frame) = occupied(random, state) else { return };
    let bucket = bucket_of(state.pool.record(frame).page);
    let at = if random.percent(50) { bucket } else { byte_after(frame) };
    let byte = odd_byte(random, state);
    put(state, at, byte);
}

/// All bytes 0, any, turned round, or moved on by one.
pub fn whole(random: &mut Random, state: &mut State) {
    match random.below(4) {
        0 => state.directory.fill(0),
        1 => random.fill(&mut state.directory),
        2 => state.directory.reverse(),
        _ if state.directory.is_empty() => (),
        _ => state.directory.rotate_right(1),
    }
}

fn put(state: &mut State, at: usize, byte: u8) {
    if let Some(place) = state.directory.get_mut(at) {
        *place = byte;
    }
}

/// A bucket with some entries, and these, where the directory is right.
fn entries(random: &mut Random, state: &State, least: usize) -> Option<(usize, Vec<FrameIndex>)> {
    if !is_right(state) {
        return None;
    }
    let chains = (0..BUCKETS).filter_map(|bucket| Some((bucket, chain(&state.directory, bucket)?)));
    random.choose(chains.filter(|(_, frames)| frames.len() >= least))
}

/// A bucket that others than a chain's could be in.
fn other_bucket(random: &mut Random, bucket: usize) -> usize {
    (bucket + random.between(1, BUCKETS - 1)) % BUCKETS
}

/// A frame that holds no page, at times one from F on.
fn empty(random: &mut Random, state: &State) -> Option<FrameIndex> {
    let used = |frame: usize| frame < state.pool.count.into() && state.pool.records[frame].is_used();
    let frame = random.choose((0..MOST_FRAMES).filter(|frame| !used(*frame)));
    frame.map(|frame| FrameIndex(frame as u8))
}

/// A chain that leads back into itself: from its last entry to any of them.
pub fn cycle(random: &mut Random, state: &mut State) {
    let Some((_, frames)) = entries(random, state, 1) else { return };
    let (last, any) = (frames[frames.len() - 1], random.pick(&frames));
    put(state, byte_after(last), any.0 + 1);
}

/// A cycle that no head leads to: of the entries of a chain, whose head is 0, or of frames that hold no page.
pub fn loose_cycle(random: &mut Random, state: &mut State) {
    if random.percent(50) {
        let Some((bucket, frames)) = entries(random, state, 1) else { return };
        put(state, byte_after(frames[frames.len() - 1]), frames[0].0 + 1);
        put(state, bucket, 0);
    } else if let (Some(first), Some(second)) = (empty(random, state), empty(random, state)) {
        put(state, byte_after(first), second.0 + 1);
        put(state, byte_after(second), first.0 + 1);
    }
}

/// Two chains with one end: the last entry of one leads into another, or an empty chain's head does.
pub fn shared_tail(random: &mut Random, state: &mut State) {
    let Some((bucket, frames)) = entries(random, state, 1) else { return };
    let Some((_, others)) = entries(random, state, 1) else { return };
    let at =
        if random.percent(60) { byte_after(frames[frames.len() - 1]) } else { other_bucket(random, bucket) };
    let into = random.pick(&others).0 + 1;
    put(state, at, into);
}

/// An entry in another chain than its page's, every chain otherwise right; or two heads changed.
pub fn wrong_bucket(random: &mut Random, state: &mut State) {
    let Some((bucket, frames)) = entries(random, state, 1) else { return };
    let (other, frame) = (other_bucket(random, bucket), random.pick(&frames));
    if random.percent(30) {
        return state.directory.swap(bucket, other);
    }
    take_out(&mut state.directory, state.pool.record(frame).page, frame);
    put(state, byte_after(frame), state.directory[other]);
    put(state, other, frame.0 + 1);
}

/// A frame that holds no page in a chain: at its head, or after any of its entries.
pub fn empty_entry(random: &mut Random, state: &mut State) {
    let Some((bucket, frames)) = entries(random, state, 0) else { return };
    let Some(frame) = empty(random, state) else { return };
    let at = match random.choose(frames) {
        Some(before) if random.percent(60) => byte_after(before),
        _ => bucket,
    };
    put(state, byte_after(frame), state.directory[at]);
    put(state, at, frame.0 + 1);
}

/// A resident page in no chain: its entry taken out, or the chain cut before it.
pub fn missing_entry(random: &mut Random, state: &mut State) {
    let Some((bucket, frames)) = entries(random, state, 1) else { return };
    let place = random.below(frames.len());
    if random.percent(50) {
        take_out(&mut state.directory, state.pool.record(frames[place]).page, frames[place]);
    } else {
        let at = if place == 0 { bucket } else { byte_after(frames[place - 1]) };
        put(state, at, 0);
    }
}

/// An entry that stands in its chain a second time, or in it and in another.
pub fn second_entry(random: &mut Random, state: &mut State) {
    let Some((bucket, frames)) = entries(random, state, 1) else { return };
    let frame = random.pick(&frames);
    let bucket = if random.percent(50) { bucket } else { other_bucket(random, bucket) };
    put(state, byte_after(frame), state.directory[bucket]);
    put(state, bucket, frame.0 + 1);
}

/// A byte of a frame that holds no page, or of one from F on.
pub fn loose_byte(random: &mut Random, state: &mut State) {
    let byte = odd_byte(random, state).max(1);
    if let Some(frame) = empty(random, state) {
        put(state, byte_after(frame), byte);
    }
}

/// The entries of a chain in another order, which is right too.
pub fn reordered(random: &mut Random, state: &mut State) {
    let Some((bucket, _)) = entries(random, state, 2) else { return };
    let mut left = residents(&state.pool, bucket);
    for frame in &left {
        take_out(&mut state.directory, state.pool.record(*frame).page, *frame);
    }
    while !left.is_empty() {
        let frame = left.swap_remove(random.below(left.len()));
        enter(&mut state.directory, state.pool.record(frame).page, frame);
    }
}
