//! Request A.3, "A directory of resident pages", sentence by sentence. A chain is read off the bytes as a list of frames, and a
//! changed list is put back as bytes.
use super::{occupied, page_in};
use crate::records::{FrameIndex, Page, PageNumber, Pool, State, BUCKETS, DIRECTORY_SIZE, MOST_FRAMES};

/// "bucket p mod 67"
pub fn bucket_of(page: PageNumber) -> usize {
    usize::from(page) % BUCKETS
}

/// The byte that tells the frame after a frame: "byte 67 + f".
pub fn byte_after(frame: FrameIndex) -> usize {
    BUCKETS + usize::from(frame)
}

/// "Byte b below 67 holds 1 plus the frame at the head of chain b, byte 67 + f holds 1 plus the frame after f in its chain, 0 where
/// none." The frames of a chain in their order; none where the bytes lead to a frame that was there already, or to no frame.
pub fn chain(directory: &[u8], bucket: usize) -> Option<Vec<FrameIndex>> {
    let (mut frames, mut at) = (Vec::new(), bucket);
    loop {
        let byte = *directory.get(at)?;
        if byte == 0 {
            return Some(frames);
        }
        let frame = FrameIndex(byte - 1);
        if frames.contains(&frame) {
            return None;
        }
        frames.push(frame);
        at = byte_after(frame);
    }
}

/// Puts a chain into its bytes.
fn put_chain(directory: &mut [u8], bucket: usize, frames: &[FrameIndex]) {
    let mut at = bucket;
    for frame in frames {
        directory[at] = frame.0 + 1;
        at = byte_after(*frame);
    }
    directory[at] = 0;
}

/// The frames of the resident pages with a remainder, from 0 on.
pub fn residents(pool: &Pool, bucket: usize) -> Vec<FrameIndex> {
    occupied(pool).filter(|frame| bucket_of(pool.record(*frame).page) == bucket).collect()
}

/// "131 bytes"
pub fn has_its_length(directory: &[u8]) -> bool {
    directory.len() == DIRECTORY_SIZE
}

/// The chains "give exactly the resident pages of their remainders, each once in any order", and no "other byte" is "not 0". The
/// directory has its length.
pub fn agrees(pool: &Pool, directory: &[u8]) -> bool {
    let mut of_chains = [false; DIRECTORY_SIZE];
    for bucket in 0..BUCKETS {
        let Some(mut frames) = chain(directory, bucket) else { return false };
        of_chains[bucket] = true;
        frames.iter().for_each(|frame| of_chains[byte_after(*frame)] = true);
        frames.sort();
        if frames != residents(pool, bucket) {
            return false;
        }
    }
    (0..DIRECTORY_SIZE).all(|at| of_chains[at] || directory[at] == 0)
}

/// The directory has its length and agrees with the records, whatever else may be wrong with these.
pub fn is_right(state: &State) -> bool {
    let State { pool, directory, .. } = state;
    usize::from(pool.count) <= MOST_FRAMES && has_its_length(directory) && agrees(pool, directory)
}

/// A chain of a directory that agrees with the records.
fn standing(directory: &[u8], bucket: usize) -> Vec<FrameIndex> {
    chain(directory, bucket).expect("a directory that agrees with the records")
}

/// "an entry added at its chain's head on loading"; request A.11: so are the roots, by open, from store 0 on.
pub fn enter(directory: &mut [u8], page: PageNumber, frame: FrameIndex) {
    let mut frames = standing(directory, bucket_of(page));
    frames.insert(0, frame);
    put_chain(directory, bucket_of(page), &frames);
}

/// "and taken out on eviction": the others stay in their order, and the byte of the frame that left is 0.
pub fn take_out(directory: &mut [u8], page: PageNumber, frame: FrameIndex) {
    let mut frames = standing(directory, bucket_of(page));
    frames.retain(|other| *other != frame);
    put_chain(directory, bucket_of(page), &frames);
    directory[byte_after(frame)] = 0;
}

/// The frame of a page by its chain, and "the entries compared: the place of the page's entry in its chain, from 1, or the chain's
/// length if absent". Entries of all stores share the chains.
pub fn seek(pool: &Pool, directory: &[u8], page: Page) -> (Option<FrameIndex>, u16) {
    let frames = standing(directory, bucket_of(page.number));
    match frames.iter().position(|frame| page_in(pool, *frame) == page) {
        Some(before) => (Some(frames[before]), before as u16 + 1),
        None => (None, frames.len() as u16),
    }
}
