//! Random sound stores, and random figures of stores.
use crate::records::{
    page_of_mut, put_word, with_mark, word_in, Stores, BUCKETS, MOST_STORES, PAGE_SIZE, PAYLOAD_START, SLOTS,
};
use random::Random;

/// So many stores over so many frames: all of them may fill every frame, each has some frames of its own, or ceilings are any.
pub fn any_stores(random: &mut Random, stores: u8, frames: usize) -> Stores {
    let kind = random.below(4);
    let mut left = frames;
    let ceilings = std::array::from_fn(|store| {
        if store >= stores.into() {
            return 0;
        }
        let least = random.pick(&[1, 2, 2, 2]);
        let most = match kind {
            0 => frames,
            1 => random.between(least, frames),
            2 => frames.min(random.between(2, 4)),
            _ => {
                // at least one for each of the others
                let most = left - (usize::from(stores) - 1 - store);
                random.between(least.min(most), most)
            }
        };
        left = left.saturating_sub(most);
        most as u8
    });
    Stores { count: stores, ceilings }
}

/// Stores one after another, each made by itself.
pub fn side_by_side(random: &mut Random, stores: u8, one: impl Fn(&mut Random) -> Vec<u8>) -> Vec<u8> {
    (0..stores).flat_map(|_| one(random)).collect()
}

/// How many stores so many frames can serve, at most.
pub fn most_stores(frames: usize) -> usize {
    MOST_STORES.min(frames.saturating_sub(1))
}

/// Pages with random payloads that are sound as one store and as up to four: each number stands in one word of all, and is below a
/// fourth of the pages. So many in a hundred of those are named.
pub fn divisible_store(random: &mut Random, pages: usize, named: usize, marked: usize) -> Vec<u8> {
    let mut store = unlinked_pages(random, pages);
    for page in 1..pages / MOST_STORES {
        if random.percent(named) {
            let parent = if random.percent(60) { 0 } else { random.below(pages) };
            let word = with_mark(page as u32, random.percent(marked));
            name_in(random, page_of_mut(&mut store, parent), word);
        }
    }
    store
}

/// N pages with random payloads. So many in a hundred are named by a word, most of them in a tree below the root, and so many of
/// these words are marked, in reach or not.
pub fn sound_store(random: &mut Random, pages: usize, named: usize, marked: usize) -> Vec<u8> {
    let mut store = unlinked_pages(random, pages);
    for page in 1..pages {
        if random.percent(named) {
            let parent = parent_for(random, page, pages);
            let word = with_mark(page as u32, random.percent(marked));
            name_in(random, page_of_mut(&mut store, parent), word);
        }
    }
    store
}

/// N pages with random payloads. Those with one of up to three remainders by 67 are named, in a tree below the root, so that
/// resident pages share a bucket; so many in a hundred of the words are marked.
pub fn sharing_store(random: &mut Random, pages: usize, marked: usize) -> Vec<u8> {
    let mut store = unlinked_pages(random, pages);
    let remainders: Vec<usize> = (0..random.pick(&[1, 1, 2, 3])).map(|_| random.below(BUCKETS)).collect();
    let mut parents = vec![0];
    for page in (1..pages).filter(|page| remainders.contains(&(page % BUCKETS))) {
        let parent = if random.percent(60) { 0 } else { random.pick(&parents) };
        let word = with_mark(page as u32, random.percent(marked));
        if name_in(random, page_of_mut(&mut store, parent), word) {
            parents.push(page);
        }
    }
    store
}

/// N pages with random payloads, of which none names another.
fn unlinked_pages(random: &mut Random, pages: usize) -> Vec<u8> {
    let mut store = vec![0; PAGE_SIZE * pages];
    for page in 0..pages {
        random.fill(&mut page_of_mut(&mut store, page)[PAYLOAD_START..]);
    }
    store
}

/// A page with a lower number, and at times any: itself, or one of a ring out of the root's reach.
fn parent_for(random: &mut Random, page: usize, pages: usize) -> usize {
    match random.below(10) {
        0 => random.below(pages),
        1..=3 => page - 1,
        _ => random.below(page),
    }
}

/// Puts a word into an empty slot, if the one tried is: the first more often than any other, since the root's parent fields are 0.
/// Gives whether it was.
fn name_in(random: &mut Random, parent: &mut [u8], word: u32) -> bool {
    let slot = if random.percent(15) { 0 } else { random.below(SLOTS) };
    let free = word_in(parent, slot) == 0;
    if free {
        put_word(parent, slot, word);
    }
    free
}
