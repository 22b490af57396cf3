//! Forms of counting the depths of a recording, all in safe Rust and none with rules: the one that the library and the baseline
//! have, and others that were tried against it. Each is lent counters and a recording that keeps the rules.
use crate::baseline::tally;
use pagepool::{DEPTHS, MOST_PAGES, MOST_REFERENCES};

/// The times of a block of packed marks, a bit for each, and the blocks.
const BLOCK: usize = u64::BITS as usize;
const BLOCKS: usize = MOST_REFERENCES / BLOCK;

pub type Counts = [u32; DEPTHS];

pub struct Form {
    pub name: &'static str,
    /// The bytes of its tables.
    pub tables: usize,
    pub count: fn(&mut Counts, &[u16]),
}

/// The bytes of a table of times by page, or of pages; and those of packed marks.
const BY_PAGE: usize = 2 * MOST_PAGES;
const PACKED: usize = 8 * BLOCKS;

/// The library's form first.
pub const FORMS: [Form; 7] = [
    Form { name: "packed marks", tables: BY_PAGE + PACKED + 2 * BLOCKS, count: packed },
    Form { name: "packed, present block apart", tables: BY_PAGE + PACKED + 2 * BLOCKS, count: packed_apart },
    Form {
        name: "packed under a tree",
        tables: BY_PAGE + PACKED + 2 * (BLOCKS + 1),
        count: packed_under_a_tree,
    },
    Form { name: "window of marks", tables: BY_PAGE + 2 * MOST_REFERENCES, count: window },
    Form { name: "window of byte marks", tables: BY_PAGE + MOST_REFERENCES, count: window_of_bytes },
    Form { name: "tree over the times", tables: BY_PAGE + 2 * (MOST_REFERENCES + 1), count: tree },
    Form { name: "move to front", tables: BY_PAGE + MOST_PAGES, count: move_to_front },
];

/// By time a mark where it is the last reference of its page, 64 in a number, and the count of each such block. A depth is made of
/// the later marks of a block and the counts of the later blocks.
#[inline(never)]
fn packed(counts: &mut Counts, pages: &[u16]) {
    tally::count(counts, pages);
}

/// The same, but the marks of the block that the time is in stand in a number of their own, and go to the tables with its end.
#[inline(never)]
fn packed_apart(counts: &mut Counts, pages: &[u16]) {
    let mut after = [0u16; MOST_PAGES];
    let mut marks = [0u64; BLOCKS];
    let mut marked = [0u16; BLOCKS];
    for (block, part) in pages.chunks(BLOCK).enumerate() {
        let mut present = 0u64;
        for (place, page) in part.iter().enumerate() {
            let after = &mut after[usize::from(*page)];
            if *after > 0 {
                let (of_last, last) = (usize::from(*after - 1) / BLOCK, usize::from(*after - 1) % BLOCK);
                if of_last < block {
                    let later = (marks[of_last] >> last >> 1).count_ones() + present.count_ones();
                    let farther: u16 = marked[of_last + 1..block].iter().sum();
                    counts[later as usize + usize::from(farther)] += 1;
                    marks[of_last] ^= 1 << last;
                    marked[of_last] -= 1;
                } else {
                    counts[(present >> last >> 1).count_ones() as usize] += 1;
                    present ^= 1 << last;
                }
            }
            present |= 1 << place;
            *after = (BLOCK * block + place) as u16 + 1;
        }
        marks[block] = present;
        marked[block] = present.count_ones() as u16;
    }
}

/// The same, with the counts of the blocks in a binary indexed tree.
#[inline(never)]
fn packed_under_a_tree(counts: &mut Counts, pages: &[u16]) {
    let mut after = [0u16; MOST_PAGES];
    let mut marks = [0u64; BLOCKS];
    let mut tree = [0u16; BLOCKS + 1];
    let mut different = 0;
    for (time, page) in pages.iter().enumerate() {
        let after = &mut after[usize::from(*page)];
        if *after > 0 {
            let (of_last, place) = (usize::from(*after - 1) / BLOCK, usize::from(*after - 1) % BLOCK);
            let later = (marks[of_last] >> place >> 1).count_ones() as u16;
            let farther = different - up_to(&tree, of_last + 1);
            counts[usize::from(later + farther)] += 1;
            marks[of_last] ^= 1 << place;
            put(&mut tree, of_last + 1, u16::MAX);
        } else {
            different += 1;
        }
        marks[time / BLOCK] |= 1 << (time % BLOCK);
        put(&mut tree, time / BLOCK + 1, 1);
        *after = time as u16 + 1;
    }
}

/// By time a mark, each in a number of its own. A depth is the sum of the marks since.
#[inline(never)]
fn window(counts: &mut Counts, pages: &[u16]) {
    let mut after = [0u16; MOST_PAGES];
    let mut marks = [0u16; MOST_REFERENCES];
    for (time, page) in pages.iter().enumerate() {
        let after = &mut after[usize::from(*page)];
        if *after > 0 {
            let since: u16 = marks[usize::from(*after)..time].iter().sum();
            counts[usize::from(since)] += 1;
            marks[usize::from(*after - 1)] = 0;
        }
        marks[time] = 1;
        *after = time as u16 + 1;
    }
}

/// The same with a mark in a byte: up to 255 of them are summed in one.
#[inline(never)]
fn window_of_bytes(counts: &mut Counts, pages: &[u16]) {
    let mut after = [0u16; MOST_PAGES];
    let mut marks = [0u8; MOST_REFERENCES];
    for (time, page) in pages.iter().enumerate() {
        let after = &mut after[usize::from(*page)];
        if *after > 0 {
            let parts = marks[usize::from(*after)..time].chunks(240);
            let since: u16 = parts.map(|part| u16::from(part.iter().sum::<u8>())).sum();
            counts[usize::from(since)] += 1;
            marks[usize::from(*after - 1)] = 0;
        }
        marks[time] = 1;
        *after = time as u16 + 1;
    }
}

/// The marks in a binary indexed tree over the times: each place holds the sum of a range that ends there.
#[inline(never)]
fn tree(counts: &mut Counts, pages: &[u16]) {
    let mut after = [0u16; MOST_PAGES];
    let mut tree = [0u16; MOST_REFERENCES + 1];
    let tree = &mut tree[..pages.len() + 1];
    let mut different = 0;
    for (time, page) in pages.iter().enumerate() {
        let after = &mut after[usize::from(*page)];
        if *after > 0 {
            let since = different - up_to(tree, usize::from(*after));
            counts[usize::from(since)] += 1;
            put(tree, usize::from(*after), u16::MAX);
        } else {
            different += 1;
        }
        put(tree, time + 1, 1);
        *after = time as u16 + 1;
    }
}

/// The sum of a tree's first so many numbers.
fn up_to(tree: &[u16], mut place: usize) -> u16 {
    let mut sum = 0u16;
    while place > 0 {
        sum = sum.wrapping_add(tree[place]);
        place &= place - 1;
    }
    sum
}

/// Adds to a number of a tree; `u16::MAX` takes 1 off.
fn put(tree: &mut [u16], mut place: usize, more: u16) {
    while place < tree.len() {
        tree[place] = tree[place].wrapping_add(more);
        place += place & place.wrapping_neg();
    }
}

/// The pages by their last references, the latest first: a page's place is its depth, and it moves to the front.
#[inline(never)]
fn move_to_front(counts: &mut Counts, pages: &[u16]) {
    let mut list = [0u16; MOST_PAGES];
    let mut listed = [false; MOST_PAGES];
    let mut different = 0;
    for page in pages {
        let place = if std::mem::replace(&mut listed[usize::from(*page)], true) {
            let place = place_of(&list, *page);
            counts[place] += 1;
            place
        } else {
            different += 1;
            different - 1
        };
        list.copy_within(..place, 1);
        list[0] = *page;
    }
}

/// The place of a page that is listed: the first ones are asked one by one, the others in parts, each side by side.
fn place_of(list: &[u16; MOST_PAGES], page: u16) -> usize {
    const PART: usize = 64;
    let within = |part: &[u16]| part.iter().position(|other| *other == page);
    if let Some(place) = within(&list[..PART]) {
        return place;
    }
    let has = |part: &&[u16]| part.iter().fold(0, |found, other| found | u16::from(*other == page)) > 0;
    let mut parts = list.chunks_exact(PART).enumerate();
    let found =
        parts.find(|(_, part)| has(part)).and_then(|(place, part)| Some(PART * place + within(part)?));
    found.expect("a page that is listed")
}
