//! Recordings of many kinds, each of a given length.
use super::model::{LAST_PAGE, MOST_REFERENCES};
use random::Random;

/// The slots of a page: a page of a tree has so many children.
pub const SLOTS: u16 = 16;

/// Page numbers that there are.
const PAGES: usize = LAST_PAGE as usize + 1;

type Make = fn(&mut Random, usize) -> Vec<u16>;

/// What a recording's pages are, by name.
pub const MAKES: [(&str, Make); 10] = [
    ("one page", one_page),
    ("all different", all_different),
    ("cyclic", cyclic),
    ("up then down", up_then_down),
    ("few pages", few_pages),
    ("many pages", many_pages),
    ("walks", walks),
    ("skewed walks", skewed_walks),
    ("near pages", near_pages),
    ("twice", twice),
];

/// A recording of any kind.
pub fn of_length(random: &mut Random, length: usize) -> Vec<u16> {
    let (_, make) = random.pick(&MAKES);
    make(random, length)
}

/// Every page once, in any order.
fn shuffled(random: &mut Random) -> Vec<u16> {
    let mut pages: Vec<u16> = (0..=LAST_PAGE).collect();
    for end in (1..pages.len()).rev() {
        pages.swap(end, random.below(end + 1));
    }
    pages
}

/// So many different pages: in any order, or from the first or to the last page of all.
fn different(random: &mut Random, count: usize) -> Vec<u16> {
    match random.below(3) {
        0 => (0..=LAST_PAGE).take(count).collect(),
        1 => (0..=LAST_PAGE).rev().take(count).collect(),
        _ => shuffled(random).into_iter().take(count).collect(),
    }
}

fn one_page(random: &mut Random, length: usize) -> Vec<u16> {
    let any = random.below(PAGES) as u16;
    vec![random.pick(&[0, LAST_PAGE, any]); length]
}

fn all_different(random: &mut Random, length: usize) -> Vec<u16> {
    different(random, length)
}

/// So many pages in the same order again and again.
pub fn cyclic_over(random: &mut Random, period: usize, length: usize) -> Vec<u16> {
    different(random, period).into_iter().cycle().take(length).collect()
}

/// Cyclic over nearly as many pages as there are references, half of that, a few, or any number.
fn cyclic(random: &mut Random, length: usize) -> Vec<u16> {
    let (few, any) = (random.between(2, 70), random.between(1, length));
    let period = random.pick(&[length - 1, length.saturating_sub(2), length / 2, few, any]);
    cyclic_over(random, period.max(2), length)
}

fn up_then_down(random: &mut Random, length: usize) -> Vec<u16> {
    let pages = different(random, length.div_ceil(2));
    (0..length).map(|at| pages[at.min(length - 1 - at)]).collect()
}

fn drawn_from(random: &mut Random, pages: &[u16], length: usize) -> Vec<u16> {
    (0..length).map(|_| random.pick(pages)).collect()
}

fn few_pages(random: &mut Random, length: usize) -> Vec<u16> {
    let count = random.between(2, 16);
    let pages = different(random, count);
    drawn_from(random, &pages, length)
}

fn many_pages(random: &mut Random, length: usize) -> Vec<u16> {
    let any = random.between(17, PAGES);
    let count = random.pick(&[64, 512, PAGES, any]);
    let pages = different(random, count);
    drawn_from(random, &pages, length)
}

/// Walks from the root of a tree to its leaves, one after the other, the last one broken off.
fn walking(length: usize, mut slot: impl FnMut() -> usize) -> Vec<u16> {
    let mut pages = vec![0];
    while pages.len() < length {
        let child = usize::from(pages[pages.len() - 1]) * usize::from(SLOTS) + 1 + slot();
        pages.push(if child < PAGES { child as u16 } else { 0 });
    }
    pages
}

fn walks(random: &mut Random, length: usize) -> Vec<u16> {
    walking(length, || random.below(SLOTS.into()))
}

/// Some leaves far more often than others.
fn skewed_walks(random: &mut Random, length: usize) -> Vec<u16> {
    walking(length, || (0..3).map(|_| random.below(SLOTS.into())).min().unwrap_or(0))
}

/// Most references are to one of the last few pages, the others to any.
fn near_pages(random: &mut Random, length: usize) -> Vec<u16> {
    let (mut pages, reach) = (Vec::new(), random.between(1, 90));
    for at in 0..length {
        let near = at > 0 && random.percent(80);
        let page =
            if near { pages[at - 1 - random.below(at.min(reach))] } else { random.below(PAGES) as u16 };
        pages.push(page);
    }
    pages
}

/// Each page of the first half once more in the second, in another order.
fn twice(random: &mut Random, length: usize) -> Vec<u16> {
    let first: Vec<u16> = shuffled(random).into_iter().take(length.div_ceil(2)).collect();
    let again = shuffled(random).into_iter().filter(|page| first.contains(page));
    first.iter().copied().chain(again).take(length).collect()
}

/// A recording in which a page above 4,095 stands: first, last, anywhere, or several.
pub fn with_high_page(random: &mut Random, length: usize) -> Vec<u16> {
    let mut pages = of_length(random, length);
    let (any_high, any_place) = (random.between(PAGES, u16::MAX.into()) as u16, random.below(length));
    let high = random.pick(&[LAST_PAGE + 1, u16::MAX, any_high]);
    match random.below(4) {
        0 => pages[0] = high,
        1 => pages[length - 1] = high,
        2 => pages[any_place] = high,
        _ => (0..3).for_each(|_| pages[random.below(length)] = high),
    }
    pages
}

/// A length that a recording can't have.
pub fn wrong_length(random: &mut Random) -> usize {
    let any = random.between(MOST_REFERENCES + 2, 3 * MOST_REFERENCES);
    random.pick(&[0, 0, MOST_REFERENCES + 1, MOST_REFERENCES + 1, any, 65_536 + any])
}

/// So many pages, as far as they are read.
pub fn any_pages(random: &mut Random, length: usize) -> Vec<u16> {
    let highest = random.pick(&[1, PAGES, PAGES, PAGES + 40]);
    (0..length).map(|_| random.below(highest) as u16).collect()
}
