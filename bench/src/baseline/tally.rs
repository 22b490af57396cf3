//! Request A.12's tally in safe Rust, on a head lent by `&mut`: the same form as the library's, by time a mark where it is the last
//! reference of its page, 64 of them in a number, and by block of 64 times the count of its marks.
use super::rules::rule;
use pagepool::{Refusal, Share, TallyHead, DEPTHS, MOST_PAGES, MOST_RECORDINGS, MOST_REFERENCES};

/// The times of a block, a bit for each.
const BLOCK: usize = u64::BITS as usize;

#[inline(never)]
pub fn add(head: &mut TallyHead, counts: &mut [u32], pages: &[u16]) -> Result<(), Refusal> {
    let counts: &mut [u32; DEPTHS] = counts.try_into().map_err(|_| Refusal::WrongLength)?;
    rule(Refusal::WrongLength, (1..=MOST_REFERENCES).contains(&pages.len()))?;
    rule(Refusal::WrongLength, head.recordings < MOST_RECORDINGS)?;
    rule(Refusal::Disagree, head.references <= MOST_REFERENCES as u32 * u32::from(head.recordings))?;
    rule(Refusal::Disagree, sum(counts) <= head.references.into())?;
    rule(Refusal::BadPage, pages.iter().fold(0, |all, page| all | page) < MOST_PAGES as u16)?;
    count(counts, pages);
    head.recordings += 1;
    head.references += pages.len() as u32;
    Ok(())
}

#[inline(never)]
pub fn share(head: TallyHead, counts: &[u32], size: u64) -> Result<Share, Refusal> {
    rule(Refusal::WrongLength, counts.len() == DEPTHS)?;
    let within = sum(&counts[..size.min(DEPTHS as u64) as usize]);
    Ok(Share { within, all: head.references.into() })
}

#[inline(never)]
pub fn report(counts: &[u32], hits: &mut [u64]) -> Result<(), Refusal> {
    rule(Refusal::WrongLength, counts.len() == DEPTHS && hits.len() == DEPTHS)?;
    let mut sum = 0;
    for (hits, count) in hits.iter_mut().zip(counts) {
        sum += u64::from(*count);
        *hits = sum;
    }
    Ok(())
}

fn sum(counts: &[u32]) -> u64 {
    counts.iter().map(|count| u64::from(*count)).sum()
}

/// Counts the depths of a recording, which keeps the rules.
pub fn count(counts: &mut [u32; DEPTHS], pages: &[u16]) {
    // By page, the time after its last reference; 0 before the first.
    let mut after = [0u16; MOST_PAGES];
    let mut marks = [0u64; MOST_REFERENCES / BLOCK];
    let mut marked = [0u16; MOST_REFERENCES / BLOCK];
    for (time, page) in pages.iter().enumerate() {
        let (block, after) = (time / BLOCK, &mut after[usize::from(*page)]);
        if *after > 0 {
            let last = usize::from(*after - 1);
            let (of_last, place) = (last / BLOCK, last % BLOCK);
            let later = (marks[of_last] >> place >> 1).count_ones() as usize;
            let farther: u16 = marked[of_last + 1..block + 1].iter().sum();
            counts[later + usize::from(farther)] += 1;
            marks[of_last] ^= 1 << place;
            marked[of_last] -= 1;
        }
        marks[block] |= 1 << (time % BLOCK);
        marked[block] += 1;
        *after = time as u16 + 1;
    }
}
