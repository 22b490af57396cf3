//! Tallies that no recordings make: some that add takes, and some that it refuses.
use super::model::{DEPTHS, MOST_RECORDINGS};
use super::{Tally, TallyHead};
use random::Random;

type Change = fn(&mut Random, &mut Tally);

const DAMAGES: [Change; 10] = [
    counters,
    counters,
    full,
    one_reference_too_many,
    references,
    references,
    one_reference_too_few,
    one_count,
    every_count,
    no_recordings,
];

/// Damages a tally in one place, at times in two or three.
pub fn damage(random: &mut Random, tally: &mut Tally) {
    for _ in 0..random.pick(&[1, 1, 2, 3]) {
        random.pick(&DAMAGES)(random, tally);
    }
}

/// A tally of any recordings and references that keeps rule 2, at its edges too: with all the references that there can be, and
/// with a depth for each.
pub fn imagined(random: &mut Random) -> Tally {
    let any = random.between(1, usize::from(MOST_RECORDINGS) - 1) as u16;
    let recordings = random.pick(&[1, 2, any, MOST_RECORDINGS - 1]);
    let most = 4096 * u32::from(recordings);
    let any = random.between(0, most as usize) as u32;
    let references = random.pick(&[most, most, any, any, most - 1, recordings.into(), 1]);
    let mut tally = Tally { head: TallyHead { recordings, references }, counts: vec![0; DEPTHS] };
    let mut left =
        if random.percent(50) { references } else { random.between(0, references as usize) as u32 };
    for _ in 0..random.pick(&[0, 1, 5, 300]) {
        let count = random.between(0, left as usize) as u32;
        tally.counts[depth(random)] += count;
        left -= count;
    }
    tally.counts[depth(random)] += if random.percent(50) { left } else { 0 };
    tally
}

/// The place of a depth's counter.
fn depth(random: &mut Random) -> usize {
    let any = random.below(DEPTHS);
    random.pick(&[0, 1, DEPTHS - 1, any, any])
}

/// Another number of counters.
fn counters(random: &mut Random, tally: &mut Tally) {
    let any = random.below(2 * DEPTHS);
    tally.counts.resize(random.pick(&[0, 1, DEPTHS - 1, DEPTHS + 1, any]), 0);
}

/// The most recordings.
fn full(_: &mut Random, tally: &mut Tally) {
    tally.head.recordings = MOST_RECORDINGS;
}

fn one_reference_too_many(_: &mut Random, tally: &mut Tally) {
    tally.head.references = 4096 * u32::from(tally.head.recordings) + 1;
}

fn references(random: &mut Random, tally: &mut Tally) {
    let any = random.draw() as u32;
    tally.head.references = random.pick(&[0, 1, u32::MAX, any, any >> 8, any >> 16]);
}

/// One fewer than the counters come to.
fn one_reference_too_few(_: &mut Random, tally: &mut Tally) {
    tally.head.references = u32::try_from(tally.counted()).unwrap_or(u32::MAX).saturating_sub(1);
}

fn one_count(random: &mut Random, tally: &mut Tally) {
    let any = random.draw() as u32;
    let count = random.pick(&[u32::MAX, any, any >> 16]);
    if let Some(place) = random.choose(0..tally.counts.len()) {
        tally.counts[place] = count;
    }
}

fn every_count(random: &mut Random, tally: &mut Tally) {
    tally.counts.fill(random.pick(&[u32::MAX, u32::MAX, 1 << 31, 1 << 20, 1]));
}

fn no_recordings(_: &mut Random, tally: &mut Tally) {
    tally.head.recordings = 0;
}
