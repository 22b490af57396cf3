//! Request A.12, "How many frames to buy": recordings added to tallies, on the machine under test and beside it on the model, the
//! package and flat caches. POOL_SEED chooses other lists, POOL_SOAK makes so many times more (`pool_tests::runs`).
use pool_tests::calls::{Answer as PoolAnswer, Call as PoolCall};
use pool_tests::listing::call_of;
use pool_tests::records::Generator;
use pool_tests::runs;
use pool_tests::tally::damage::{damage, imagined};
use pool_tests::tally::kinds::{Met, LENGTHS, SIZES};
use pool_tests::tally::lockstep::{step, Answer, Call};
use pool_tests::tally::model::{depths, DEPTHS, LAST_PAGE, MOST_RECORDINGS, MOST_REFERENCES};
use pool_tests::tally::recordings::{any_pages, cyclic_over, of_length, with_high_page, wrong_length, MAKES};
use pool_tests::tally::{Counting, Share, Tally, TallyHead, UnderTest};
use pool_tests::trial::Trial;
use random::Random;
use std::collections::BTreeSet;
use words::rules::Table;

type Outcome = Result<(), String>;

/// A call on a tally, for a single case.
fn call(tally: &mut Tally, call: Call) -> Answer {
    step(tally, &call, &mut Met::default()).unwrap_or_else(|fault| panic!("{fault}"))
}

/// The refusal's number of an add, 0 if accepted.
fn add(tally: &mut Tally, pages: &[u16]) -> u8 {
    call(tally, Call::Add(pages.to_vec())).number()
}

fn share(tally: &mut Tally, size: u64) -> (u64, u64) {
    match call(tally, Call::Share(size)) {
        Answer::Share(Share { within, all }) => (within, all),
        other => panic!("share at {size}: {other:?}"),
    }
}

fn report(tally: &mut Tally) -> Vec<u64> {
    match call(tally, Call::Report(DEPTHS)) {
        Answer::Hits(hits) => hits,
        other => panic!("{other:?}"),
    }
}

/// A tally with some of its counters set, by depth.
fn tally(recordings: u16, references: u32, counted: &[(usize, u32)]) -> Tally {
    let mut tally = Tally { head: TallyHead { recordings, references }, counts: vec![0; DEPTHS] };
    counted.iter().for_each(|(depth, count)| tally.counts[depth - 1] = *count);
    tally
}

/// The depths of a tally that have references, and how many.
fn counted(tally: &Tally) -> Vec<(usize, u32)> {
    (1..).zip(tally.counts.iter().copied()).filter(|(_, count)| *count > 0).collect()
}

/// By hand: the depths of a recording, the tally that it gives, and its shares.
#[test]
fn by_hand() {
    let pages = [7, 3, 7, 7, 9, 3, 0, 4095, 7, 0];
    let by_hand = [None, None, Some(2), Some(1), None, Some(3), None, None, Some(5), Some(3)];
    assert_eq!(depths(&pages).collect::<Vec<_>>(), by_hand);
    let mut tally = Tally::empty();
    assert_eq!(add(&mut tally, &pages), 0);
    assert_eq!((tally.head.recordings, tally.head.references), (1, 10));
    assert_eq!(counted(&tally), [(1, 1), (2, 1), (3, 2), (5, 1)]);
    let shares = [0, 1, 2, 3, 4, 5, 6, 4095].map(|size| share(&mut tally, size));
    assert_eq!(shares, [(0, 10), (1, 10), (2, 10), (4, 10), (4, 10), (5, 10), (5, 10), (5, 10)]);
    // "empty at each recording's start": page 7 is a first reference again.
    assert_eq!(add(&mut tally, &[7, 7]), 0);
    assert_eq!((tally.head.recordings, tally.head.references), (2, 12));
    assert_eq!(counted(&tally), [(1, 2), (2, 1), (3, 2), (5, 1)]);
    assert_eq!(report(&mut tally)[..6], [2, 3, 5, 5, 6, 6]);
}

/// Adds every recording up to a length over some pages, each after the same ones.
fn every_recording(after: &[u16], most: usize, pages: [u16; 4]) {
    for length in 1..=most {
        for number in 0..pages.len().pow(length as u32) {
            let digit = |place: usize| number / pages.len().pow(place as u32) % pages.len();
            let recording = after.iter().copied().chain((0..length).map(|place| pages[digit(place)]));
            let mut tally = Tally::empty();
            assert_eq!(add(&mut tally, &recording.collect::<Vec<_>>()), 0);
        }
    }
}

#[test]
fn every_short_recording() {
    every_recording(&[], 7, [0, 1, 63, LAST_PAGE]);
}

/// The same where marks in words of 64 bits would go on in the next word.
#[test]
fn every_short_recording_across_64() {
    let after: Vec<u16> = (100..160).chain([0]).collect();
    every_recording(&after, 5, [0, 1, 63, LAST_PAGE]);
}

/// "Report each depth from 1 to 4,095": every depth that there is, each from a recording of that many pages and the first again.
#[test]
fn every_depth() {
    let mut tally = Tally::empty();
    for depth in 1..=DEPTHS {
        let pages: Vec<u16> = (0..depth as u16).chain([0]).collect();
        assert_eq!(UnderTest.add(&mut tally, &pages), Ok(()));
    }
    assert!(tally.counts.iter().all(|count| *count == 1));
    let hits = report(&mut tally);
    assert!(hits.into_iter().eq(1..=DEPTHS as u64));
}

/// "summed over up to 65,535 recordings"; "one too many falls under 1 .. and adds nothing".
#[test]
fn most_recordings() {
    let mut random = Random::new(65_535);
    let recordings: Vec<Vec<u16>> = (1..=50).map(|length| of_length(&mut random, length)).collect();
    let pages_of = |number: u16| &recordings[usize::from(number) % recordings.len()];
    let mut counts = vec![0; DEPTHS];
    for (place, pages) in recordings.iter().enumerate() {
        let times = (place..MOST_RECORDINGS.into()).step_by(recordings.len()).count() as u32;
        depths(pages).flatten().for_each(|depth| counts[depth - 1] += times);
    }

    let mut tally = Tally::empty();
    for number in 0..MOST_RECORDINGS {
        assert_eq!(UnderTest.add(&mut tally, pages_of(number)), Ok(()), "recording {number}");
        assert_eq!(tally.head.recordings, number + 1);
    }
    assert_eq!(tally.counts, counts);
    assert_eq!(add(&mut tally, &[5]), 1);
    assert_eq!(tally.counts, counts);

    #[cfg(feature = "host")]
    {
        let mut held = pagepool::Tally::new();
        (0..MOST_RECORDINGS).for_each(|number| assert_eq!(held.add(pages_of(number)), Ok(())));
        assert_eq!(held.add(&[5]), Err(pagepool::Refusal::WrongLength));
        assert_eq!((held.head(), held.counts()), (tally.head, &counts[..]));
    }
}

/// The greatest figures that recordings give: 65,535 of 4,096 references, all to one page, and of these the last one added.
#[test]
fn most_references() {
    let each = MOST_REFERENCES as u32;
    let mut last = tally(65_534, 65_534 * each, &[(1, 65_534 * (each - 1))]);
    assert_eq!(add(&mut last, &[4095; MOST_REFERENCES]), 0);
    assert!(last == tally(65_535, 268_431_360, &[(1, 268_365_825)]));
    assert_eq!(share(&mut last, 1), (268_365_825, 268_431_360));
    assert_eq!(add(&mut last, &[4095; MOST_REFERENCES]), 1);
}

/// "1 to 4,096 page numbers each": none and 4,097 fall under 1.
#[test]
fn wrong_lengths() {
    let mut tally = Tally::empty();
    assert_eq!(add(&mut tally, &[]), 1);
    for length in [4097, 4098, 8192, 65_536, 65_537, 70_000] {
        assert_eq!(add(&mut tally, &vec![1; length]), 1, "{length}");
    }
    assert_eq!([1, 4096].map(|length| add(&mut tally, &vec![1; length])), [0, 0]);
    assert!(tally.head == TallyHead { recordings: 2, references: 4097 });
}

/// "a page above 4,095 under 6, and adds nothing": wherever it stands.
#[test]
fn high_pages() {
    let mut tally = tally(3, 700, &[(1, 5), (4095, 8)]);
    for length in [1, 2, 3, 64, 65, 4096] {
        for place in [0, 1, length / 2, length - 1].into_iter().filter(|place| *place < length) {
            for high in [4096, 4097, 8191, 8192, 32_768, u16::MAX] {
                let mut pages = vec![7; length];
                pages[place] = high;
                assert_eq!(add(&mut tally, &pages), 6, "page {high} at {place} of {length}");
            }
        }
    }
    assert_eq!(add(&mut tally, &[0, 4095, 0]), 0);
}

/// "a tally so far with more references than 4,096 for each recording or fewer than its depths count under 2": at the edge, and
/// one past it.
#[test]
fn impossible_tallies() {
    for recordings in [0, 1, 2, 1000, 65_534] {
        let most = 4096 * u32::from(recordings);
        assert_eq!(add(&mut tally(recordings, most, &[]), &[3, 3]), 0, "{recordings}");
        assert_eq!(add(&mut tally(recordings, most + 1, &[]), &[3, 3]), 2, "{recordings}");
        assert_eq!(add(&mut tally(recordings, u32::MAX, &[]), &[3, 3]), 2, "{recordings}");
    }
    for depth in [1, 2, 64, 65, 4094, 4095] {
        assert_eq!(add(&mut tally(9, 800, &[(depth, 800)]), &[3, 3]), 0, "{depth}");
        assert_eq!(add(&mut tally(9, 800, &[(depth, 801)]), &[3, 3]), 2, "{depth}");
        assert_eq!(add(&mut tally(9, 0, &[(depth, 1)]), &[3, 3]), 2, "{depth}");
        // Counts whose sum comes to 800 again in 32 bits.
        let wrapped = [(depth, 1 << 31), (7, 1 << 31), (8, 800)];
        assert_eq!(add(&mut tally(9, 800, &wrapped), &[3, 3]), 2, "{depth}");
    }
    let mut every =
        Tally { head: TallyHead { recordings: 9, references: 0 }, counts: vec![u32::MAX; DEPTHS] };
    for references in [0, 1, 9 * 4096, u32::MAX] {
        every.head.references = references;
        assert_eq!(add(&mut every, &[3, 3]), 2, "{references}");
    }
    assert_eq!(share(&mut every, u64::MAX).0, 4095 * u64::from(u32::MAX));
    assert_eq!(report(&mut every)[1..3], [2 * u64::from(u32::MAX), 3 * u64::from(u32::MAX)]);
    assert_eq!(share(&mut tally(0, 7, &[(2, 9)]), 2), (9, 7));
}

/// Neither clause of 2 is broken by a tally without a first reference in its recordings, or with fewer references than those.
#[test]
fn tallies_that_no_recordings_make() {
    for (recordings, references, depths) in
        [(1, 5, &[(4095, 5)][..]), (10, 3, &[]), (65_534, 0, &[]), (2, 8192, &[(4, 8192)])]
    {
        let mut imagined = tally(recordings, references, depths);
        assert_eq!(add(&mut imagined, &[6, 6, 6]), 0);
        assert_eq!(imagined.head, TallyHead { recordings: recordings + 1, references: references + 3 });
        let expected: Vec<(usize, u32)> = [(1, 2)].into_iter().chain(depths.iter().copied()).collect();
        assert_eq!(counted(&imagined), expected);
    }
}

/// Another number of counters is refused by 1 in every call, and of hits in report.
#[test]
fn wrong_numbers_of_counters() {
    for counters in [0, 1, 64, 2048, 4094, 4096, 4097, 8190, 65_536 + 4095] {
        let mut tally = Tally { head: TallyHead { recordings: 1, references: 4 }, counts: vec![0; counters] };
        for call_made in [Call::Add(vec![1]), Call::Share(7), Call::Report(DEPTHS), Call::Report(counters)] {
            assert_eq!(call(&mut tally, call_made).number(), 1, "{counters}");
        }
        let mut tally = Tally::empty();
        assert_eq!(call(&mut tally, Call::Report(counters)).number(), 1, "{counters}");
    }
}

/// 1 before 2 before 6, on one call after the other that breaks all of them, then 2 and 6, then 6.
#[test]
fn in_this_order() {
    let impossible = tally(1, 4097, &[(1, 5000)]);
    let mut short = Tally { counts: vec![1; 4094], ..impossible.clone() };
    assert_eq!(add(&mut short, &[4096]), 1);
    assert_eq!(add(&mut impossible.clone(), &[4096; 4097]), 1);
    assert_eq!(add(&mut tally(65_535, u32::MAX, &[(1, 5000)]), &[4096]), 1);
    assert_eq!(add(&mut impossible.clone(), &[4096]), 2);
    assert_eq!(add(&mut tally(1, 4096, &[(1, 4096)]), &[4096]), 6);
}

/// The pages of the fixes that the workload of a seed has accepted, on the listing's pool.
#[test]
fn recorded_fixes() {
    for seed in [1, 7, 77] {
        let (mut trial, mut generator, mut pages) =
            (Trial::open(4, 16, &[]), Generator { number: seed }, vec![]);
        while pages.len() < 60 {
            let entry = trial.draw(&mut generator).expect("a pool as calls left it");
            let call = call_of(&entry).expect("a call from 1 to 9");
            if let (PoolCall::Fix(..), PoolAnswer::Fixed(fixed)) = (&call, trial.call(call.clone())) {
                pages.push(fixed.handle.page.0);
            }
        }
        let (recordings, mut tally) = (pages.split_at(40), Tally::empty());
        assert_eq!((add(&mut tally, recordings.0), add(&mut tally, recordings.1)), (0, 0));
        let firsts = firsts(recordings.0) + firsts(recordings.1);
        assert_eq!((tally.head.recordings, share(&mut tally, 16)), (2, (60 - firsts, 60)));
    }
}

/// The first references of a recording.
fn firsts(pages: &[u16]) -> u64 {
    pages.iter().collect::<BTreeSet<_>>().len() as u64
}

/// A length that recordings can have: most are short, so that there are many of them.
fn length(random: &mut Random) -> usize {
    let (short, any) = (random.between(1, 70), random.between(1, 400));
    match random.below(100) {
        0 => random.between(1000, MOST_REFERENCES),
        1..50 => short,
        50..85 => any,
        _ => random.pick(&[1, 2, 63, 64, 65, 127, 128, 129]),
    }
}

fn size(random: &mut Random) -> u64 {
    let (near, any) = (random.between(0, 5000) as u64, random.draw());
    let listed = random.pick(&SIZES);
    random.pick(&[listed, listed, near, any])
}

fn next_call(random: &mut Random) -> Call {
    match random.below(20) {
        0..10 => {
            let length = length(random);
            Call::Add(of_length(random, length))
        }
        10..12 => {
            let length = length(random);
            Call::Add(with_high_page(random, length))
        }
        12 => {
            let length = wrong_length(random);
            Call::Add(any_pages(random, length))
        }
        13..18 => Call::Share(size(random)),
        18 => Call::Report(DEPTHS),
        _ => {
            let any = random.below(2 * DEPTHS);
            Call::Report(random.pick(&[0, DEPTHS - 1, DEPTHS + 1, any, DEPTHS]))
        }
    }
}

/// Calls on a tally, from none or an imagined one on, and on damaged copies of it.
fn list(random: &mut Random, met: &mut Met) -> Outcome {
    let mut tally = if random.percent(60) { Tally::empty() } else { imagined(random) };
    for number in 0..25 {
        if random.percent(60) {
            step(&mut tally, &next_call(random), met).map_err(|fault| format!("call {number}: {fault}"))?;
        } else {
            let mut damaged = tally.clone();
            damage(random, &mut damaged);
            let called = step(&mut damaged, &next_call(random), met);
            called.map_err(|fault| format!("call {number}, on a damaged tally: {fault}"))?;
        }
    }
    Ok(())
}

/// Every kind of recording at each length from the list, one of the long ones, which take the model long; and the greatest depths.
fn by_length(random: &mut Random, met: &mut Met) -> Outcome {
    let mut tally = Tally::empty();
    let mut add = |pages: Vec<u16>| step(&mut tally, &Call::Add(pages), met).map(|_| ());
    let (short, long): (Vec<usize>, Vec<usize>) = LENGTHS.iter().partition(|length| **length < 1000);
    for (place, (name, make)) in MAKES.into_iter().enumerate() {
        for length in short.iter().chain([&long[place % long.len()]]) {
            let pages = make(random, *length);
            add(pages).map_err(|fault| format!("{name}, {length} references: {fault}"))?;
        }
    }
    [4000, 4094, 4095].into_iter().try_for_each(|period| add(cyclic_over(random, period, MOST_REFERENCES)))
}

/// Refused by the first broken rule with all as found, accepted as the model: each pair of call and answer of the table occurs
/// and no other, and each kind.
#[test]
fn random_tallies() {
    let met: Met = runs::run("tallies", 400, list).and(runs::run("recordings by length", 1, by_length));
    let rules = Table::standing().tally;
    let pairs = rules.iter().flat_map(|rule| rule.calls.iter().map(|call| (*call, rule.number)));
    assert_eq!(met.answers(), pairs.collect(), "pairs of call and answer");
    assert_eq!(met.missing(), [], "kinds that no call met");
}

/// The figures of the package are the request's.
#[test]
fn figures() {
    assert_eq!((pagepool::DEPTHS, pagepool::MOST_REFERENCES), (DEPTHS, MOST_REFERENCES));
    assert_eq!(
        (pagepool::MOST_RECORDINGS, pagepool::MOST_PAGES),
        (MOST_RECORDINGS, usize::from(LAST_PAGE) + 1)
    );
}
