//! The baseline of a tally's calls answers and leaves exactly what the linked library does, refused calls too; every form of
//! counting depths counts what these do; and the recordings are what they are called.
use pagepool::{
    tally_add, tally_report, tally_share, Refusal, TallyHead, DEPTHS, MOST_PAGES, MOST_RECORDINGS,
    MOST_REFERENCES, SLOTS,
};
use pool_bench::baseline::tally as baseline;
use pool_bench::forms::FORMS;
use pool_bench::recordings::Recording;
use random::Random;
use std::collections::{BTreeMap, BTreeSet};

#[derive(Clone, PartialEq)]
struct Tally {
    head: TallyHead,
    counts: Vec<u32>,
}

impl Tally {
    fn empty() -> Tally {
        Tally { head: TallyHead::default(), counts: vec![0; DEPTHS] }
    }
}

/// How often each call gave each refusal, 0 for accepted.
type Given = BTreeMap<(&'static str, u8), usize>;

fn note<T>(given: &mut Given, call: &'static str, answer: Result<T, Refusal>) {
    *given.entry((call, answer.err().map_or(0, Refusal::number))).or_default() += 1;
}

/// Adds a recording in both.
fn add(tally: &mut Tally, pages: &[u16], given: &mut Given) {
    let mut other = tally.clone();
    let library = tally_add(&mut tally.head, &mut tally.counts, pages);
    assert_eq!(library, baseline::add(&mut other.head, &mut other.counts, pages), "add");
    assert!(*tally == other, "tallies differ after {library:?}");
    note(given, "add", library);
}

fn read(tally: &Tally, size: u64, hits: usize, given: &mut Given) {
    let share = tally_share(tally.head, &tally.counts, size);
    assert_eq!(share, baseline::share(tally.head, &tally.counts, size), "share at {size}");
    note(given, "share", share);
    let (mut library, mut other) = (vec![7; hits], vec![7; hits]);
    let report = tally_report(&tally.counts, &mut library);
    assert_eq!(report, baseline::report(&tally.counts, &mut other), "report");
    assert_eq!(library, other, "hits");
    note(given, "report", report);
}

/// Pages of any number of different ones, or with one above the last.
fn any_pages(random: &mut Random, length: usize) -> Vec<u16> {
    let any = random.between(1, MOST_PAGES);
    let different = random.pick(&[1, 2, 16, 64, 500, MOST_PAGES, any]);
    let mut pages: Vec<u16> = (0..length).map(|_| random.below(different) as u16).collect();
    if length > 0 && random.percent(10) {
        pages[random.below(length)] = random.between(MOST_PAGES, 65_535) as u16;
    }
    pages
}

fn any_length(random: &mut Random) -> usize {
    let (short, any) = (random.between(1, 300), random.between(1, MOST_REFERENCES));
    random.pick(&[short, short, short, any, MOST_REFERENCES, MOST_REFERENCES + 1, 0])
}

/// Alters the head, a counter, all of them, or their number.
fn damage(random: &mut Random, tally: &mut Tally) {
    let any = random.draw() as u32;
    match random.below(6) {
        0 => tally.head.recordings = random.pick(&[0, 1, MOST_RECORDINGS - 1, MOST_RECORDINGS, any as u16]),
        1 => tally.head.references = random.pick(&[0, 1, any, any >> 12, u32::MAX]),
        2 => tally.head.references = 4096 * u32::from(tally.head.recordings) + u32::from(random.percent(50)),
        3 => tally.counts[random.below(DEPTHS)] = random.pick(&[any, any >> 16, u32::MAX]),
        4 => tally.counts.fill(random.pick(&[1, any >> 20, u32::MAX])),
        _ => tally.counts.resize(random.pick(&[0, DEPTHS - 1, DEPTHS + 1]), 0),
    }
}

#[test]
fn answers_alike() {
    let (mut random, mut given) = (Random::new(12), Given::new());
    for _ in 0..300 {
        let mut tally = Tally::empty();
        for _ in 0..20 {
            let length = any_length(&mut random);
            let pages = any_pages(&mut random, length);
            let mut damaged = tally.clone();
            damage(&mut random, &mut damaged);
            let (near, any) = (random.below(5000) as u64, random.draw());
            let size = random.pick(&[0, 1, near, near, 4094, 4095, 4096, any, u64::MAX]);
            let hits = random.pick(&[DEPTHS, DEPTHS, DEPTHS, DEPTHS - 1, 0]);
            let on = if random.percent(30) { &mut damaged } else { &mut tally };
            add(on, &pages, &mut given);
            read(on, size, hits, &mut given);
        }
    }
    println!("{given:?}");
    let answers = [
        ("add", 0),
        ("add", 1),
        ("add", 2),
        ("add", 6),
        ("share", 0),
        ("share", 1),
        ("report", 0),
        ("report", 1),
    ];
    let seldom: Vec<_> =
        answers.iter().filter(|pair| given.get(pair).is_none_or(|times| *times < 50)).collect();
    assert!(seldom.is_empty(), "answers that were seldom given: {seldom:?}");
}

/// What the library counts of a recording.
fn counted(pages: &[u16]) -> Vec<u32> {
    let mut tally = Tally::empty();
    tally_add(&mut tally.head, &mut tally.counts, pages).expect("a recording that keeps the rules");
    tally.counts
}

fn forms_count(pages: &[u16], wanted: &[u32], what: &str) {
    for form in FORMS {
        let mut counts = [0; DEPTHS];
        (form.count)(&mut counts, pages);
        assert!(counts == wanted, "{} counts otherwise: {what}", form.name);
    }
}

#[test]
fn forms_agree() {
    let mut random = Random::new(13);
    for recording in Recording::ALL {
        for &length in recording.lengths() {
            let pages = recording.pages(length, 7);
            forms_count(&pages, &counted(&pages), &format!("{}, {length} references", recording.name()));
        }
    }
    for period in [2, 3, 63, 64, 65, 127, 128, 129, 1000, 3000, 4000, 4032, 4094, 4095] {
        let pages: Vec<u16> = (0..period).cycle().take(MOST_REFERENCES).collect();
        forms_count(&pages, &counted(&pages), &format!("cyclic over {period}"));
    }
    for number in 0..300 {
        let any = random.between(1, MOST_REFERENCES);
        let length = random.pick(&[1, 2, 63, 64, 65, 128, 4095, 4096, any, any]);
        let pages: Vec<u16> = any_pages(&mut random, length).into_iter().map(|page| page % 4096).collect();
        forms_count(&pages, &counted(&pages), &format!("recording {number}"));
    }
}

/// By the request's sentence: 1 plus the count of different other pages since the last reference.
fn by_sets(pages: &[u16]) -> Vec<u32> {
    let mut counts = vec![0; DEPTHS];
    for (time, page) in pages.iter().enumerate() {
        if let Some(last) = pages[..time].iter().rposition(|earlier| earlier == page) {
            counts[pages[last + 1..time].iter().collect::<BTreeSet<_>>().len()] += 1;
        }
    }
    counts
}

#[test]
fn forms_count_sets() {
    let mut random = Random::new(14);
    for number in 0..500 {
        let (length, different) = (random.between(1, 300), random.between(1, 200));
        let pages: Vec<u16> = (0..length).map(|_| random.below(different) as u16).collect();
        forms_count(&pages, &by_sets(&pages), &format!("recording {number}"));
    }
}

#[test]
fn recordings_are_what_they_are_called() {
    let is_child = |pair: &[u16]| pair[1] == 0 || usize::from(pair[1] - 1) / SLOTS == usize::from(pair[0]);
    for recording in Recording::ALL {
        for &length in recording.lengths() {
            let pages = recording.pages(length, 7);
            assert_eq!(pages.len(), length, "{recording:?}");
            assert!(pages.iter().all(|page| usize::from(*page) < MOST_PAGES), "{recording:?}");
            let (is_it, wanted) = match recording {
                Recording::AllDifferent => (true, Some(length)),
                Recording::OnePage => (true, Some(1)),
                Recording::CyclicHalf => (pages[..length / 2] == pages[length / 2..], Some(length / 2)),
                Recording::CyclicSixteenth => {
                    (pages[..length - length / 16] == pages[length / 16..], Some(length / 16))
                }
                Recording::CyclicFew => (pages[..length - 64] == pages[64..], Some(64)),
                Recording::UpThenDown => (pages.iter().eq(pages.iter().rev()), Some(length / 2)),
                Recording::Reordered => {
                    (different(&pages[..length / 2]) == different(&pages[length / 2..]), Some(length / 2))
                }
                Recording::AnyOfEighth => (different(&pages) <= length / 8, None),
                Recording::AnyOfAll => (different(&pages) > length / 2, None),
                Recording::Walks | Recording::SkewedWalks => {
                    (pages[0] == 0 && pages.windows(2).all(is_child), None)
                }
                Recording::Workload => {
                    (pages.iter().all(|page| (1..16).contains(page)) && different(&pages) > 4, None)
                }
            };
            assert!(is_it, "{recording:?}, {length}");
            assert!(wanted.is_none_or(|number| number == different(&pages)), "{recording:?}, {length}");
        }
    }
}

fn different(pages: &[u16]) -> usize {
    pages.iter().collect::<BTreeSet<_>>().len()
}
