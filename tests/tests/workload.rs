//! Request A.10: the workload of a seed on the listing's pool, each record drawn on the pool as it then is and run as the listing
//! does, on the machine under test and beside it on the model; what its lines come to; and how a draw is undone.
//!
//! POOL_SOAK makes so many times more records.
use pool_tests::calls::{Answer, Call};
use pool_tests::listing::{call_of, line, CALLS};
use pool_tests::model::workload::{draw, undone};
use pool_tests::model::Model;
use pool_tests::pool::{Machine, UnderTest};
use pool_tests::records::{Entry, Generator};
use pool_tests::setting;
use pool_tests::trial::Trial;
use random::Random;
use std::collections::{BTreeMap, BTreeSet};

const SEEDS: [u32; 8] = [1, 2, 3, 77, 65_536, 123_456_789, 1 << 31, u32::MAX];

/// Records of each seed's workload.
const RECORDS: u64 = 20_000;

/// What no record of a workload answers: its slot, offset, length and call are in their ranges (4, 5 and 17), an unaltered list
/// never breaks 1, 2 and 14, no record opens a pool (16), no link has the mark (26), there is one store (15 and 28), and 12 is a hole.
const NEVER: [u8; 11] = [1, 2, 4, 5, 12, 14, 15, 16, 17, 26, 28];

/// How often a call of the listing, by its number, gave an answer, 0 for accepted.
type Pairs = BTreeMap<(u8, u8), u64>;

/// The first so many records of a seed's workload, each handed on with the call that it makes and its answer.
fn run(seed: u32, count: u64, mut hand_on: impl FnMut(&Entry, &Call, &Answer)) {
    let mut trial = Trial::open(4, 16, &[]);
    let mut generator = Model.seeded(seed);
    assert_eq!(UnderTest.seeded(seed), generator);
    for _ in 0..count {
        let entry = trial.draw(&mut generator).expect("a pool as calls left it");
        let call = call_of(&entry).expect("a call from 1 to 9");
        let answer = trial.call(call.clone());
        hand_on(&entry, &call, &answer);
    }
}

fn pairs_of(seed: u32, count: u64) -> Pairs {
    let mut pairs = Pairs::new();
    run(seed, count, |entry, _, answer| *pairs.entry((entry[0], answer.number())).or_default() += 1);
    pairs
}

/// A row for each call, a column for each answer that occurred.
fn table(pairs: &Pairs) -> String {
    let answers: BTreeSet<u8> = pairs.keys().map(|(_, answer)| *answer).collect();
    let mut text = row("", answers.iter().map(u8::to_string));
    for (number, name) in (1..).zip(CALLS) {
        let times = |answer| pairs.get(&(number, answer)).map_or(".".to_string(), u64::to_string);
        text += &row(&format!("{number} {name}"), answers.iter().copied().map(times));
    }
    text
}

fn row(head: &str, cells: impl Iterator<Item = String>) -> String {
    cells.fold(format!("\n{head:8}"), |row, cell| format!("{row}{cell:>9}"))
}

/// How often an answer was given, whatever the call.
fn times(pairs: &Pairs, answer: u8) -> u64 {
    pairs.iter().filter(|((_, given), _)| *given == answer).map(|(_, times)| times).sum()
}

/// Every call is accepted under each seed, and the answers are shown.
#[test]
fn workloads() {
    let (records, mut of_all) = (RECORDS * setting("POOL_SOAK", 1), Pairs::new());
    for seed in SEEDS {
        let pairs = pairs_of(seed, records);
        println!(
            "seed {seed}: {records} records, 13 {} and 27 {} times",
            times(&pairs, 13),
            times(&pairs, 27)
        );
        let refused: Vec<u8> = (1..=9).filter(|call| !pairs.contains_key(&(*call, 0))).collect();
        assert_eq!(refused, [], "calls that are never accepted under seed {seed}");
        let given: Vec<_> = pairs.keys().filter(|(_, answer)| NEVER.contains(answer)).collect();
        assert!(given.is_empty(), "calls with answers that can't be, under seed {seed}: {given:?}");
        pairs.into_iter().for_each(|(pair, times)| *of_all.entry(pair).or_default() += times);
    }
    println!("{}", table(&of_all));
}

/// The sum that the command `cksum` gives, a bit at a time: of the bytes, and then of their number, in as many bytes as it takes,
/// the lowest first.
fn cksum(bytes: &[u8]) -> u32 {
    let length = bytes.len().to_le_bytes();
    let taken = length.iter().rposition(|byte| *byte != 0).map_or(0, |last| last + 1);
    let mut sum: u32 = 0;
    for byte in bytes.iter().chain(&length[..taken]) {
        for bit in (0..8).rev() {
            let carried = sum >> 31 ^ u32::from(byte >> bit & 1);
            sum = (sum << 1) ^ (carried * 0x04c1_1db7);
        }
    }
    !sum
}

/// By what the command itself prints.
#[test]
fn cksum_is_the_commands() {
    let many: Vec<u8> = (0..=255).cycle().take(70_000).collect();
    let sums = [&b""[..], b"a", b"123456789", b"1 0 0 0\n", &many].map(cksum);
    assert_eq!(sums, [4_294_967_295, 1_220_704_766, 930_766_865, 2_082_965_186, 3_614_331_820]);
}

/// The numbers of each line of the file.
fn rows() -> impl Iterator<Item = [u32; 4]> {
    let lines = include_str!("../workload/checksums.txt").lines().filter(|line| !line.starts_with('#'));
    lines.map(|line| {
        let numbers: Result<Vec<u32>, _> = line.split(' ').map(str::parse).collect();
        numbers.ok().and_then(|numbers| numbers.try_into().ok()).unwrap_or_else(|| panic!("'{line}'"))
    })
}

/// The lines that the listing prints for a workload, by their sum and their bytes, are those of the file.
#[test]
fn checksums() {
    let listed = rows().map(|[seed, count, ..]| {
        let mut lines = String::new();
        run(seed, count.into(), |entry, call, answer| lines += &line(entry, call, answer));
        [seed, count, cksum(lines.as_bytes()), lines.len() as u32]
    });
    assert_eq!(listed.collect::<Vec<_>>(), rows().collect::<Vec<_>>());
}

/// "a seed of 0 is read as 1", and every other one is the number.
#[test]
fn seeds() {
    for (seed, number) in [(0, 1), (1, 1), (2, 2), (9, 9), (1 << 31, 1 << 31), (u32::MAX, u32::MAX)] {
        assert_eq!([UnderTest.seeded(seed), Model.seeded(seed)], [Generator { number }; 2]);
        #[cfg(feature = "host")]
        assert_eq!(Generator::seeded(seed), Generator { number });
    }
}

/// Numbers about the ends of the range, each with a single bit, and others.
fn numbers(others: usize) -> impl Iterator<Item = u32> {
    let mut random = Random::new(10);
    let ends = [0, 3, 9, u32::MAX - 1, u32::MAX, u32::MAX >> 1, u32::MAX << 1, 0x5555_5555, 0xaaaa_aaaa];
    let bits = (0..32).map(|bit| 1 << bit);
    ends.into_iter().chain(bits).chain((0..others).map(move |_| random.draw() as u32))
}

/// "a draw from any number but 0 is undone by exactly one earlier number, which isn't 0 either": what is undone is the number
/// before, and each number has one before it. From 0 a draw gives 0.
#[test]
fn a_draw_is_undone() {
    for number in numbers(500_000) {
        let drawn = draw(&mut Generator { number });
        assert_eq!((undone(drawn), drawn == 0), (number, number == 0));
        let earlier = undone(number);
        assert_eq!((draw(&mut Generator { number: earlier }), earlier == 0), (number, number == 0));
    }
}

/// The same on the machine under test, whose records are five draws.
#[test]
fn a_record_is_undone() {
    let trial = Trial::open(4, 16, &[]);
    for number in numbers(200_000) {
        let mut generator = Generator { number };
        trial.draw(&mut generator).expect("an opened pool");
        let earlier = (0..5).fold(generator.number, |number, _| undone(number));
        assert_eq!((earlier, generator.number == 0), (number, number == 0));
    }
}
