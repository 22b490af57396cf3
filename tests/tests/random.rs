//! Long random lists of calls on the machine under test, the model and the plain map. POOL_SEED chooses other lists, POOL_SOAK
//! makes so many times more (`pool_tests::runs`).
use pool_tests::calls::NAMES;
use pool_tests::coverage::Coverage;
use pool_tests::damage::{alter, damage};
use pool_tests::draws::Draws;
use pool_tests::history::History;
use pool_tests::lockstep::step;
use pool_tests::model::chains::Turn;
use pool_tests::model::drawing::Drawing;
use pool_tests::model::figures::Figure;
use pool_tests::model::locks::Lock;
use pool_tests::pool::UnderTest;
use pool_tests::records::{
    put_word, State, Stores, BUCKETS, DIRECTORY_SIZE, LOCK_BIT, MOST_STORES, PAGE_SIZE, SLOTS,
};
use pool_tests::runs;
use pool_tests::steer::{self, Steer};
use pool_tests::stores::{any_stores, divisible_store, sharing_store, side_by_side, sound_store};
use random::Random;
use words::rules::Table;

type Outcome = Result<(), String>;

/// Answered on altered states alone: 1, 2 and 14. 13 asks for 65,535 pins.
const RARE: [u8; 4] = [1, 2, 13, 14];

/// The numbers that calls can answer, but for some.
fn all_but(some: &[u8]) -> Vec<u8> {
    let answered = Table::standing().rules.into_iter().filter(|rule| !rule.calls.is_empty());
    answered.map(|rule| rule.number).filter(|number| !some.contains(number)).collect()
}

/// Runs a test's lists. Every call must have met those of the wanted answers that it can give.
fn run(
    name: &str,
    lists: u64,
    wanted: &[u8],
    list: impl Fn(&mut Random, &mut Coverage) -> Outcome,
) -> Coverage {
    let (coverage, table) = (runs::run(name, lists, list), Table::standing());
    assert_eq!(coverage.missing(&table, wanted), [], "pairs that did not occur");
    assert_eq!(coverage.impossible(&table), [], "pairs that cannot occur");
    coverage
}

/// A link into a taken slot must have met every namer of its page, an evict every reason to stay, a fix have done everything that
/// it can do to usages, a find have met all that it can in a chain, a draw have shown all that it can but for some, and calls have
/// done all that they can to chains, but for some, and met all that they can of marks and locked pages, of several stores, and of T
/// and ceilings.
fn met_every_case(coverage: &Coverage, never_drawn: &[Drawing], never_done: &[Turn]) {
    assert_eq!(coverage.missing_namers(), [], "namers that no link into a taken slot met");
    assert_eq!(coverage.missing_stays(), [], "reasons to stay that no evict met");
    assert_eq!(coverage.missing_warmths(), [], "what no fix did to usages");
    assert_eq!(coverage.missing_mets(), [], "what no find met in a chain");
    assert_eq!(coverage.missing_turns(&Turn::ALL), never_done, "what no call did to a chain");
    assert_eq!(coverage.missing_drawings(&Drawing::ALL), never_drawn, "what no draw showed");
    assert_eq!(coverage.missing_locks(&Lock::ALL), [], "what no call met of marks and locked pages");
    assert_eq!(coverage.missing_sharings(), [], "what no call met of several stores");
    assert_eq!(coverage.missing_figures(&Figure::ALL), [], "what no call met of T and ceilings");
}

/// A pool to be opened: F, N, and the stores with their ceilings.
struct Sizes {
    frames: usize,
    pages: usize,
    stores: Stores,
}

/// Most F and N are small, so that frames are few and words meet. Some N are above 67, so that pages share buckets.
fn sizes(random: &mut Random) -> Sizes {
    let count = random.pick(&[1, 1, 1, 2, 2, 3, 4]);
    let (least, several) = (usize::from(count) + 1, usize::from(count).min(2));
    let (frames, pages) = match random.below(100) {
        0..10 => (random.between(least, 8), random.between(1, 4)),
        10..60 => (random.between(least, 8 + several), random.between(5, 16)),
        60..78 => (random.between(least, 8 + several), random.between(17, 64 / several)),
        78..98 => (random.between(least + 1, 14), random.between(BUCKETS + 1, 6 * BUCKETS / several)),
        _ => (random.between(9, 63), random.between(65, 400 / several)),
    };
    Sizes { frames, pages, stores: any_stores(random, count, frames) }
}

/// Bytes for frames before an open: any, at times with words that are bit 30 alone.
fn free_bytes(random: &mut Random, frames: usize) -> Vec<u8> {
    let mut bytes = random.bytes(PAGE_SIZE * frames);
    if random.percent(30) {
        let slot = random.below(SLOTS);
        bytes.chunks_exact_mut(PAGE_SIZE).for_each(|page| put_word(page, slot, LOCK_BIT));
    }
    bytes
}

/// Bytes for a directory before an open: none but 0, or any.
fn free_directory(random: &mut Random) -> Vec<u8> {
    let mut bytes = vec![0; DIRECTORY_SIZE];
    if random.percent(70) {
        random.fill(&mut bytes);
    }
    bytes
}

/// Opens a pool over random stores; the frames' bytes before it are free, and so are the directory's. At times the stores are sound
/// as another number of them too.
fn begin<'a>(
    random: &mut Random,
    sizes: &Sizes,
    coverage: &mut Coverage,
) -> Result<History<'a, UnderTest>, String> {
    let Sizes { frames, pages, stores } = *sizes;
    let named = random.pick(&[0, 40, 70, 95]);
    let marked = random.pick(&[0, 10, 30, 70]);
    let total = pages * usize::from(stores.count);
    let store = match random.below(10) {
        0..2 if total >= 2 * MOST_STORES => divisible_store(random, total, named.max(40), marked),
        2..8 if pages > BUCKETS => {
            side_by_side(random, stores.count, |random| sharing_store(random, pages, marked))
        }
        _ => side_by_side(random, stores.count, |random| sound_store(random, pages, named, marked)),
    };
    let lent = (free_bytes(random, frames), store, free_directory(random));
    History::open(&UnderTest, lent, stores, coverage)
}

/// Makes so many calls, draws records between them, and checks every so many points whole.
fn go_on(
    random: &mut Random,
    history: &mut History<UnderTest>,
    calls: usize,
    every: usize,
    coverage: &mut Coverage,
) -> Outcome {
    let mut steer = Steer::new(random, &history.state);
    let mut draws = Draws::beside(random);
    for number in 0..calls {
        if number % every == 0 {
            history.check().map_err(|fault| format!("before call {number}: {fault}"))?;
        }
        draws.at(&history.state, coverage).map_err(|fault| format!("before call {number}: {fault}"))?;
        let call = steer.next(random, &history.state);
        history.call(&call, coverage).map_err(|fault| format!("call {number}: {fault}"))?;
    }
    history.check()
}

/// Demand 3: along unaltered lists, all is as the plain map says.
#[test]
fn unaltered_lists() {
    let coverage = run("unaltered lists", 500, &all_but(&RARE), |random, coverage| {
        let sizes = sizes(random);
        let every = match sizes.frames * sizes.pages * usize::from(sizes.stores.count) {
            0..=32 => 1,
            33..=512 => 25,
            _ => 200,
        };
        let mut history = begin(random, &sizes, coverage)?;
        go_on(random, &mut history, 1000, every, coverage)
    });
    met_every_case(&coverage, &[Drawing::Refused(1), Drawing::Refused(2)], &[Turn::OpenedWrong]);
    assert_eq!(coverage.missing_locks(&Lock::ALTERED), Lock::ALTERED, "what no unaltered list meets");
    assert_eq!(coverage.missing_figures(&Figure::ALTERED), Figure::ALTERED, "what no unaltered list meets");
}

/// Every call on a copy of a state, each with arguments of its own.
fn every_call(random: &mut Random, state: &State, coverage: &mut Coverage) -> Outcome {
    for index in 0..NAMES.len() {
        let call = steer::call(random, state, index);
        step(&UnderTest, &mut state.clone(), &call, coverage)?;
    }
    Ok(())
}

fn damaged_states(random: &mut Random, state: &State, times: usize, coverage: &mut Coverage) -> Outcome {
    let mut draws = Draws::beside(random);
    for number in 0..times {
        let mut damaged = state.clone();
        damage(random, &mut damaged);
        let called = draws.at(&damaged, coverage).and_then(|()| every_call(random, &damaged, coverage));
        called.map_err(|fault| format!("damaged state {number}: {fault}"))?;
    }
    Ok(())
}

/// A list that goes on after an alteration: here the model alone says what holds.
fn altered_list(random: &mut Random, mut state: State, calls: usize, coverage: &mut Coverage) -> Outcome {
    let mut steer = Steer::new(random, &state);
    let mut draws = Draws::beside(random);
    for number in 0..calls {
        if number % 10 == 0 {
            alter(random, &mut state);
        }
        let call = steer.next(random, &state);
        let called = draws.at(&state, coverage).and_then(|()| step(&UnderTest, &mut state, &call, coverage));
        called.map_err(|fault| format!("altered, call {number}: {fault}"))?;
    }
    Ok(())
}

/// Demands 1 and 2: refused by the first broken rule with all as found, accepted as the model.
#[test]
fn altered_states() {
    let coverage = run("altered states", 1000, &all_but(&[]), |random, coverage| {
        let sizes = sizes(random);
        let mut history = begin(random, &sizes, coverage)?;
        let calls = random.between(10, 150);
        go_on(random, &mut history, calls, calls, coverage)?;
        for _ in 0..5 {
            altered_list(random, history.state.clone(), 40, coverage)?;
        }
        damaged_states(random, &history.state, 130, coverage)
    });
    met_every_case(&coverage, &[], &[]);
    let altered = [&Lock::ALTERED[..], &[Lock::BadNumber(16)]].concat();
    assert_eq!(coverage.missing_locks(&altered), [], "what no altered state met of marks and locked pages");
    assert_eq!(coverage.missing_figures(&Figure::ALTERED), [], "what no altered state met of stores");
}

#[test]
fn largest_pool() {
    let coverage = run("largest pool", 4, &[0, 27], |random, coverage| {
        let sizes = Sizes { frames: 64, pages: 4096, stores: Stores::one(64) };
        let mut history = begin(random, &sizes, coverage)?;
        go_on(random, &mut history, 1500, 500, coverage)?;
        altered_list(random, history.state.clone(), 500, coverage)?;
        damaged_states(random, &history.state, 25, coverage)
    });
    assert_eq!(coverage.missing_drawings(&[Drawing::LinkToHighPage]), [], "what no draw showed");
}

/// Four stores of 4,096 pages, all of which may fill every frame, or have some of their own.
#[test]
fn largest_stores() {
    let coverage = run("largest stores", 4, &[0, 27], |random, coverage| {
        let sizes = Sizes { frames: 64, pages: 4096, stores: any_stores(random, 4, 64) };
        let mut history = begin(random, &sizes, coverage)?;
        go_on(random, &mut history, 600, 300, coverage)?;
        altered_list(random, history.state.clone(), 150, coverage)?;
        damaged_states(random, &history.state, 10, coverage)
    });
    assert_eq!(coverage.missing_drawings(&[Drawing::LinkToHighPage]), [], "what no draw showed");
}
