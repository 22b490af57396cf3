//! Request A.3 on pools whose pages share buckets: a directory that is wrong in any respect is refused by every call but open, and
//! one whose chains stand in another order changes nothing but find's count.
use pool_tests::calls::{Answer, Call, NAMES};
use pool_tests::coverage::Coverage;
use pool_tests::damage::directory as change;
use pool_tests::ensure;
use pool_tests::history::History;
use pool_tests::lockstep::{draw, step};
use pool_tests::model::chains::Turn;
use pool_tests::pool::{Found, UnderTest};
use pool_tests::records::{stores_of, Generator, State, BUCKETS, DIRECTORY_SIZE, PAGE_SIZE};
use pool_tests::runs;
use pool_tests::steer::{self, Steer};
use pool_tests::stores::{any_stores, sharing_store, side_by_side};
use random::Random;
use std::cell::RefCell;
use std::collections::BTreeMap;

type Outcome = Result<(), String>;

type Change = fn(&mut Random, &mut State);

/// Changes of the directory that break rule 2 wherever they change a byte.
const WRONG: [(&str, Change); 12] = [
    ("a byte", change::byte),
    ("a link", change::link),
    ("all bytes", change::whole),
    ("a cycle", change::cycle),
    ("a cycle without a head", change::loose_cycle),
    ("a shared tail", change::shared_tail),
    ("a wrong bucket", change::wrong_bucket),
    ("an empty frame in a chain", change::empty_entry),
    ("a resident page in no chain", change::missing_entry),
    ("an entry twice", change::second_entry),
    ("a byte of no entry", change::loose_byte),
    ("a byte of no entry, and a cycle", |random, state| {
        change::cycle(random, state);
        change::loose_byte(random, state);
    }),
];

/// A pool after some calls, with pages in its frames that share buckets.
fn reached(random: &mut Random, coverage: &mut Coverage) -> Result<State, String> {
    let count = random.pick(&[1, 1, 2, 3, 4]);
    let frames = random.between(2 + usize::from(count), 12);
    let pages = random.between(BUCKETS + 1, 5 * BUCKETS / usize::from(count).min(2));
    let store = side_by_side(random, count, |random| sharing_store(random, pages, 10));
    let lent = (random.bytes(PAGE_SIZE * frames), store, random.bytes(DIRECTORY_SIZE));
    let stores = any_stores(random, count, frames);
    let mut history = History::open(&UnderTest, lent, stores, coverage)?;
    let mut steer = Steer::new(random, &history.state);
    for _ in 0..random.between(20, 100) {
        let call = steer.next(random, &history.state);
        history.call(&call, coverage)?;
    }
    Ok(history.state)
}

/// Every call but open, and a draw, are refused by a number, each with arguments of its own; open, which sets the directory, is
/// refused or accepted as it is on the state before.
fn refused(
    random: &mut Random,
    (state, changed): (&State, &State),
    number: u8,
    coverage: &mut Coverage,
) -> Outcome {
    for index in 1..NAMES.len() {
        let call = steer::call(random, changed, index);
        let answer = step(&UnderTest, &mut changed.clone(), &call, coverage)?;
        ensure!(answer == Answer::Refused(number), "{call:?}: {answer:?}, not {number}");
    }
    let drawn = draw(&UnderTest, changed, &mut Generator { number: 1 }, coverage)?;
    ensure!(drawn == Err(number), "a draw gives {drawn:?}, not {number}");
    let open = Call::Open(stores_of(&state.pool));
    let formerly = step(&UnderTest, &mut state.clone(), &open, coverage)?;
    let opened = step(&UnderTest, &mut changed.clone(), &open, coverage)?;
    let wanted = if number == 1 { Answer::Refused(1) } else { formerly };
    ensure!(opened == wanted, "open: {opened:?}, not {wanted:?}");
    Ok(())
}

#[test]
fn wrong_directories() {
    let tried = RefCell::new(BTreeMap::new());
    runs::run("wrong directories", 60, |random, coverage: &mut Coverage| {
        let state = reached(random, coverage)?;
        for (what, change) in WRONG.iter().cycle().take(3 * WRONG.len()) {
            let mut changed = state.clone();
            change(random, &mut changed);
            if changed.directory != state.directory {
                let wrong = refused(random, (&state, &changed), 2, coverage);
                wrong.map_err(|fault| format!("{what}: {fault}, {:?}", changed.directory))?;
                *tried.borrow_mut().entry(*what).or_insert(0) += 1;
            }
        }
        for length in [0, DIRECTORY_SIZE - 1, DIRECTORY_SIZE + 1] {
            let mut changed = state.clone();
            changed.directory.resize(length, 0);
            refused(random, (&state, &changed), 1, coverage)
                .map_err(|fault| format!("{length} bytes: {fault}"))?;
        }
        Ok(())
    });
    let tried: BTreeMap<&str, u64> = tried.into_inner();
    println!("directories by what is wrong: {tried:?}");
    let missing: Vec<&str> =
        WRONG.iter().map(|(what, _)| *what).filter(|what| !tried.contains_key(what)).collect();
    assert!(missing.is_empty(), "changes that left every directory as it was: {missing:?}");
}

/// Each byte of a directory set to some other value.
#[test]
fn every_byte() {
    runs::run("every byte", 6, |random, coverage: &mut Coverage| {
        let state = reached(random, coverage)?;
        for at in 0..DIRECTORY_SIZE {
            let (byte, any) = (state.directory[at], random.draw() as u8);
            for other in [0, 1, byte.wrapping_add(1), byte.wrapping_sub(1), 64, 65, any] {
                let mut changed = state.clone();
                changed.directory[at] = other;
                if other != byte {
                    refused(random, (&state, &changed), 2, coverage)
                        .map_err(|fault| format!("byte {at} is {other} and not {byte}: {fault}"))?;
                }
            }
        }
        Ok(())
    });
}

/// An answer without find's count.
fn without_count(answer: Answer) -> Answer {
    match answer {
        Answer::Found(found) => Answer::Found(Found { compared: 0, ..found }),
        other => other,
    }
}

/// "each once in any order": calls answer the same but for find's count, and leave the same but for the order of chains.
#[test]
fn any_order() {
    let coverage = runs::run("any order", 150, |random, coverage: &mut Coverage| {
        let state = reached(random, coverage)?;
        for _ in 0..5 {
            let mut reordered = state.clone();
            change::reordered(random, &mut reordered);
            for index in 0..NAMES.len() {
                let call = steer::call(random, &state, index);
                let (mut after, mut other) = (state.clone(), reordered.clone());
                let answer = step(&UnderTest, &mut after, &call, coverage)?;
                let given = step(&UnderTest, &mut other, &call, coverage)?;
                ensure!(without_count(answer) == without_count(given), "{call:?}: {answer:?} and {given:?}");
                after.directory.clear();
                other.directory.clear();
                ensure!(after == other, "{call:?} leaves something else where chains are reordered");
            }
        }
        Ok(())
    });
    let turns = [Turn::LeftHead, Turn::LeftMiddle, Turn::LeftLast, Turn::EnteredMore, Turn::SweptSame];
    assert_eq!(coverage.missing_turns(&turns), [], "what no call did to a chain");
    assert_eq!(coverage.missing_mets(), [], "what no find met in a chain");
}
