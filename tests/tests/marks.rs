//! Request A.8 on every small store, on every set of marks of a tree, and on every word: marks lock the pages that they name and
//! change nothing else.
use pool_tests::calls::{Answer, Call, NAMES};
use pool_tests::coverage::Coverage;
use pool_tests::damage::damage;
use pool_tests::ensure;
use pool_tests::history::History;
use pool_tests::lockstep::step;
use pool_tests::pool::{Named, UnderTest};
use pool_tests::records::{
    handle_of, is_marked, page, page_of_mut, put_word, stores_of, unmarked, with_mark, word_in, Handle, Page,
    PageNumber, State, Stores, DIRECTORY_SIZE, LOCK_BIT, PAGE_SIZE, SLOTS, SWIZZLE_BIT,
};
use pool_tests::runs;
use pool_tests::steer::{self, Steer};
use pool_tests::stores::{any_stores, side_by_side, sound_store};
use pool_tests::trial::{Link, Trial};
use random::Random;
use std::collections::HashSet;
use words::rules::Table;

type Outcome = Result<(), String>;

/// A page and a slot of it.
type Place = (usize, usize);

/// Every way to put one of the words into each place.
fn filled(places: &[Place], words: &[u32]) -> Vec<Vec<Link>> {
    places.iter().fold(vec![vec![]], |stores, (page, slot)| {
        let with = |store: &Vec<Link>, word: &u32| [&store[..], &[(*page, *slot, *word)]].concat();
        stores.iter().flat_map(|store| words.iter().map(move |word| with(store, word))).collect()
    })
}

/// Each of the names, without the mark and with it.
fn both(names: &[u32]) -> Vec<u32> {
    names.iter().flat_map(|name| [*name, name | LOCK_BIT]).collect()
}

/// How many of the stores open takes, each by itself.
fn sound(pages: usize, stores: &[Vec<Link>]) -> usize {
    let opened = stores.iter().filter(|words| Trial::closed(2, pages, words).reopen() == 0);
    opened.count()
}

/// Every store of one to three pages with any of these words in some of its slots. Of those with P such slots, open takes the one
/// without words; with two pages the 2 P in which one word names page 1, marked or not; with three the 4 P in which one page is
/// named, and the 4 P (P - 1) in which both are.
#[test]
fn every_small_store() {
    let swizzled = [SWIZZLE_BIT, SWIZZLE_BIT | 1];
    let one = filled(&[(0, 0), (0, 15)], &both(&[&[0, 1][..], &swizzled].concat()));
    assert_eq!((one.len(), sound(1, &one)), (64, 1));
    let two = filled(&[(0, 0), (0, 15), (1, 0), (1, 15)], &both(&[&[0, 1, 2][..], &swizzled].concat()));
    assert_eq!((two.len(), sound(2, &two)), (10_000, 9));
    let three = filled(&[(0, 0), (0, 15), (1, 0), (1, 7), (2, 15)], &both(&[0, 1, 2, 3]));
    assert_eq!((three.len(), sound(3, &three)), (32_768, 1 + 20 + 80));
}

/// The pages of a tree, each with the page and the slot that name it.
const TREE: [(u32, Place); 5] = [(1, (0, 0)), (2, (0, 15)), (3, (1, 0)), (4, (1, 3)), (5, (3, 2))];

/// A pool over that tree, some of whose words are marked: the set's bits say which. All pages are resident and pinned.
fn tree(marked: usize) -> (Trial, Vec<Handle>) {
    let words: Vec<Link> = (0..)
        .zip(TREE)
        .map(|(bit, (page, (parent, slot)))| (parent, slot, with_mark(page, marked >> bit & 1 == 1)))
        .collect();
    let mut trial = Trial::open(6, 8, &words);
    let mut handles = vec![trial.root()];
    for (_, (parent, slot)) in TREE {
        handles.push(trial.fix(handles[parent], slot));
    }
    (trial, handles)
}

/// For every set of marks, a page is locked by the word that names it and by no other, and its words are shown as they are marked.
#[test]
fn every_set_of_marks() {
    for marked in 0..1 << TREE.len() {
        let (trial, handles) = tree(marked);
        for (page, handle) in handles.iter().enumerate() {
            let locked = page > 0 && marked >> (page - 1) & 1 == 1;
            let edits = [
                Call::Write(*handle, 0, vec![1]),
                Call::Link(*handle, 9, 7, false),
                Call::Link(*handle, 9, 7, true),
            ];
            for call in edits {
                let number = trial.clone().number(call.clone());
                assert_eq!(number, if locked { 26 } else { 0 }, "{call:?}, marks {marked:b}");
            }
            let unlinked = trial.clone().number(Call::Unlink(*handle, 0));
            let besides = if page < 2 { 10 } else { 7 };
            assert_eq!(unlinked, if locked { 26 } else { besides }, "page {page}, marks {marked:b}");
        }
        for (bit, (page, (parent, slot))) in TREE.into_iter().enumerate() {
            let shown = trial.clone().word(handles[parent], slot);
            assert_eq!(shown, (page as u16, marked >> bit & 1 == 1), "marks {marked:b}");
        }
    }
}

/// The calls on a pool of so few pages that change something, but for a pin on a page that has one.
fn calls(state: &State) -> Vec<Call> {
    let mut calls = vec![Call::Open(state.as_one()), Call::Settle];
    let pages = 1..state.pool.pages;
    let pinned = |page: u16| {
        let mut used = state.pool.records.iter().filter(|record| record.is_used());
        used.any(|record| record.page == PageNumber(page) && record.pins > 0)
    };
    calls.extend((!pinned(0)).then_some(Call::Root(0)));
    calls.extend(pages.clone().map(|page| Call::Evict(0, page)));
    for (frame, record) in state.occupied().filter(|(_, record)| record.pins > 0) {
        let page = handle_of(frame, record);
        calls.extend([Call::Unfix(page), Call::Write(page, 0, vec![1])]);
        for slot in [0, 15] {
            calls.extend([Call::Fix(page, slot), Call::Unlink(page, slot), Call::Word(page, slot)]);
            let links = pages.clone().flat_map(|other| [(other, false), (other, true)]);
            calls.extend(links.map(|(other, locked)| Call::Link(page, slot, other, locked)));
        }
    }
    calls
}

/// A state, to be told from others.
fn key(state: &State) -> Vec<u8> {
    let records = format!("{:?}", state.pool).into_bytes();
    [&records[..], &state.frames, &state.store, &state.directory].concat()
}

/// Every list of so many of these calls on a pool of two frames, each state once, beside the plain map. Gives how many states.
fn lists(pages: usize, words: &[Link], depth: usize, coverage: &mut Coverage) -> Result<usize, String> {
    let State { frames, store, directory, .. } = Trial::closed(2, pages, words).state;
    let mut at = vec![History::open(&UnderTest, (frames, store, directory), Stores::one(2), coverage)?];
    let mut seen = HashSet::new();
    for _ in 0..depth {
        let mut next = Vec::new();
        for history in &at {
            for call in calls(&history.state) {
                let mut after = history.clone();
                after.call(&call, coverage).map_err(|fault| format!("{words:x?}: {fault}"))?;
                if seen.insert(key(&after.state)) {
                    after.check().map_err(|fault| format!("{words:x?}, {call:?}: {fault}"))?;
                    next.push(after);
                }
            }
        }
        at = next;
    }
    Ok(seen.len())
}

/// Every short list of calls over every sound store of two pages with words in four slots, and of three with words in three.
#[test]
fn every_short_list() -> Outcome {
    let mut coverage = Coverage::default();
    let mut states = 0;
    for (pages, depth, places) in
        [(2, 8, &[(0, 0), (0, 15), (1, 0), (1, 15)][..]), (3, 6, &[(0, 0), (1, 0), (2, 15)])]
    {
        let names: Vec<u32> = (0..pages).map(|page| page as u32).collect();
        for words in filled(places, &both(&names)) {
            if Trial::closed(2, pages, &words).reopen() == 0 {
                states += lists(pages, &words, depth, &mut coverage)?;
            }
        }
    }
    println!("{states} states\n{coverage}");
    assert_eq!(coverage.missing(&Table::standing(), &[26]), [], "pairs that did not occur");
    Ok(())
}

/// The words of some bytes without their marks, but for those that are a mark alone.
fn forget_in(bytes: &mut [u8]) {
    for page in 0..bytes.len() / PAGE_SIZE {
        let page = page_of_mut(bytes, page);
        for slot in 0..SLOTS {
            let word = word_in(page, slot);
            if word != LOCK_BIT {
                put_word(page, slot, unmarked(word));
            }
        }
    }
}

/// A state without its marks.
fn forget(state: &State) -> State {
    let mut state = state.clone();
    forget_in(&mut state.frames);
    forget_in(&mut state.store);
    state
}

/// The call on a state without marks.
fn without_mark(call: &Call) -> Call {
    match call {
        Call::Link(handle, slot, page, _) => Call::Link(*handle, *slot, *page, false),
        other => other.clone(),
    }
}

/// A call answers on a state what it answers on the same without marks, and leaves the same but for marks: unless it is an edit
/// that is refused by 26, where without the mark no rule before that is broken. Word gives the mark beside the same page.
fn compare(state: &State, call: &Call, coverage: &mut Coverage) -> Outcome {
    let (mut after, mut forgot) = (state.clone(), forget(state));
    let answer = step(&UnderTest, &mut after, call, coverage)?;
    let without = step(&UnderTest, &mut forgot, &without_mark(call), coverage)?;
    if answer == Answer::Refused(26) {
        let edit = matches!(call, Call::Write(..) | Call::Link(..) | Call::Unlink(..));
        let later = edit && ![1, 2, 3, 4, 5, 28].contains(&without.number());
        ensure!(later, "{call:?}: 26, and without marks {without:?}");
        return Ok(());
    }
    let unmarked = match answer {
        Answer::Named(named) => Answer::Named(Named { locked: false, ..named }),
        other => other,
    };
    ensure!(unmarked == without, "{call:?}: {answer:?}, and without marks {without:?}");
    match forget(&after).difference(&forget(&forgot)) {
        Some(difference) => Err(format!("{call:?}: without marks other {difference}")),
        None => Ok(()),
    }
}

/// A pool after some calls.
fn reached(random: &mut Random, coverage: &mut Coverage) -> Result<State, String> {
    let count = random.pick(&[1, 1, 2, 3]);
    let (frames, pages) = (random.between(1 + usize::from(count), 6), random.between(2, 24));
    let (named, marked) = (random.pick(&[70, 95]), random.pick(&[10, 40]));
    let store = side_by_side(random, count, |random| sound_store(random, pages, named, marked));
    let lent = (random.bytes(PAGE_SIZE * frames), store, random.bytes(DIRECTORY_SIZE));
    let stores = any_stores(random, count, frames);
    let mut history = History::open(&UnderTest, lent, stores, coverage)?;
    let mut steer = Steer::new(random, &history.state);
    for _ in 0..random.between(10, 80) {
        let call = steer.next(random, &history.state);
        history.call(&call, coverage)?;
    }
    Ok(history.state)
}

/// Every call on a copy of a state, each with arguments of its own.
fn every_call(random: &mut Random, state: &State, coverage: &mut Coverage) -> Outcome {
    (0..NAMES.len()).try_for_each(|index| compare(state, &steer::call(random, state, index), coverage))
}

/// Runs a test's lists, in which edits of every kind must have been refused by 26.
fn run(name: &str, count: u64, list: impl Fn(&mut Random, &mut Coverage) -> Outcome) -> Coverage {
    let coverage = runs::run(name, count, list);
    assert_eq!(coverage.missing(&Table::standing(), &[26]), [], "pairs that did not occur");
    coverage
}

/// Bit 30 turned in every word of every occupied frame, one at a time: a mark on a word of 0 breaks rule 2 in every call but open,
/// and any other leaves records and frames in agreement.
#[test]
fn every_mark_turned() {
    run("every mark turned", 150, |random, coverage| {
        let state = reached(random, coverage)?;
        for (frame, _) in state.occupied() {
            for (slot, word) in state.words(frame).enumerate() {
                let mut turned = state.clone();
                put_word(page_of_mut(&mut turned.frames, frame.into()), slot, word ^ LOCK_BIT);
                for index in 1..NAMES.len() {
                    let call = steer::call(random, &turned, index);
                    compare(&turned, &call, coverage)?;
                    let answer = step(&UnderTest, &mut turned.clone(), &call, coverage)?;
                    let broken = answer == Answer::Refused(2);
                    ensure!(broken == (word == 0), "{call:?}: {answer:?} with {word:#x} turned");
                }
            }
        }
        Ok(())
    });
}

/// The fix, by a pinned page, of a page that isn't resident.
fn load(state: &State, page: Page) -> Option<Call> {
    let pinned = state.occupied().filter(|(_, record)| record.pins > 0 && record.store == page.store);
    let mut slots = pinned.flat_map(|(frame, record)| {
        let parent = handle_of(frame, record);
        (0..).zip(state.words(frame)).map(move |(slot, word)| (parent, slot, word))
    });
    let named = slots.find(|(_, _, word)| *word != 0 && unmarked(*word) == page.number.into());
    named.map(|(parent, slot, _)| Call::Fix(parent, slot))
}

/// Bit 30 turned in every word of the store, one at a time: a mark on a word of 0 breaks rule 16 in open and rule 14 in a fix that
/// would load its page, and any other leaves open's answer as it was, which is accepted after a settle.
#[test]
fn every_stored_mark_turned() {
    let coverage = run("every stored mark turned", 60, |random, coverage| {
        let mut state = reached(random, coverage)?;
        let settled = random.percent(50);
        if settled {
            step(&UnderTest, &mut state, &Call::Settle, coverage)?;
        }
        let open = Call::Open(stores_of(&state.pool));
        let opened = step(&UnderTest, &mut state.clone(), &open, coverage)?;
        ensure!(opened.accepted() || !settled, "open after a settle: {opened:?}");
        let pages = usize::from(state.pool.pages);
        for place in 0..pages * usize::from(state.pool.stores) {
            let load = load(&state, page((place / pages) as u8, (place % pages) as u16));
            for slot in 0..SLOTS {
                let mut turned = state.clone();
                let stored = page_of_mut(&mut turned.store, place);
                let word = word_in(stored, slot);
                put_word(stored, slot, word ^ LOCK_BIT);
                every_call(random, &turned, coverage)?;
                let wanted = if word == 0 { Answer::Refused(16) } else { opened };
                let answer = step(&UnderTest, &mut turned.clone(), &open, coverage)?;
                ensure!(answer == wanted, "open: {answer:?} with {word:#x} turned, not {wanted:?}");
                if let Some(load) = &load {
                    compare(&turned, load, coverage)?;
                    let answer = step(&UnderTest, &mut turned.clone(), load, coverage)?;
                    let broken = answer == Answer::Refused(14);
                    ensure!(broken == (word == 0), "{load:?}: {answer:?} with {word:#x} turned");
                }
            }
        }
        Ok(())
    });
    assert_eq!(coverage.missing(&Table::standing(), &[14, 16]), [], "pairs that did not occur");
}

/// Marks change nothing else, on states that calls reached and on damaged ones.
#[test]
fn marks_change_nothing_else() {
    run("marks change nothing else", 300, |random, coverage| {
        let state = reached(random, coverage)?;
        for _ in 0..5 {
            every_call(random, &state, coverage)?;
        }
        for number in 0..20 {
            let mut damaged = state.clone();
            damage(random, &mut damaged);
            let called = every_call(random, &damaged, coverage);
            called.map_err(|fault| format!("damaged state {number}: {fault}"))?;
        }
        Ok(())
    });
}

/// The test forgets marks alone.
#[test]
fn what_is_forgotten() {
    let mut bytes = vec![0xff; PAGE_SIZE];
    let words = [0, 5, LOCK_BIT | 5, LOCK_BIT, SWIZZLE_BIT | 1, SWIZZLE_BIT | LOCK_BIT | 1];
    (0..).zip(words).for_each(|(slot, word)| put_word(&mut bytes, slot, word));
    forget_in(&mut bytes);
    let left: Vec<u32> = (0..words.len()).map(|slot| word_in(&bytes, slot)).collect();
    assert_eq!(left, [0, 5, 5, LOCK_BIT, SWIZZLE_BIT | 1, SWIZZLE_BIT | 1]);
    assert!(left.iter().all(|word| *word == LOCK_BIT || !is_marked(*word)));
}
