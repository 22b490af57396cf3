//! The calls that are timed, each with the state that it is made on.
use crate::boundary;
use crate::timing::{repeat, Variant};
use pagepool::{Entry, FrameRecord, Generator, Refusal, Stores, MAX_PINS, MAX_USAGE, PAGE_SIZE};
use pool_bench::baseline;
use pool_bench::shapes::{
    absent, absent_from_chain, last_named, last_of_chain, last_resident, last_store, pinned, present,
    put_records, unnamed, Page, State, EMPTY_SLOT, ROOT,
};
use std::cell::Cell;
use std::hint::black_box;

/// What is timed of a call.
pub struct Variants {
    pub library: Variant<State>,
    pub baseline: Variant<State>,
    /// The records passed and answered as the library does, and nothing else.
    pub copy: Variant<State>,
    /// What undoes a call before the next one, alone.
    pub undo: Variant<State>,
}

pub fn accept<T>(answer: Result<T, Refusal>) {
    assert!(black_box(answer).is_ok());
}

/// A refusal of a link, since its slot is taken, and one since its page is named.
fn refuse_slot<T>(answer: Result<T, Refusal>) {
    assert!(matches!(black_box(answer), Err(Refusal::FullSlot)));
}

fn refuse_named<T>(answer: Result<T, Refusal>) {
    assert!(matches!(black_box(answer), Err(Refusal::AlreadyNamed)));
}

/// A refusal of an edit, since its page is locked.
fn refuse_edit<T>(answer: Result<T, Refusal>) {
    assert!(matches!(black_box(answer), Err(Refusal::IsLocked)));
}

/// A refusal of an evict, since its page names a resident one.
fn refuse_parent<T>(answer: Result<T, Refusal>) {
    assert!(matches!(black_box(answer), Err(Refusal::IsParent)));
}

/// A refusal of a load at the ceiling: by 15 before request A.11.
fn refuse_load<T>(answer: Result<T, Refusal>) {
    assert!(matches!(black_box(answer), Err(Refusal::AtCeiling | Refusal::NoFrame)));
}

/// The four variants of a call with what it must answer, what copies its records and what undoes it.
macro_rules! variants {
    ($expect:path, $copy:path, $undo:expr, $call:ident($($argument:expr),*)) => {{
        let undo = $undo;
        let (undo_library, undo_baseline, undo_copy) = (undo.clone(), undo.clone(), undo.clone());
        Variants {
            library: repeat(move |s: &mut State| {
                $expect(s.$call($($argument),*));
                undo_library(black_box(s));
            }),
            baseline: repeat(move |s: &mut State| {
                $expect(baseline::$call(
                    &mut s.records,
                    &mut s.frames,
                    &mut s.store,
                    &mut s.directory
                    $(, $argument)*
                ));
                undo_baseline(black_box(s));
            }),
            copy: repeat(move |s: &mut State| {
                $copy(s);
                undo_copy(black_box(s));
            }),
            undo: repeat(undo),
        }
    }};
}

/// The variants of a call that can be repeated as it is.
macro_rules! repeated {
    ($state:expr, $copy:path, $call:ident($($argument:expr),*)) => {
        ($state, variants!(accept, $copy, |_: &mut State| (), $call($($argument),*)))
    };
}

/// The variants of a call that is refused in one way. The records go in and out.
macro_rules! refused {
    ($refuse:path, $state:expr, $call:ident($($argument:expr),*)) => {
        ($state, variants!($refuse, boundary::in_and_out, |_: &mut State| (), $call($($argument),*)))
    };
}

/// The variants of a call that is undone each time.
macro_rules! undone {
    ($state:expr, $call:ident($($argument:expr),*)) => {{
        let state: State = $state;
        let mut after = state.clone();
        accept(baseline::$call(
            &mut after.records,
            &mut after.frames,
            &mut after.store,
            &mut after.directory
            $(, $argument)*
        ));
        let undo = undo(&state, &after);
        (state, variants!(accept, boundary::in_and_out, undo, $call($($argument),*)))
    }};
}

/// Puts the records back, and the frames and the directory's bytes that a call altered. What it wrote to the store was there
/// before.
fn undo(before: &State, after: &State) -> impl Fn(&mut State) + Clone {
    assert!(before.store == after.store);
    let records = before.records;
    let frames = before.frames.chunks_exact(PAGE_SIZE).zip(after.frames.chunks_exact(PAGE_SIZE));
    let altered = frames.enumerate().filter(|(_, (old, new))| old != new);
    let pages: Vec<(usize, Vec<u8>)> =
        altered.map(|(frame, (old, _))| (PAGE_SIZE * frame, old.to_vec())).collect();
    let bytes = before.directory.iter().zip(&after.directory).enumerate();
    let bytes: Vec<(usize, u8)> =
        bytes.filter(|(_, (old, new))| old != new).map(|(at, (old, _))| (at, *old)).collect();
    move |state| {
        put_records(state, &records);
        for (start, page) in &pages {
            state.frames[*start..*start + PAGE_SIZE].copy_from_slice(page);
        }
        for (at, byte) in &bytes {
            state.directory[*at] = *byte;
        }
    }
}

/// The state with every resident page dirty.
pub fn dirtied(state: &State) -> State {
    let mut state = state.clone();
    state.records.records.iter_mut().filter(|record| record.is_used()).for_each(|record| record.dirty = 1);
    state
}

/// A page that is resident.
pub fn fix_hit(state: &State) -> (State, Variants) {
    let (page, slot) = present(state);
    repeated!(state.clone(), boundary::in_and_out, fix(page, slot))
}

/// A page that isn't resident. In a shape with full frames every open one has usage 1, so that the sweep goes round once.
pub fn fix_clean(state: &State) -> (State, Variants) {
    let (page, slot) = absent(state);
    undone!(state.clone(), fix(page, slot))
}

pub fn fix_dirty(state: &State) -> (State, Variants) {
    fix_clean(&dirtied(state))
}

/// The pages in the first so many frames pinned, all but the root with usage 0: the first three looks at each raise it.
fn held(state: &State, frames: usize) -> State {
    let mut state = state.clone();
    for record in &mut state.records.records[1..frames] {
        (record.pins, record.usage) = (1, 0);
    }
    state
}

/// A sweep past the pinned half of the frames, twice, to the first of the others. In `Full` alone.
pub fn fix_half_pinned(state: &State) -> (State, Variants) {
    fix_clean(&held(state, usize::from(state.records.count) / 2))
}

/// The longest sweep, 4 × F looks: all frames but the last are pinned, and that has usage 3. In `Full` alone.
pub fn fix_one_open(state: &State) -> (State, Variants) {
    let last = usize::from(state.records.count) - 1;
    let mut state = held(state, last);
    state.records.records[last].usage = MAX_USAGE;
    fix_clean(&state)
}

/// The state with ceilings that come to F in all, so that each store is at its own. In a shape with full frames alone.
fn at_ceilings(state: &State) -> State {
    let (mut state, stores) = (state.clone(), state.records.stores);
    state.records.ceilings = state.records.ceilings.map(|ceiling| ceiling / stores);
    state
}

/// A load of a store at its ceiling, in full frames: the sweep passes over the neighbours' pages. In `Four` alone.
pub fn fix_at_ceiling(state: &State) -> (State, Variants) {
    fix_clean(&at_ceilings(state))
}

/// The same with the neighbours' frames empty, but for their roots'.
pub fn fix_at_ceiling_alone(state: &State) -> (State, Variants) {
    let (mut state, own) = (at_ceilings(state), last_store(state));
    let State { records, frames, store, directory, .. } = &mut state;
    for frame in (usize::from(records.stores)..usize::from(records.count)).rev() {
        let FrameRecord { store: of_store, page, .. } = records.records[frame];
        if of_store != own {
            records.records[frame].pins = 0;
            accept(baseline::evict(records, frames, store, directory, of_store, page));
        }
    }
    fix_clean(&state)
}

/// A load that is denied, since the store is at its ceiling, and each page of it is pinned.
pub fn fix_denied(state: &State) -> (State, Variants) {
    let (mut state, own) = (at_ceilings(state), last_store(state));
    let is_own = |record: &&mut FrameRecord| record.is_used() && record.store == own;
    state.records.records.iter_mut().filter(is_own).for_each(|record| record.pins = 1);
    let (page, slot) = absent(&state);
    refused!(refuse_load, state, fix(page, slot))
}

pub fn unfix(state: &State) -> (State, Variants) {
    let (mut state, page) = (state.clone(), pinned(state));
    state.records.record_mut(page.frame).pins = MAX_PINS;
    repeated!(state, boundary::in_and_out, unfix(page))
}

pub fn root(state: &State) -> (State, Variants) {
    let store = last_store(state);
    repeated!(state.clone(), boundary::in_and_out, root(store))
}

fn find(state: &State, (store, page): Page) -> (State, Variants) {
    repeated!(state.clone(), boundary::only_in, find(store, page))
}

/// The root, in frame 0.
pub fn find_first(state: &State) -> (State, Variants) {
    find(state, (ROOT.store, ROOT.page))
}

/// The page in frame F / 2. In a shape with full frames alone.
pub fn find_middle(state: &State) -> (State, Variants) {
    let FrameRecord { store, page, .. } = state.records.records[usize::from(state.records.count) / 2];
    find(state, (store, page))
}

pub fn find_last(state: &State) -> (State, Variants) {
    find(state, last_resident(state))
}

/// A page that isn't resident.
pub fn find_absent(state: &State) -> (State, Variants) {
    find(state, (last_store(state), unnamed(state)))
}

/// A resident page, the last of a longest chain.
pub fn find_last_of_chain(state: &State) -> (State, Variants) {
    find(state, last_of_chain(state))
}

/// A page that isn't resident, and would be in a longest chain.
pub fn find_absent_from_chain(state: &State) -> (State, Variants) {
    find(state, absent_from_chain(state))
}

/// A page that isn't resident.
pub fn peek(state: &State) -> (State, Variants) {
    let (store, page) = (last_store(state), unnamed(state));
    repeated!(state.clone(), boundary::only_in, peek(store, page))
}

/// The page in the last frame.
pub fn peek_resident(state: &State) -> (State, Variants) {
    let (store, page) = last_resident(state);
    repeated!(state.clone(), boundary::only_in, peek(store, page))
}

pub fn show(state: &State) -> (State, Variants) {
    let page = pinned(state);
    repeated!(state.clone(), boundary::only_in, show(page))
}

pub fn word(state: &State) -> (State, Variants) {
    let (page, slot) = present(state);
    repeated!(state.clone(), boundary::only_in, word(page, slot))
}

pub fn write(state: &State) -> (State, Variants) {
    let page = pinned(state);
    repeated!(state.clone(), boundary::in_and_out, write(page, 0, &[7; 8]))
}

/// A write to a locked page, refused. In `Marked` alone.
pub fn write_locked(state: &State) -> (State, Variants) {
    let page = pinned(state);
    refused!(refuse_edit, state.clone(), write(page, 0, &[7; 8]))
}

pub fn link(state: &State) -> (State, Variants) {
    let (page, named) = (pinned(state), unnamed(state));
    undone!(state.clone(), link(page, EMPTY_SLOT, named, false))
}

/// A link in the root, with the mark. In `Marked` alone, where the page in frame 1 is locked.
pub fn link_marked(state: &State) -> (State, Variants) {
    let named = unnamed(state);
    undone!(state.clone(), link(ROOT, EMPTY_SLOT, named, true))
}

/// A link in a locked page, refused before the pass over the store. In `Marked` alone.
pub fn link_locked(state: &State) -> (State, Variants) {
    let (page, named) = (pinned(state), unnamed(state));
    refused!(refuse_edit, state.clone(), link(page, EMPTY_SLOT, named, false))
}

/// A page that no word names, into a slot that is taken: rule 9's pass goes over the whole store before 8 is answered.
pub fn link_taken(state: &State) -> (State, Variants) {
    let page = unnamed(state);
    refused!(refuse_slot, state.clone(), link(ROOT, 0, page, false))
}

/// A page that is named, into a slot that another page has: the pass ends at the stored page that names it.
pub fn link_named(state: &State) -> (State, Variants) {
    let page = last_named(state);
    refused!(refuse_named, state.clone(), link(ROOT, 0, page, false))
}

pub fn unlink(state: &State) -> (State, Variants) {
    let (page, slot) = absent(state);
    undone!(state.clone(), unlink(page, slot))
}

/// An unlink in a locked page, refused. In `Marked` alone.
pub fn unlink_locked(state: &State) -> (State, Variants) {
    let (page, slot) = absent(state);
    refused!(refuse_edit, state.clone(), unlink(page, slot))
}

pub fn evict_dirty(state: &State) -> (State, Variants) {
    let (store, page) = last_resident(state);
    undone!(dirtied(state), evict(store, page))
}

/// The page in frame 1 without its pin, and with the page that was left out below it: refused once all its words were looked at.
/// In `Full` alone.
pub fn evict_parent(state: &State) -> (State, Variants) {
    let (mut state, (parent, slot)) = (state.clone(), absent(state));
    let State { records, frames, store, directory, .. } = &mut state;
    let child =
        baseline::fix(records, frames, store, directory, parent, slot).expect("a frame is open").handle;
    for handle in [child, parent] {
        baseline::unfix(records, frames, store, directory, handle).expect("it was pinned");
    }
    let (store, page) = (parent.store, parent.page);
    refused!(refuse_parent, state, evict(store, page))
}

pub fn settle_dirty(state: &State) -> (State, Variants) {
    undone!(dirtied(state), settle())
}

pub fn open(state: &State) -> (State, Variants) {
    let stores = Stores { count: state.records.stores, ceilings: state.records.ceilings };
    repeated!(state.clone(), boundary::only_out, open(stores))
}

/// Draws by a generator of its own that goes along, so that the records differ.
fn drawing(draw: impl Fn(&State, &mut Generator) -> Result<Entry, Refusal>) -> impl Fn(&mut State) {
    let along = Cell::new(Generator { number: 1 });
    move |state| {
        let mut generator = along.get();
        accept(draw(state, &mut generator));
        along.set(generator);
    }
}

pub fn draw(state: &State) -> (State, Variants) {
    let variants = Variants {
        library: repeat(drawing(|s, generator| s.draw(generator))),
        baseline: repeat(drawing(|s, generator| {
            baseline::draw(&s.records, &s.frames, &s.store, &s.directory, generator)
        })),
        copy: repeat(boundary::only_in),
        undo: repeat(|_| ()),
    };
    (state.clone(), variants)
}
