//! The deepest stack of each exported call: a thread's stack is painted, and what the call leaves of the paint tells.
use crate::calls::{accept, dirtied};
use crate::tallies;
use pagepool::{tally_add, tally_report, tally_share, Generator, Stores, DEPTHS, MOST_REFERENCES};
use pool_bench::recordings::Recording;
use pool_bench::shapes::{
    absent, last_resident, last_store, pinned, present, put_records, unnamed, Shape, State, EMPTY_SLOT,
};
use std::hint::black_box;
use std::ptr;
use std::thread::Builder;

/// The deepest stack of a call, in bytes, its arguments and its answer included.
pub struct Depth {
    pub call: &'static str,
    pub bytes: usize,
}

const THREAD_STACK: usize = 1 << 20;
/// The painted part of it, below the frames of the functions that paint and look.
const PAINTED: usize = 1 << 17;
/// A call that takes no more than this doesn't reach the paint.
pub const MARGIN: usize = 512;
const PAINT: u8 = 0xa5;

type Call<S> = fn(&mut S);

const COUNT: usize = 64;
const PAGES: usize = 4096;

/// Each call on its longest way.
const CALLS: [(&str, Call<State>); 14] = [
    ("open", |s| {
        let stores = Stores { count: s.records.stores, ceilings: s.records.ceilings };
        accept(s.open(stores));
    }),
    ("root", |s| accept(s.root(last_store(s)))),
    ("fix", |s| {
        let (page, slot) = absent(s);
        accept(s.fix(page, slot));
    }),
    ("unfix", |s| accept(s.unfix(pinned(s)))),
    ("show", |s| accept(s.show(pinned(s)))),
    ("peek", |s| accept(s.peek(last_store(s), unnamed(s)))),
    ("word", |s| {
        let (page, slot) = present(s);
        accept(s.word(page, slot));
    }),
    ("write", |s| accept(s.write(pinned(s), 0, &[7; 8]))),
    ("link", |s| accept(s.link(pinned(s), EMPTY_SLOT, unnamed(s), false))),
    ("unlink", |s| {
        let (page, slot) = absent(s);
        accept(s.unlink(page, slot));
    }),
    ("evict", |s| {
        let (store, page) = last_resident(s);
        accept(s.evict(store, page));
    }),
    ("settle", |s| accept(s.settle())),
    ("find", |s| accept(s.find(last_store(s), unnamed(s)))),
    ("draw", |s| accept(s.draw(&mut Generator { number: 1 }))),
];

/// On a shape with full frames, at F = 64 and N = 4,096, every page dirty.
pub fn measured(shape: Shape) -> Vec<Depth> {
    let mut state = dirtied(&shape.state(COUNT, PAGES));
    let records = state.records;
    put_records(&mut state, &records);
    depths_of(&CALLS, &state)
}

const TALLY_CALLS: [(&str, Call<tallies::State>); 3] = [
    ("add", |s| s.add(tally_add)),
    ("share", |s| accept(tally_share(s.head, &s.counts, DEPTHS as u64))),
    ("report", |s| accept(tally_report(&s.counts, &mut s.hits))),
];

/// With the longest recording.
pub fn measured_on_a_tally() -> Vec<Depth> {
    let longest = Recording::UpThenDown.pages(MOST_REFERENCES, 0);
    depths_of(&TALLY_CALLS, &tallies::State::new(vec![longest]))
}

fn depths_of<S: Clone + Send + 'static>(calls: &[(&'static str, Call<S>)], state: &S) -> Vec<Depth> {
    calls.iter().map(|(call, run)| Depth { call, bytes: depth_of(*run, state) }).collect()
}

/// The depth of a call on a state, in a thread of its own.
fn depth_of<S: Clone + Send + 'static>(run: Call<S>, state: &S) -> usize {
    let mut state = state.clone();
    let thread = Builder::new().stack_size(THREAD_STACK).spawn(move || depth(run, &mut state));
    thread.expect("a thread starts").join().expect("the call returns")
}

#[inline(never)]
fn depth<S>(run: Call<S>, state: &mut S) -> usize {
    let mark = 0u8;
    let top = black_box(&mark) as *const u8 as usize;
    paint(top);
    black_box(run)(state);
    top - lowest_change(top)
}

fn paint(top: usize) {
    for at in top - PAINTED..top - MARGIN {
        // SAFETY: the thread's own stack, below every frame in use.
        unsafe { ptr::write_volatile(at as *mut u8, PAINT) };
    }
}

/// The lowest place whose paint is gone.
fn lowest_change(top: usize) -> usize {
    // SAFETY: as in `paint`, which has written these bytes.
    let painted = |at: &usize| unsafe { ptr::read_volatile(*at as *const u8) } == PAINT;
    (top - PAINTED..top - MARGIN).find(|at| !painted(at)).unwrap_or(top - MARGIN)
}
