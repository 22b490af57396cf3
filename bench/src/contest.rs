//! The forms of counting depths against each other, on the recordings that add is timed on; and those of the directory's test, on
//! states that calls are timed on.
use crate::tallies::{added, Added};
use crate::timing::{deeper, repeat, Race};
use pagepool::DEPTHS;
use pool_bench::chains::{self, Lent};
use pool_bench::forms::{Counts, FORMS};
use pool_bench::shapes::{sharing, Shape};
use std::hint::black_box;

const FORM_COUNT: usize = FORMS.len();

/// What is counted, and the nanoseconds that each form takes.
pub struct Figure {
    pub added: Added,
    pub times: [f64; FORM_COUNT],
}

/// Counters, and the recordings that are counted, of which one is the next.
struct State {
    counts: Box<Counts>,
    recordings: Vec<Vec<u16>>,
    next: usize,
}

fn race(added: Added) -> Race<State, FORM_COUNT> {
    let state = State { counts: Box::new([0; DEPTHS]), recordings: added.recordings(), next: 0 };
    let variants = FORMS.map(|form| {
        repeat(move |s: &mut State| {
            (form.count)(&mut s.counts, &s.recordings[s.next]);
            s.next = (s.next + 1) % s.recordings.len();
            black_box(&s.counts);
        })
    });
    Race::new(state, |now| now.counts.fill(0), variants)
}

/// All rows, timed in so many passes.
pub fn measured(passes: u32) -> Vec<Figure> {
    let mut rows: Vec<(Added, Race<State, FORM_COUNT>)> =
        added().into_iter().map(|added| (added, race(added))).collect();
    for pass in 0..passes {
        deeper(pass, &mut || rows.iter_mut().for_each(|(_, race)| race.pass()));
    }
    rows.iter().map(|(added, race)| Figure { added: *added, times: race.times() }).collect()
}

const CHAIN_FORMS: usize = chains::FORMS.len();

/// A state, and the nanoseconds that each form of the directory's test takes on it.
pub struct Tested {
    pub shape: Shape,
    pub count: usize,
    pub pages: usize,
    pub times: [f64; CHAIN_FORMS],
}

/// One page to a chain, the root alone, four pages to a chain, and all in one.
fn states() -> impl Iterator<Item = (Shape, usize, usize)> {
    let sizes = |shape| [4, 16, 64].map(|count| (shape, count, 256));
    [Shape::Full, Shape::Opened].into_iter().flat_map(sizes).chain(sharing())
}

fn chain_race((shape, count, pages): (Shape, usize, usize)) -> Race<Lent, CHAIN_FORMS> {
    let state = shape.state(count, pages);
    let variants =
        chains::FORMS.map(|form| repeat(move |lent: &mut Lent| assert!(black_box((form.agrees)(lent)))));
    Race::new(Lent::new(&state.records, state.directory), |_| (), variants)
}

/// The directory's test alone, timed in so many passes.
pub fn tested(passes: u32) -> Vec<Tested> {
    let mut rows: Vec<_> = states().map(|state| (state, chain_race(state))).collect();
    for pass in 0..passes {
        deeper(pass, &mut || rows.iter_mut().for_each(|(_, race)| race.pass()));
    }
    let tested = rows.iter().map(|((shape, count, pages), race)| Tested {
        shape: *shape,
        count: *count,
        pages: *pages,
        times: race.times(),
    });
    tested.collect()
}
