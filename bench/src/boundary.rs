//! The copies of the records at the boundary, alone: functions that pass and answer them as the exported calls do.
use pagepool::raw::{Done, Found};
use pagepool::{FrameIndex, Pool};
use pool_bench::shapes::State;
use std::hint::black_box;

extern "C" fn done(pool: Pool) -> Done {
    Done { refusal: 0, pool }
}

extern "C" fn found(_: Pool) -> Found {
    Found { refusal: 0, present: false, frame: FrameIndex(0), compared: 0 }
}

extern "C" fn opened() -> Done {
    Done { refusal: 0, pool: Pool::ZERO }
}

/// By value in, and in the answer out.
pub fn in_and_out(state: &mut State) {
    let call: extern "C" fn(Pool) -> Done = black_box(done);
    state.records = call(state.records).pool;
}

/// By value in.
pub fn only_in(state: &mut State) {
    let call: extern "C" fn(Pool) -> Found = black_box(found);
    black_box(call(state.records));
}

/// In the answer out.
pub fn only_out(state: &mut State) {
    let call: extern "C" fn() -> Done = black_box(opened);
    state.records = call().pool;
}
