//! Variants of a call, timed in turn.
use std::hint::black_box;
use std::time::{Duration, Instant};

/// Makes a call so many times, on what it is lent.
pub type Variant<S> = Box<dyn Fn(&mut S, u32)>;

pub fn repeat<S>(step: impl Fn(&mut S) + 'static) -> Variant<S> {
    Box::new(move |state, calls| {
        for _ in 0..calls {
            step(black_box(state));
        }
    })
}

/// Batches of each variant in a pass.
const BATCHES: u32 = 100;
const BATCH: Duration = Duration::from_micros(30);
/// So that a batch of pins or unpins stays within their range, and one of recordings within a tally's.
const MOST_CALLS: u32 = 30_000;

/// A row being timed: the least of the batches so far of each variant, every batch from the same state.
pub struct Race<S, const N: usize> {
    now: S,
    restore: Box<dyn Fn(&mut S)>,
    variants: [Variant<S>; N],
    calls: u32,
    least: [Duration; N],
}

impl<S, const N: usize> Race<S, N> {
    /// `restore` puts back, before a batch, what the calls of the one before have altered. A batch has as many calls as the first
    /// variant makes in its time.
    pub fn new(mut now: S, restore: impl Fn(&mut S) + 'static, variants: [Variant<S>; N]) -> Race<S, N> {
        let calls = calls_of_a_batch(&variants[0], &mut now);
        Race { now, restore: Box::new(restore), variants, calls, least: [Duration::MAX; N] }
    }

    /// More batches, one of each variant in turn.
    pub fn pass(&mut self) {
        for _ in 0..BATCHES {
            for (variant, least) in self.variants.iter().zip(&mut self.least) {
                (self.restore)(&mut self.now);
                *least = batch(variant, &mut self.now, self.calls).min(*least);
            }
        }
    }

    /// Nanoseconds a call, by variant.
    pub fn times(&self) -> [f64; N] {
        self.least.map(|least| least.as_secs_f64() * 1e9 / f64::from(self.calls))
    }
}

/// As many calls as a variant makes in a batch's time, by the least of a few trials.
fn calls_of_a_batch<S>(variant: &Variant<S>, state: &mut S) -> u32 {
    let mut least = |calls| (0..10).map(|_| batch(variant, state, calls)).min().unwrap_or_default();
    if least(1) > BATCH {
        return 1;
    }
    let calls = (100 * BATCH.as_nanos() / least(100).as_nanos().max(1)) as u32;
    calls.clamp(1, MOST_CALLS)
}

/// Runs something some levels of stack deeper, so that passes differ in where arguments and answers lie in a cache line.
pub fn deeper(levels: u32, run: &mut dyn FnMut()) {
    let room = black_box([0u8; 16]);
    match levels {
        0 => run(),
        _ => deeper(levels - 1, run),
    }
    black_box(&room);
}

fn batch<S>(variant: &Variant<S>, state: &mut S, calls: u32) -> Duration {
    let start = Instant::now();
    variant(state, calls);
    start.elapsed()
}
