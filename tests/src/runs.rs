//! Long runs of lists of calls, each list by a generator of its own.
//!
//! POOL_SEED chooses other lists, POOL_SOAK makes so many times more. A run of more than a minute says each minute where it is.
use crate::setting;
use random::Random;
use std::fmt::Display;
use std::io::{stderr, Write};
use std::time::{Duration, Instant};

/// What the lists of a run met, shown at its end.
pub trait Tells: Default + Display {
    fn calls(&self) -> u64;
}

/// Says something on standard error at once, which a test's output is kept from.
fn say(text: String) {
    writeln!(stderr(), "{text}").expect("standard error");
}

/// Runs a test's lists, and shows what they met.
pub fn run<M: Tells>(name: &str, lists: u64, list: impl Fn(&mut Random, &mut M) -> Result<(), String>) -> M {
    let seed = setting("POOL_SEED", 1);
    let mut met = M::default();
    let lists = lists * setting("POOL_SOAK", 1);
    let mut minute = Instant::now();
    for number in 0..lists {
        if minute.elapsed() >= Duration::from_secs(60) {
            minute = Instant::now();
            say(format!("{name}: {number} of {lists} lists, {} calls", met.calls()));
        }
        let mut random = Random::new((seed << 32) + number);
        if let Err(fault) = list(&mut random, &mut met) {
            panic!("{name}, seed {seed}, list {number}: {fault}");
        }
    }
    say(format!("\n{name}:\n{met}"));
    met
}
