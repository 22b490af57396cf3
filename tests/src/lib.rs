//! A naive model of documents 01 and 02, the plain maps of demand 3, and what drives them against the pool.
//!
//! - `records`, `pool`, `calls`: the pool's data, its thirteen calls and the draw of a record as a trait, a call as a value.
//! - `model`, `host`, `package`, `held`: the machines, document 01 as a program, the linked library, and that through its wrappers,
//!   as functions and as a pool's methods.
//! - `lockstep`: one call on the machine under test, the wrappers and the model; `history` adds `plain`, the plain map.
//! - `stores`, `steer`, `draws`, `damage`, `coverage`: what is called and drawn on what, and how often it was met.
//! - `trial`: a pool for a single case; `listing`: the call that a record makes, and its line.
//! - `tally`: request A.12's tally, which knows no pool, with a model and machines of its own.
//! - `runs`: long runs of lists of calls.
pub mod calls;
pub mod coverage;
pub mod damage;
pub mod draws;
#[cfg(feature = "host")]
pub mod held;
pub mod history;
#[cfg(feature = "host")]
pub mod host;
pub mod listing;
pub mod lockstep;
pub mod model;
#[cfg(feature = "host")]
pub mod package;
pub mod plain;
pub mod pool;
pub mod records;
pub mod runs;
pub mod steer;
pub mod stores;
pub mod tally;
pub mod trial;

/// A number from the environment, where it is set.
pub fn setting(name: &str, otherwise: u64) -> u64 {
    std::env::var(name).map_or(otherwise, |value| value.parse().expect(name))
}

/// Gives back the message as an error unless the condition holds.
#[macro_export]
macro_rules! ensure {
    ($condition:expr, $($message:tt)+) => {
        if !$condition {
            return Err(format!($($message)+));
        }
    };
}
