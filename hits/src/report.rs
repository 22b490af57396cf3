//! A tally as lines, and in words.
use crate::figures::{grouped, per_cent, several};
use pagepool::{Share, Tally, DEPTHS};
use std::fmt::Write;

/// A line for each depth from 1 to 4,095: its references, and the hits of a cache of as many frames.
pub fn depths(tally: &Tally) -> String {
    let mut lines = String::new();
    for row in tally.report() {
        let _ = writeln!(lines, "depth {} {} {}", row.depth, row.references, row.hits);
    }
    lines
}

/// A line for each size: the hits of a cache of so many frames, all references, and the one of the other in per cent.
pub fn shares(tally: &Tally, sizes: &[u64]) -> String {
    let mut lines = String::new();
    for size in sizes {
        let Share { within, all } = tally.share(*size);
        let _ = writeln!(lines, "size {size} {within} {all} {}", per_cent(within, all));
    }
    lines
}

/// What was read, and from which size on more frames hit no more.
pub fn summary(tally: &Tally) -> [String; 2] {
    let Share { within, all } = tally.share(DEPTHS as u64);
    let read = format!(
        "{}, {}; first references, which never hit: {}",
        several(tally.recordings(), "recording"),
        several(all, "reference"),
        grouped(all - within),
    );
    let level = match level(tally) {
        0 => "no page comes twice in its recording, so that no cache hits".to_string(),
        level => format!(
            "the largest depth is {}: from {} on a cache hits {} of {}, {}",
            grouped(level),
            several(level, "frame"),
            grouped(within),
            several(all, "reference"),
            per_cent(within, all),
        ),
    };
    [read, level]
}

/// The largest depth that a reference has, 0 where none has one: from so many frames on all caches hit alike.
pub fn level(tally: &Tally) -> u16 {
    tally.report().iter().filter(|row| row.references > 0).map(|row| row.depth).max().unwrap_or(0)
}
