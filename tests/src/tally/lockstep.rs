//! One call on the machine under test, through the package and on the model, from the same tally.
use super::kinds::{self, Met};
use super::model::{Model, DEPTHS};
use super::{cache, Counting, Share, Tally, UnderTest};
use crate::ensure;
use crate::pool::Refusal;
use std::fmt;

#[derive(Clone, PartialEq, Eq)]
pub enum Call {
    Add(Vec<u16>),
    Share(u64),
    /// With so many numbers lent for the hits.
    Report(usize),
}

/// The names of the calls, in the order of `Call::index`.
pub const NAMES: [&str; 3] = ["add", "share", "report"];

#[derive(Clone, Debug, PartialEq, Eq)]
pub enum Answer {
    Refused(Refusal),
    Added,
    Share(Share),
    /// By depth from 1 on, the references at or below it.
    Hits(Vec<u64>),
}

/// What stands in a report's numbers before it.
const UNTOUCHED: u64 = 0xa5a5_a5a5_a5a5_a5a5;

impl Answer {
    /// The refusal's number, 0 if accepted.
    pub fn number(&self) -> Refusal {
        match self {
            Answer::Refused(number) => *number,
            _ => 0,
        }
    }
}

impl Call {
    pub fn index(&self) -> usize {
        match self {
            Call::Add(_) => 0,
            Call::Share(_) => 1,
            Call::Report(_) => 2,
        }
    }

    /// Makes the call. A refused report must leave the numbers that it is lent as they were.
    fn make(&self, machine: &dyn Counting, tally: &mut Tally) -> Result<Answer, String> {
        let answer = match self {
            Call::Add(pages) => machine.add(tally, pages).map(|()| Answer::Added),
            Call::Share(size) => machine.share(tally, *size).map(Answer::Share),
            Call::Report(length) => {
                let mut hits = vec![UNTOUCHED; *length];
                let reported = machine.report(tally, &mut hits);
                let untouched = hits.iter().all(|number| *number == UNTOUCHED);
                ensure!(reported.is_ok() || untouched, "{self:?}, {reported:?}, changes the hits");
                reported.map(|()| Answer::Hits(hits))
            }
        };
        Ok(answer.unwrap_or_else(Answer::Refused))
    }
}

/// A recording by its length and its first pages.
impl fmt::Debug for Call {
    fn fmt(&self, f: &mut fmt::Formatter) -> fmt::Result {
        match self {
            Call::Add(pages) => {
                let (first, more) =
                    (&pages[..pages.len().min(80)], if pages.len() > 80 { ", .." } else { "" });
                write!(f, "add of {} pages, {first:?}{more}", pages.len())
            }
            Call::Share(size) => write!(f, "share at {size}"),
            Call::Report(length) => write!(f, "report into {length} numbers"),
        }
    }
}

/// The machine under test, and beside it the library through the package.
fn machines() -> Vec<(&'static str, &'static dyn Counting)> {
    vec![
        ("", &UnderTest),
        #[cfg(feature = "host")]
        ("by the package's functions, ", &super::package::Functions),
        #[cfg(feature = "host")]
        ("by the package's struct, ", &super::package::Struct),
    ]
}

/// All must answer and leave the same, a refused call must leave all as found, and what the request says of every recording must
/// hold of one that is added.
pub fn step(tally: &mut Tally, call: &Call, met: &mut Met) -> Result<Answer, String> {
    let before = tally.clone();
    let mut expected = before.clone();
    let wanted = call.make(&Model, &mut expected)?;
    for (way, machine) in machines() {
        *tally = before.clone();
        let answer = call.make(machine, tally).map_err(|fault| format!("{way}{fault}, on {before:?}"))?;
        ensure!(answer == wanted, "{way}{call:?}: {}, on {before:?}", difference(&answer, &wanted));
        if let Some(difference) = tally.difference(&expected) {
            return Err(format!("{way}{call:?} leaves other {difference}, on {before:?}"));
        }
        ensure!(wanted.number() == 0 || *tally == before, "{way}{call:?}, {wanted:?}, changes {before:?}");
        if let Answer::Hits(hits) = &answer {
            reported(&before, hits).map_err(|fault| format!("{way}{fault}, on {before:?}"))?;
        }
    }
    if let (Call::Add(pages), Answer::Added) = (call, &wanted) {
        added(&before, tally, pages).map_err(|fault| format!("{call:?}: {fault}, on {before:?}"))?;
    }
    met.count(NAMES[call.index()], wanted.number(), kinds::shown((&before, tally), call, &wanted));
    Ok(wanted)
}

/// Where two answers differ first.
fn difference(answer: &Answer, wanted: &Answer) -> String {
    if let (Answer::Hits(hits), Answer::Hits(others)) = (answer, wanted) {
        let place = hits.iter().zip(others).position(|(a, b)| a != b).unwrap_or(hits.len().min(others.len()));
        return format!("hits[{place}] is {:?}, not {:?}", hits.get(place), others.get(place));
    }
    format!("{answer:?}, not {wanted:?}")
}

/// Sizes of a cache.
const SIZES: [u64; 15] = [0, 1, 2, 3, 5, 8, 16, 64, 100, 1000, 2048, 4094, 4095, 4096, 100_000];

/// Recordings up to this length are asked about caches of every size up to it, and two more.
const SHORT: usize = 70;

/// Those, rising, that a recording is asked about.
fn sizes(pages: &[u16]) -> Vec<u64> {
    let mut sizes = SIZES.to_vec();
    if pages.len() <= SHORT {
        sizes.extend(0..=pages.len() as u64 + 2);
    }
    sizes.sort_unstable();
    sizes.dedup();
    sizes
}

/// "For every size f, a flat cache of f pages .. has exactly as many hits as there are depths up to f": what a recording adds to
/// the share at a size is a cache's hits over it, and its length.
fn added(before: &Tally, after: &Tally, pages: &[u16]) -> Result<(), String> {
    let sizes = sizes(pages);
    let share =
        |tally, size| UnderTest.share(tally, size).map_err(|number| format!("share is refused by {number}"));
    for (size, hits) in sizes.iter().zip(cache::hits(&sizes, pages)?) {
        let (old, new) = (share(before, *size)?, share(after, *size)?);
        let gained = new.within.checked_sub(old.within);
        ensure!(
            gained == Some(hits),
            "a cache of {size} pages has {hits} hits, and the share gains {gained:?}"
        );
        let gained = new.all.checked_sub(old.all);
        ensure!(gained == Some(pages.len() as u64), "{} references, and all gain {gained:?}", pages.len());
    }
    Ok(())
}

/// "Report each depth from 1 to 4,095, rising, with its number of references, 0 included": the hits of the depths grow by those
/// numbers, and are the share at each.
fn reported(tally: &Tally, hits: &[u64]) -> Result<(), String> {
    ensure!(hits.len() == DEPTHS, "a report of {} depths", hits.len());
    let mut smaller = 0;
    for ((depth, hits), references) in (1..).zip(hits).zip(&tally.counts) {
        let gained = hits.checked_sub(smaller);
        ensure!(
            gained == Some(u64::from(*references)),
            "{references} references of depth {depth}, not {gained:?}"
        );
        smaller = *hits;
        if SIZES.contains(&depth) {
            let share = UnderTest.share(tally, depth).map(|share| share.within);
            ensure!(share == Ok(*hits), "{hits} hits at {depth}, and the share is {share:?}");
        }
    }
    Ok(())
}
