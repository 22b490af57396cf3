//! Records that are drawn, request A.10: their ranges, and what they show.
use super::workload::{undone, LINK};
use super::{is_root, occupied};
use crate::ensure;
use crate::pool::Refusal;
use crate::records::{Entry, FrameIndex, Generator, State, LEAST_FRAMES};
use std::collections::BTreeSet;

/// What a draw met, or what its record has.
#[derive(Clone, Copy, Debug, PartialEq, Eq, PartialOrd, Ord)]
pub enum Drawing {
    Refused(Refusal),
    /// By a generator of number 0.
    FromZero,
    Call(u8),
    /// The highest of its range.
    LastFrame,
    LastPage,
    LastSlot,
    LastOffset,
    /// A link with the frame of a root, of another page, or of none.
    LinkToRoot,
    LinkToOther,
    LinkToNone,
    /// On a pool with the least F, or one above 8.
    LeastFrames,
    ManyFrames,
    /// On a pool with the least N, or one above 64.
    OnePage,
    ManyPages,
    /// A link whose handle's page takes two bytes: in large pools alone.
    LinkToHighPage,
}

impl Drawing {
    /// What is shown in pools of any size.
    pub const ALL: [Drawing; 23] = [
        Drawing::Refused(1),
        Drawing::Refused(2),
        Drawing::FromZero,
        Drawing::Call(1),
        Drawing::Call(2),
        Drawing::Call(3),
        Drawing::Call(4),
        Drawing::Call(5),
        Drawing::Call(6),
        Drawing::Call(7),
        Drawing::Call(8),
        Drawing::Call(9),
        Drawing::LastFrame,
        Drawing::LastPage,
        Drawing::LastSlot,
        Drawing::LastOffset,
        Drawing::LinkToRoot,
        Drawing::LinkToOther,
        Drawing::LinkToNone,
        Drawing::LeastFrames,
        Drawing::ManyFrames,
        Drawing::OnePage,
        Drawing::ManyPages,
    ];
}

/// "Every record lies in its ranges", and the generator's number before it is the one that its five draws are undone to. Refused,
/// by 1 or 2, the generator stays. Gives what the draw shows.
pub fn compare(
    state: &State,
    (before, after): (Generator, Generator),
    answer: Result<Entry, Refusal>,
) -> Result<BTreeSet<Drawing>, String> {
    let entry = match answer {
        Ok(entry) => entry,
        Err(number) => {
            ensure!(number == 1 || number == 2, "a draw is refused by {number}");
            ensure!(after == before, "{before:?} is {after:?} after refusal {number}");
            return Ok(BTreeSet::from([Drawing::Refused(number)]));
        }
    };
    ensure!(in_ranges(state, &entry), "{entry:?} is out of its ranges, on {:?}", state.pool);
    let earlier = (0..5).fold(after.number, |number, _| undone(number));
    ensure!(earlier == before.number, "{after:?} was {earlier} five draws before, not {before:?}");
    Ok(shown(state, before, &entry))
}

/// The two bytes of a page number.
fn page_at(entry: &Entry, at: usize) -> u16 {
    u16::from_le_bytes([entry[at], entry[at + 1]])
}

/// Each byte of a record lies in its range. The data of a link are its handle's page, and no other call has any.
fn in_ranges(state: &State, entry: &Entry) -> bool {
    let parent = page_at(entry, 7);
    (1..=9).contains(&entry[0])
        && u16::from(entry[1]) < state.pool.count
        && page_at(entry, 2) < state.pool.pages
        && entry[4] <= 15
        && entry[5] <= 192
        && entry[6] == 0
        && if entry[0] == LINK { parent < state.pool.pages } else { parent == 0 }
        && entry[9..] == [0; 7]
}

/// What the record of an accepted draw shows.
fn shown(state: &State, before: Generator, entry: &Entry) -> BTreeSet<Drawing> {
    let (count, pages) = (state.pool.count, state.pool.pages);
    let mut shown = BTreeSet::from([Drawing::Call(entry[0])]);
    shown.extend((before.number == 0).then_some(Drawing::FromZero));
    shown.extend((u16::from(entry[1]) == count - 1).then_some(Drawing::LastFrame));
    shown.extend((page_at(entry, 2) == pages - 1).then_some(Drawing::LastPage));
    shown.extend((entry[4] == 15).then_some(Drawing::LastSlot));
    shown.extend((entry[5] == 192).then_some(Drawing::LastOffset));
    shown.extend((usize::from(count) == LEAST_FRAMES).then_some(Drawing::LeastFrames));
    shown.extend((count > 8).then_some(Drawing::ManyFrames));
    shown.extend((pages == 1).then_some(Drawing::OnePage));
    shown.extend((pages > 64).then_some(Drawing::ManyPages));
    if entry[0] == LINK {
        shown.insert(linked(state, FrameIndex(entry[1])));
        shown.extend((entry[8] > 0).then_some(Drawing::LinkToHighPage));
    }
    shown
}

/// Whose frame a link's is.
fn linked(state: &State, frame: FrameIndex) -> Drawing {
    if is_root(&state.pool, frame) {
        Drawing::LinkToRoot
    } else if occupied(&state.pool).any(|other| other == frame) {
        Drawing::LinkToOther
    } else {
        Drawing::LinkToNone
    }
}
