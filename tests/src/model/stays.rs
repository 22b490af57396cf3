//! Resident pages that evict refuses, request A.4.
use super::{frame_of, is_root, moves, occupied, rules};
use crate::ensure;
use crate::pool::Refusal;
use crate::records::{FrameIndex, Page, State};

/// Why a resident page stays in its frame. A parent is a page with a resident child, a leaf has none.
#[derive(Clone, Copy, Debug, PartialEq, Eq, PartialOrd, Ord)]
pub enum Stay {
    LeafRoot,
    PinnedLeafRoot,
    ParentRoot,
    PinnedParentRoot,
    PinnedLeaf,
    PinnedParent,
    Parent,
}

impl Stay {
    pub const ALL: [Stay; 7] = [
        Stay::LeafRoot,
        Stay::PinnedLeafRoot,
        Stay::ParentRoot,
        Stay::PinnedParentRoot,
        Stay::PinnedLeaf,
        Stay::PinnedParent,
        Stay::Parent,
    ];

    /// "20: the root; 21: pinned; 22: a swizzled word; in this order"
    fn number(self) -> Refusal {
        match self {
            Stay::LeafRoot | Stay::PinnedLeafRoot | Stay::ParentRoot | Stay::PinnedParentRoot => 20,
            Stay::PinnedLeaf | Stay::PinnedParent => 21,
            Stay::Parent => 22,
        }
    }
}

/// Where no rule before them is broken, evict answers 20, 21 or 22 exactly where a look of the sweep passes the frame over, and
/// otherwise is accepted. Gives why the page stays.
pub fn compare(state: &State, page: Page, answer: Refusal) -> Result<Option<Stay>, String> {
    let frame = match resident(state, page) {
        Ok(frame) => frame,
        Err(number) => {
            ensure!(answer == number, "evict answers {answer}, and a rule before says {number}");
            return Ok(None);
        }
    };
    let (stay, passed_over) = (stay(state, frame), !moves::evictable(state, frame));
    ensure!(stay.is_some() == passed_over, "{stay:?}, and a look passes it over: {passed_over}");
    let wanted = stay.map_or(0, Stay::number);
    ensure!(answer == wanted, "evict answers {answer} and not {wanted}, {stay:?}");
    Ok(stay)
}

/// The page's frame, by the rules before 20.
fn resident(state: &State, page: Page) -> Result<FrameIndex, Refusal> {
    rules::state(state)?;
    rules::store(&state.pool, page.store)?;
    rules::page(&state.pool, page.number)?;
    frame_of(&state.pool, page).ok_or(11)
}

/// Why the page in a frame stays, by the records alone: it is a parent where another's record says so.
pub fn stay(state: &State, frame: FrameIndex) -> Option<Stay> {
    let mut children = occupied(&state.pool).filter(|child| !is_root(&state.pool, *child));
    let parent = children.any(|child| state.pool.record(child).parent == frame);
    match (is_root(&state.pool, frame), state.pool.record(frame).pins > 0, parent) {
        (true, false, false) => Some(Stay::LeafRoot),
        (true, true, false) => Some(Stay::PinnedLeafRoot),
        (true, false, true) => Some(Stay::ParentRoot),
        (true, true, true) => Some(Stay::PinnedParentRoot),
        (false, true, false) => Some(Stay::PinnedLeaf),
        (false, true, true) => Some(Stay::PinnedParent),
        (false, false, true) => Some(Stay::Parent),
        (false, false, false) => None,
    }
}
