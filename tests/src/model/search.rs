//! Pages that are sought in the directory, request A.3: what find and peek answer by the frames alone, and find's count by the
//! bytes of the page's chain.
use super::directory::{bucket_of, byte_after, residents};
use super::rules;
use crate::calls::Answer;
use crate::ensure;
use crate::pool::{Buffer, Found};
use crate::records::{FrameIndex, Page, State, PAGE_SIZE, PAYLOAD_SIZE, PAYLOAD_START};

/// What a find met in the page's chain.
#[derive(Clone, Copy, Debug, PartialEq, Eq, PartialOrd, Ord)]
pub enum Met {
    /// The page's entry alone.
    Alone,
    /// The page's entry, first, second or later, with others in its chain.
    First,
    Second,
    Later,
    /// The page's entry, the last of three or more.
    LastOfMany,
    /// Not the page's entry: none at all, or those of one, two or more other pages.
    Nothing,
    OneOther,
    TwoOthers,
    MoreOthers,
}

impl Met {
    pub const ALL: [Met; 9] = [
        Met::Alone,
        Met::First,
        Met::Second,
        Met::Later,
        Met::LastOfMany,
        Met::Nothing,
        Met::OneOther,
        Met::TwoOthers,
        Met::MoreOthers,
    ];
}

/// The frames that hold a page by the records, and by no directory.
fn holders(state: &State, page: Page) -> Vec<FrameIndex> {
    state.occupied().filter(|(_, record)| Page::from(*record) == page).map(|(frame, _)| frame).collect()
}

/// The one frame that holds a page.
pub fn holder(state: &State, page: Page) -> Result<Option<FrameIndex>, String> {
    let holders = holders(state, page);
    ensure!(holders.len() <= 1, "\"A page sits in one frame at most\", and {page} in {holders:?}");
    Ok(holders.first().copied())
}

/// Whether a find or a peek breaks a rule, by whose number it is then refused.
fn refused(state: &State, page: Page, answer: &Answer) -> Result<bool, String> {
    let kept = rules::state(state)
        .and_then(|()| rules::store(&state.pool, page.store))
        .and_then(|()| rules::page(&state.pool, page.number));
    let Err(number) = kept else { return Ok(false) };
    ensure!(*answer == Answer::Refused(number), "{answer:?}, and by the frames refused by {number}");
    Ok(true)
}

/// Find "agrees with the frames", and its count is the place of the entry, or the number of resident pages with that remainder,
/// which it is "never above". Gives what it met unless it is refused. That it leaves all as it was, `lockstep` compares.
pub fn compare_find(state: &State, page: Page, answer: &Answer) -> Result<Option<Met>, String> {
    if refused(state, page, answer)? {
        return Ok(None);
    }
    let Answer::Found(found) = *answer else {
        return Err(format!("{answer:?}, where no rule is broken"));
    };
    check(state, page, found).map(Some)
}

/// The same for an accepted find.
pub fn check(state: &State, page: Page, found: Found) -> Result<Met, String> {
    let holder = holder(state, page)?;
    ensure!(found.frame == holder, "page {page} found at {:?}, and in frame {holder:?}", found.frame);
    let sharing = residents(&state.pool, bucket_of(page.number)).len() as u16;
    let compared = found.compared;
    ensure!(compared <= sharing, "{compared} compared for {page}, of {sharing} with its remainder");
    match holder {
        Some(frame) => {
            let there = nth(state, page, compared);
            ensure!(there == Some(frame), "{page} in frame {frame}, and entry {compared} is {there:?}");
        }
        None => {
            ensure!(compared == sharing, "{compared} compared for {page}, which is absent, not {sharing}")
        }
    }
    Ok(met(found, sharing))
}

/// The frame of the so-manyth entry in a page's chain: byte by byte.
fn nth(state: &State, page: Page, place: u16) -> Option<FrameIndex> {
    let first = state.directory.get(bucket_of(page.number))?.checked_sub(1).map(FrameIndex)?;
    (1..place)
        .try_fold(first, |frame, _| state.directory.get(byte_after(frame))?.checked_sub(1).map(FrameIndex))
}

fn met(found: Found, sharing: u16) -> Met {
    match (found.frame.is_some(), found.compared) {
        (true, _) if sharing == 1 => Met::Alone,
        (true, 1) => Met::First,
        (true, place) if place >= 3 && place == sharing => Met::LastOfMany,
        (true, 2) => Met::Second,
        (true, _) => Met::Later,
        (false, 0) => Met::Nothing,
        (false, 1) => Met::OneOther,
        (false, 2) => Met::TwoOthers,
        (false, _) => Met::MoreOthers,
    }
}

/// Peek's payload is the frame's where a record has the page, and otherwise the store's.
pub fn compare_peek(state: &State, page: Page, answer: &Answer) -> Result<(), String> {
    if refused(state, page, answer)? {
        return Ok(());
    }
    let Answer::Place(place) = *answer else {
        return Err(format!("{answer:?}, where no rule is broken"));
    };
    let (buffer, index) = match holder(state, page)? {
        Some(frame) => (Buffer::Frames, usize::from(frame)),
        None => (Buffer::Store, page.place(state.pool.pages)),
    };
    let wanted = (buffer, PAGE_SIZE * index + PAYLOAD_START, PAYLOAD_SIZE);
    ensure!((place.buffer, place.start, place.size) == wanted, "{place:?}, and by the frames {wanted:?}");
    Ok(())
}
