//! Locked pages, request A.8: edits by what they would answer without rule 26, and marks as they are carried.
use super::agreement::agree;
use super::rules::{self, rule};
use super::taken::{reached, words_of};
use super::{frame_of, frame_word, held, is_root, occupied, page_in, read, unswizzled, Reading};
use crate::calls::{Answer, Call};
use crate::ensure;
use crate::pool::Refusal;
use crate::records::{
    is_marked, page_of, page_of_mut, put_word, unmarked, word_in, FrameIndex, Handle, Page, PageNumber, Pool,
    State, Stores, PAGE_SIZE, PAYLOAD_START, SLOTS,
};
use std::collections::BTreeSet;

/// Up to so many pages, refused stores are asked word by word for what refused them.
const SMALL_STORE: usize = 64;

/// What a call met of marks and of locked pages.
#[derive(Clone, Copy, Debug, PartialEq, Eq, PartialOrd, Ord)]
pub enum Lock {
    /// An edit of a locked page, by what it would answer if that weren't locked: 3 where its handle is stale, since it has no pins.
    Write(Refusal),
    Link(Refusal),
    Unlink(Refusal),
    /// Of these, a write of no bytes, a write of the bytes that stand there, a link of page 0, and of a page not below N.
    NoBytes,
    SameBytes,
    PageZero,
    PageBeyond,
    /// An accepted edit of a root, whose parent fields are those of a word that is marked.
    RootsFirstWord,
    /// An accepted edit of a page below a locked one, or above one.
    BelowLocked,
    AboveLocked,
    /// An accepted link with the mark, and an accepted unlink of a word that has it.
    MarkPut,
    MarkCleared,
    /// A link, with the mark or without, of a page that a marked word names, refused by 9: a swizzled one, a number of a resident
    /// page, or one in the store.
    NamedByFrame(bool),
    NamedByNumber(bool),
    NamedInStore(bool),
    /// A page that came in: a locked one, or one below a locked one.
    LockedCame,
    CameBelowLocked,
    /// A page that an evict took out, or a sweep.
    LockedEvicted,
    EvictedBelowLocked,
    LockedSwept,
    SweptBelowLocked,
    /// A dirty page with a marked number was written out as it left; a settle wrote one, or one with a marked swizzled word.
    WrittenNumber,
    SettledNumber,
    SettledFrame,
    /// A word that was shown with its mark.
    ShownNumber,
    ShownFrame,
    /// An accepted open of a store with a marked word: the root's first one, one out of the root's reach, one that names its own
    /// page.
    OpenedFirstWord,
    OpenedOutOfReach,
    OpenedSelf,
    /// Where `plain` goes along: a marked word still names a page after an open, and a page changed once its mark was gone.
    StoodOverOpen,
    ChangedUnmarked,
    /// A refusal by 2, 14 or 16 that a single word is the reason of: bit 30 alone, a marked number, a marked swizzled word.
    MarkAlone(Refusal),
    BadNumber(Refusal),
    BadFrame(Refusal),
    /// Bit 30 alone in an empty frame, which is free.
    MarkInEmptyFrame,
    /// A locked page that is dirty.
    DirtyLocked,
}

impl Lock {
    /// What a list can meet.
    pub const ALL: [Lock; 46] = [
        Lock::Write(0),
        Lock::Write(3),
        Lock::Write(5),
        Lock::Link(0),
        Lock::Link(3),
        Lock::Link(4),
        Lock::Link(6),
        Lock::Link(8),
        Lock::Link(9),
        Lock::Unlink(0),
        Lock::Unlink(3),
        Lock::Unlink(4),
        Lock::Unlink(7),
        Lock::Unlink(10),
        Lock::NoBytes,
        Lock::SameBytes,
        Lock::PageZero,
        Lock::PageBeyond,
        Lock::RootsFirstWord,
        Lock::BelowLocked,
        Lock::AboveLocked,
        Lock::MarkPut,
        Lock::MarkCleared,
        Lock::NamedByFrame(false),
        Lock::NamedByFrame(true),
        Lock::NamedByNumber(false),
        Lock::NamedByNumber(true),
        Lock::NamedInStore(false),
        Lock::NamedInStore(true),
        Lock::LockedCame,
        Lock::CameBelowLocked,
        Lock::LockedEvicted,
        Lock::EvictedBelowLocked,
        Lock::LockedSwept,
        Lock::SweptBelowLocked,
        Lock::WrittenNumber,
        Lock::SettledNumber,
        Lock::SettledFrame,
        Lock::ShownNumber,
        Lock::ShownFrame,
        Lock::OpenedFirstWord,
        Lock::OpenedOutOfReach,
        Lock::OpenedSelf,
        Lock::StoodOverOpen,
        Lock::ChangedUnmarked,
        Lock::MarkInEmptyFrame,
    ];

    /// What needs an alteration from outside. `BadNumber(16)` doesn't, since the store lags behind the map, but is rare without.
    pub const ALTERED: [Lock; 9] = [
        Lock::MarkAlone(2),
        Lock::MarkAlone(14),
        Lock::MarkAlone(16),
        Lock::BadNumber(2),
        Lock::BadNumber(14),
        Lock::BadFrame(2),
        Lock::BadFrame(14),
        Lock::BadFrame(16),
        Lock::DirtyLocked,
    ];
}

/// An edit is refused by 26 exactly where its page is locked and no rule before that is broken, and otherwise answers what it did
/// before the request. No call but open and the edits changes what a resident page's words name and mark. Gives what the call met.
pub fn compare(
    (before, after): (&State, &State),
    call: &Call,
    answer: &Answer,
) -> Result<BTreeSet<Lock>, String> {
    let mut met = BTreeSet::new();
    if let Call::Write(handle, ..) | Call::Link(handle, ..) | Call::Unlink(handle, _) = call {
        met.extend(edited(before, *handle, call, answer.number())?);
    }
    match (call, answer) {
        (Call::Open(stores), Answer::Refused(16)) => met.extend(unsound(before, *stores)),
        (Call::Open(_), Answer::Done) => met.extend(opened(after)),
        (Call::Root(_), Answer::Refused(2)) => met.extend(disagreeing(before)),
        (Call::Fix(handle, slot), Answer::Refused(14)) => met.extend(unloadable(before, *handle, *slot)),
        (Call::Link(handle, _, page, locked), Answer::Refused(9)) => {
            met.extend(namers(before, Page::from(*handle).beside(PageNumber(*page)), *locked));
        }
        (Call::Word(handle, slot), Answer::Named(named)) if named.locked => {
            let word = frame_word(&before.frames, handle.frame, *slot);
            let swizzled = matches!(read(word), Reading::Frame(_));
            met.insert(if swizzled { Lock::ShownFrame } else { Lock::ShownNumber });
        }
        _ => (),
    }
    if answer.accepted() && !matches!(call, Call::Open(_)) {
        carried(before, after, call)?;
        met.extend(moved(before, after, call));
        met.extend(standing(before));
        if *call == Call::Settle {
            met.extend(settled(before));
        }
    }
    Ok(met)
}

/// Whether the page in a frame is locked, by the records: the word that it was loaded for has the mark. There is none for a root,
/// though its parent fields are those of the first word of store 0's.
fn is_locked(state: &State, frame: FrameIndex) -> bool {
    let record = state.pool.record(frame);
    let marked = || is_marked(frame_word(&state.frames, record.parent, record.slot.into()));
    !is_root(&state.pool, frame) && marked()
}

/// What the rules of an edit say, all but 26.
fn without_26(state: &State, call: &Call) -> Result<(), Refusal> {
    rules::state(state)?;
    match call {
        Call::Write(handle, offset, bytes) => {
            rules::handle(&state.pool, *handle)?;
            rules::range(*offset, bytes.len())
        }
        Call::Link(handle, slot, page, _) => {
            rules::handle(&state.pool, *handle)?;
            rules::slot(*slot)?;
            rules::linked_page(&state.pool, PageNumber(*page))?;
            rules::unnamed(state, Page::from(*handle).beside(PageNumber(*page)))?;
            rule(8, frame_word(&state.frames, handle.frame, *slot) == 0)
        }
        Call::Unlink(handle, slot) => {
            rules::handle(&state.pool, *handle)?;
            rules::slot(*slot)?;
            let word = frame_word(&state.frames, handle.frame, *slot);
            rule(7, read(word) != Reading::Nothing)?;
            rule(10, !matches!(read(word), Reading::Frame(_)))
        }
        _ => Ok(()),
    }
}

/// Whether a handle's frame holds its page, pinned or not.
fn is_held(pool: &Pool, handle: Handle) -> bool {
    frame_of(pool, Page::from(handle)) == Some(handle.frame)
}

/// What an edit of a handle's page met.
fn edited(state: &State, handle: Handle, call: &Call, answer: Refusal) -> Result<Vec<Lock>, String> {
    let besides = without_26(state, call).err().unwrap_or(0);
    let tested = ![1, 2, 28].contains(&besides) && is_held(&state.pool, handle);
    let locked = tested && is_locked(state, handle.frame);
    let wanted = if locked && !(1..=5).contains(&besides) { 26 } else { besides };
    ensure!(answer == wanted, "{answer} and not {wanted}, locked: {locked}, and {besides} besides");
    Ok(match (locked, wanted) {
        (true, _) => of_locked(state, handle, call, besides),
        (false, 0) => of_unlocked(state, handle, call),
        _ => vec![],
    })
}

fn of_locked(state: &State, handle: Handle, call: &Call, besides: Refusal) -> Vec<Lock> {
    match call {
        Call::Write(_, offset, bytes) if besides == 0 => {
            let start = PAYLOAD_START + offset;
            let same = page_of(&state.frames, handle.frame.into())[start..start + bytes.len()] == bytes[..];
            let kind = match (bytes.is_empty(), same) {
                (true, _) => Some(Lock::NoBytes),
                (false, true) => Some(Lock::SameBytes),
                (false, false) => None,
            };
            [Lock::Write(0)].into_iter().chain(kind).collect()
        }
        Call::Write(..) => vec![Lock::Write(besides)],
        Call::Link(_, _, page, _) if besides == 6 => {
            vec![Lock::Link(6), if *page == 0 { Lock::PageZero } else { Lock::PageBeyond }]
        }
        Call::Link(..) => vec![Lock::Link(besides)],
        _ => vec![Lock::Unlink(besides)],
    }
}

/// What an accepted edit met.
fn of_unlocked(state: &State, handle: Handle, call: &Call) -> Vec<Lock> {
    let (first, root) = (FrameIndex(0), is_root(&state.pool, handle.frame));
    let (record, word) =
        (state.pool.record(handle.frame), |slot| frame_word(&state.frames, handle.frame, slot));
    let kind = match call {
        Call::Link(.., true) => Some(Lock::MarkPut),
        Call::Unlink(_, slot) if is_marked(word(*slot)) => Some(Lock::MarkCleared),
        _ => None,
    };
    let mut met: Vec<Lock> = kind.into_iter().collect();
    let marked = is_marked(frame_word(&state.frames, first, 0));
    met.extend((root && marked).then_some(Lock::RootsFirstWord));
    met.extend((!root && is_locked(state, record.parent)).then_some(Lock::BelowLocked));
    met.extend((0..SLOTS).any(|slot| is_marked(word(slot))).then_some(Lock::AboveLocked));
    met
}

/// The marked words that name the page of a link, which has the mark or not.
fn namers(state: &State, page: Page, locked: bool) -> Vec<Lock> {
    let number = u32::from(page.number);
    let names_it = |word: u32| is_marked(word) && unmarked(unswizzled(&state.pool, word)) == number;
    let resident = held(&state.pool, page.store)
        .flat_map(|frame| (0..SLOTS).map(move |slot| frame_word(&state.frames, frame, slot)))
        .filter(|word| names_it(*word));
    let mut met: Vec<Lock> = resident
        .map(|word| match read(word) {
            Reading::Frame(_) => Lock::NamedByFrame(locked),
            _ => Lock::NamedByNumber(locked),
        })
        .collect();
    let others = (0..state.pool.pages).map(|other| page.beside(PageNumber(other)));
    let mut stored = others.filter(|other| frame_of(&state.pool, *other).is_none());
    let in_store =
        stored.any(|other| words_of(state, other).any(|word| is_marked(word) && unmarked(word) == number));
    met.extend(in_store.then_some(Lock::NamedInStore(locked)));
    met
}

/// "Loading, eviction, settling .. carry it": the image of a page that is resident before and after names and marks what it did,
/// unless it is edited. A page that comes in has its stored words, and one that leaves dirty leaves those of its image.
fn carried(before: &State, after: &State, call: &Call) -> Result<(), String> {
    let edited = match call {
        Call::Link(handle, ..) | Call::Unlink(handle, _) => Some(Page::from(*handle)),
        _ => None,
    };
    for page in all_pages(before) {
        let (was, is) = (frame_of(&before.pool, page), frame_of(&after.pool, page));
        let dirty = was.is_some_and(|frame| before.pool.record(frame).is_dirty());
        let written = was.is_none() || is.is_some() || dirty;
        if (was.is_some() || is.is_some()) && written && edited != Some(page) {
            ensure!(words_of(before, page).eq(words_of(after, page)), "other words in page {page}");
        }
    }
    Ok(())
}

/// The pages of all stores.
fn all_pages(state: &State) -> impl Iterator<Item = Page> + '_ {
    let numbers =
        move |store| (0..state.pool.pages).map(move |number| Page { store, number: PageNumber(number) });
    state.store_numbers().flat_map(numbers)
}

/// Whether a page has a marked word of a kind.
fn has_marked(state: &State, frame: FrameIndex, is_it: fn(Reading) -> bool) -> bool {
    let words = (0..SLOTS).map(|slot| frame_word(&state.frames, frame, slot));
    words.filter(|word| is_marked(*word)).any(|word| is_it(read(word)))
}

fn is_number(word: Reading) -> bool {
    matches!(word, Reading::Page(_))
}

fn is_frame(word: Reading) -> bool {
    matches!(word, Reading::Frame(_))
}

/// What pages that came in and left met.
fn moved(before: &State, after: &State, call: &Call) -> BTreeSet<Lock> {
    let gone = |from: &State, to: &State| -> Vec<FrameIndex> {
        let stays = |frame: &FrameIndex| frame_of(&to.pool, page_in(&from.pool, *frame)).is_some();
        occupied(&from.pool).filter(|frame| !stays(frame)).collect()
    };
    let mut met = BTreeSet::new();
    for frame in gone(after, before) {
        met.extend(is_locked(after, frame).then_some(Lock::LockedCame));
        met.extend(is_locked(after, after.pool.record(frame).parent).then_some(Lock::CameBelowLocked));
    }
    let (locked, below) = match call {
        Call::Evict(..) => (Lock::LockedEvicted, Lock::EvictedBelowLocked),
        _ => (Lock::LockedSwept, Lock::SweptBelowLocked),
    };
    for frame in gone(before, after) {
        let record = before.pool.record(frame);
        met.extend(is_locked(before, frame).then_some(locked));
        met.extend(is_locked(before, record.parent).then_some(below));
        let written = record.is_dirty() && has_marked(before, frame, is_number);
        met.extend(written.then_some(Lock::WrittenNumber));
    }
    met
}

/// What a settle wrote.
fn settled(state: &State) -> BTreeSet<Lock> {
    let mut met = BTreeSet::new();
    for frame in occupied(&state.pool).filter(|frame| state.pool.record(*frame).is_dirty()) {
        met.extend(has_marked(state, frame, is_number).then_some(Lock::SettledNumber));
        met.extend(has_marked(state, frame, is_frame).then_some(Lock::SettledFrame));
    }
    met
}

/// What an accepted call was made on.
fn standing(state: &State) -> BTreeSet<Lock> {
    let mut met = BTreeSet::new();
    for frame in (0..state.pool.count as u8).map(FrameIndex) {
        let record = state.pool.record(frame);
        let dirty = record.is_used() && record.is_dirty() && is_locked(state, frame);
        met.extend(dirty.then_some(Lock::DirtyLocked));
        let alone = |word: Reading| word == Reading::MarkAlone;
        let free =
            !record.is_used() && (0..SLOTS).any(|slot| alone(read(frame_word(&state.frames, frame, slot))));
        met.extend(free.then_some(Lock::MarkInEmptyFrame));
    }
    met
}

/// What the stores of a pool just opened have.
fn opened(state: &State) -> BTreeSet<Lock> {
    let mut met = BTreeSet::new();
    let below: BTreeSet<Page> =
        state.store_numbers().flat_map(|store| reached(state, Page::root(store))).collect();
    for page in all_pages(state) {
        let words = (0..).zip(words_of(state, page));
        for (slot, word) in words.filter(|(_, word)| is_marked(*word)) {
            met.extend((page.is_root() && slot == 0).then_some(Lock::OpenedFirstWord));
            met.extend((!below.contains(&page)).then_some(Lock::OpenedOutOfReach));
            met.extend((unmarked(word) == u32::from(page.number)).then_some(Lock::OpenedSelf));
        }
    }
    met
}

/// What a marked word is, that a call was refused for by this number.
fn reason(word: u32, number: Refusal) -> Option<Lock> {
    match read(word) {
        _ if !is_marked(word) => None,
        Reading::Nothing => None,
        Reading::MarkAlone => Some(Lock::MarkAlone(number)),
        Reading::Page(_) => Some(Lock::BadNumber(number)),
        Reading::Frame(_) => Some(Lock::BadFrame(number)),
    }
}

/// The marked words of some pages of a buffer, of which any by itself is why a rule is broken: with 0 in its place the rule holds.
fn reasons(
    bytes: &[u8],
    pages: impl Iterator<Item = usize>,
    number: Refusal,
    holds: impl Fn(&[u8]) -> bool,
) -> BTreeSet<Lock> {
    let mut met = BTreeSet::new();
    let mut without = bytes.to_vec();
    for (page, slot) in pages.flat_map(|page| (0..SLOTS).map(move |slot| (page, slot))) {
        let word = word_in(page_of(bytes, page), slot);
        if let Some(kind) = reason(word, number).filter(|kind| !met.contains(kind)) {
            put_word(page_of_mut(&mut without, page), slot, 0);
            met.extend(holds(&without).then_some(kind));
            put_word(page_of_mut(&mut without, page), slot, word);
        }
    }
    met
}

/// Where records and frames disagree, and not the directory alone.
fn disagreeing(state: &State) -> BTreeSet<Lock> {
    if agree(&state.pool, &state.frames) {
        return BTreeSet::new();
    }
    let frames: Vec<usize> = occupied(&state.pool).map(usize::from).collect();
    reasons(&state.frames, frames.into_iter(), 2, |frames| agree(&state.pool, frames))
}

fn unloadable(state: &State, handle: Handle, slot: usize) -> BTreeSet<Lock> {
    let number = unmarked(frame_word(&state.frames, handle.frame, slot)) as u16;
    let page = Page::from(handle).beside(PageNumber(number));
    let holds = |store: &[u8]| {
        let state = State { store: store.to_vec(), ..state.clone() };
        rules::loadable(&state, page).is_ok()
    };
    reasons(&state.store, [page.place(state.pool.pages)].into_iter(), 14, holds)
}

fn unsound(state: &State, stores: Stores) -> BTreeSet<Lock> {
    let pages = state.store.len() / PAGE_SIZE;
    if pages > SMALL_STORE {
        return BTreeSet::new();
    }
    reasons(&state.store, 0..pages, 16, |store| rules::sound(store, stores.count).is_ok())
}
