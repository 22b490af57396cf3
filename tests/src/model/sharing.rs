//! Several stores over one set of frames, request A.11: what a load makes of ceilings and neighbours, by the records and not by a
//! sweep, and pages of different stores with the same number.
use super::directory::{bucket_of, chain};
use super::moves::image;
use super::stays::stay;
use super::warmth::looks_at;
use super::{
    at_ceiling, ceiling, frame_of, frame_word, held, is_locked, is_root, occupied, page_in, read, rules,
    Reading,
};
use crate::calls::{Answer, Call};
use crate::ensure;
use crate::pool::{Fixed, Refusal};
use crate::records::{
    page, page_of, unmarked, FrameIndex, Handle, Page, PageNumber, State, StoreNumber, MAX_USAGE, PAGE_SIZE,
    PAYLOAD_START, SLOTS,
};
use std::collections::{BTreeMap, BTreeSet};

/// What a call met of several stores. A namesake is a page of another store with the same number.
#[derive(Clone, Copy, Debug, PartialEq, Eq, PartialOrd, Ord)]
pub enum Sharing {
    /// A sweep for a store at its ceiling took one of its pages. Its looks left an empty frame, a neighbour's page that a sweep of all
    /// would have taken before, one that it would have cooled or warmed, or another's root; and warmed one of its own.
    SweptOwn,
    EmptyLeft,
    NeighbourLeft,
    NeighbourNotCooled,
    NeighbourNotWarmed,
    NeighboursRootLeft,
    OwnWarmed,
    /// A load for a store below its ceiling, with a neighbour: into an empty frame, into that of its own page, into that of a
    /// neighbour's, clean or dirty. Its looks cooled or warmed a neighbour's page.
    IntoEmpty,
    TookOwn,
    TookNeighbour,
    TookDirtyNeighbour,
    NeighbourCooled,
    NeighbourWarmed,
    /// A load was denied a frame below the ceiling, in a pool of so many stores.
    NoFrame(u8),
    /// At the ceiling: with no empty frame, with one, with a neighbour's page that could go, and where the root alone is resident.
    AtCeilingFull,
    AtCeilingEmpty,
    AtCeilingNeighbour,
    RootAlone,
    /// A page that is resident was fixed in a store at its ceiling, all of whose pages stay.
    HitAtCeiling,
    /// A page came in beside a resident namesake, or with a word that a resident page of another store has too.
    CameBesideNamesake,
    CameWithSameWord,
    /// A find compared a namesake's entry before the page's, or where the page was absent; a peek went to the store past one.
    FoundPastNamesake,
    AbsentBesideNamesake,
    PeekedPastNamesake,
    /// An evict of a page with a resident namesake, and one refused by 11.
    EvictedBesideNamesake,
    NamesakeResident,
    /// A link of a page whose namesake is named by a word of a resident page, and an unlink of one whose namesake is resident.
    LinkedBesideNamesake,
    UnlinkedBesideNamesake,
    /// An accepted edit of a page whose namesake is locked.
    NamesakeLocked,
    /// A handle refused by 3 for its store alone.
    OtherStoresHandle,
    /// A settle wrote pages of more than one store.
    SettledSeveral,
}

impl Sharing {
    pub const ALL: [Sharing; 33] = [
        Sharing::SweptOwn,
        Sharing::EmptyLeft,
        Sharing::NeighbourLeft,
        Sharing::NeighbourNotCooled,
        Sharing::NeighbourNotWarmed,
        Sharing::NeighboursRootLeft,
        Sharing::OwnWarmed,
        Sharing::IntoEmpty,
        Sharing::TookOwn,
        Sharing::TookNeighbour,
        Sharing::TookDirtyNeighbour,
        Sharing::NeighbourCooled,
        Sharing::NeighbourWarmed,
        Sharing::NoFrame(2),
        Sharing::NoFrame(3),
        Sharing::NoFrame(4),
        Sharing::AtCeilingFull,
        Sharing::AtCeilingEmpty,
        Sharing::AtCeilingNeighbour,
        Sharing::RootAlone,
        Sharing::HitAtCeiling,
        Sharing::CameBesideNamesake,
        Sharing::CameWithSameWord,
        Sharing::FoundPastNamesake,
        Sharing::AbsentBesideNamesake,
        Sharing::PeekedPastNamesake,
        Sharing::EvictedBesideNamesake,
        Sharing::NamesakeResident,
        Sharing::LinkedBesideNamesake,
        Sharing::UnlinkedBesideNamesake,
        Sharing::NamesakeLocked,
        Sharing::OtherStoresHandle,
        Sharing::SettledSeveral,
    ];
}

/// No store is above its ceiling after an accepted call, a load is denied a frame exactly where request A.11 says so, and a fix
/// leaves its neighbours what they were. Gives what the call met.
pub fn compare(
    (before, after): (&State, &State),
    call: &Call,
    answer: &Answer,
) -> Result<BTreeSet<Sharing>, String> {
    let mut met = BTreeSet::new();
    if answer.accepted() {
        check_ceilings(after)?;
    }
    if let Call::Fix(handle, slot) = call {
        met.extend(fixed((before, after), *handle, *slot, answer)?);
    }
    met.extend(of_namesakes(before, call, answer));
    Ok(met)
}

/// "Every store has a ceiling of 1 to F resident pages, its root included."
fn check_ceilings(state: &State) -> Result<(), String> {
    for store in state.store_numbers() {
        let (pages, most) = (held(&state.pool, store).count(), ceiling(&state.pool, store));
        ensure!(pages <= most, "{pages} pages of store {store}, whose ceiling is {most}");
    }
    Ok(())
}

/// Whether a fix asks for a load: "a page that isn't resident is to come in and no rule tested before 15 is broken".
fn asks_load(state: &State, handle: Handle, slot: usize) -> bool {
    let kept = rules::state(state)
        .and_then(|()| rules::handle(&state.pool, handle))
        .and_then(|()| rules::slot(slot));
    if kept.is_err() {
        return false;
    }
    match read(frame_word(&state.frames, handle.frame, slot)) {
        Reading::Page(number) => {
            rules::loadable(state, Page::from(handle).beside(PageNumber(number as u16))).is_ok()
        }
        Reading::Nothing | Reading::MarkAlone | Reading::Frame(_) => false,
    }
}

/// A frame whose page is "pinned or has a resident child", by the records; or a root's.
fn stays(state: &State, frame: FrameIndex) -> bool {
    stay(state, frame).is_some()
}

fn has_empty(state: &State) -> bool {
    occupied(&state.pool).count() < usize::from(state.pool.count)
}

/// The number that denies a load a frame, if one does: "15 is for a store below its ceiling", and where "no frame is empty and every
/// resident page .. is pinned or has a resident child", "every root excepted"; "a store at its ceiling is denied a frame exactly when
/// each of its own resident pages but its root is pinned or has a resident child".
fn denied_by(state: &State, store: StoreNumber) -> Option<Refusal> {
    if at_ceiling(&state.pool, store) {
        held(&state.pool, store).all(|frame| stays(state, frame)).then_some(27)
    } else {
        let closed = occupied(&state.pool).all(|frame| stays(state, frame));
        (!has_empty(state) && closed).then_some(15)
    }
}

fn fixed(
    (before, after): (&State, &State),
    handle: Handle,
    slot: usize,
    answer: &Answer,
) -> Result<BTreeSet<Sharing>, String> {
    let (number, store) = (answer.number(), handle.store);
    ensure!(before.pool.stores != 1 || number != 15, "15, and there is one store");
    let asked = asks_load(before, handle, slot);
    let wanted = if asked { denied_by(before, store) } else { None };
    let denied = Some(number).filter(|number| [15, 27].contains(number));
    ensure!(denied == wanted, "denied by {denied:?}, and by the records by {wanted:?}");
    ensure!(!asked || denied.is_some() || answer.accepted(), "{answer:?}, where nothing denies the load");
    if rules::state(before).is_err() {
        return Ok(BTreeSet::new());
    }
    neighbours_spared(before, after, store)?;
    let Answer::Fixed(fixed) = answer else {
        return Ok(denied.map(|number| denied_in(before, store, number)).unwrap_or_default());
    };
    let most = 4 * before.pool.count;
    ensure!(fixed.looks <= most, "{} looks, and {most} at most", fixed.looks);
    if !asked {
        let shut = at_ceiling(&before.pool, store) && denied_by(before, store).is_some();
        return Ok(shut.then_some(Sharing::HitAtCeiling).into_iter().collect());
    }
    let empty = frame_is_empty(before, fixed.handle.frame);
    let wanted = has_empty(before) && !at_ceiling(&before.pool, store);
    ensure!(empty == wanted, "into a frame that was empty: {empty}, and not {wanted}");
    Ok(loaded(before, fixed))
}

fn frame_is_empty(state: &State, frame: FrameIndex) -> bool {
    !state.pool.record(frame).is_used()
}

/// What a denied load met.
fn denied_in(state: &State, store: StoreNumber, number: Refusal) -> BTreeSet<Sharing> {
    if number == 15 {
        return BTreeSet::from([Sharing::NoFrame(state.pool.stores)]);
    }
    let kind = if has_empty(state) { Sharing::AtCeilingEmpty } else { Sharing::AtCeilingFull };
    let mut met = BTreeSet::from([kind]);
    let could_go = occupied(&state.pool).any(|frame| !stays(state, frame));
    met.extend(could_go.then_some(Sharing::AtCeilingNeighbour));
    met.extend((held(&state.pool, store).count() == 1).then_some(Sharing::RootAlone));
    met
}

/// What an accepted load met.
fn loaded(state: &State, fixed: &Fixed) -> BTreeSet<Sharing> {
    let Fixed { handle, looks } = *fixed;
    let (pool, store) = (&state.pool, handle.store);
    let mut met = BTreeSet::new();
    met.extend(namesake(state, handle.into()).map(|_| Sharing::CameBesideNamesake));
    met.extend(same_word(state, handle.into()).then_some(Sharing::CameWithSameWord));
    let shared = pool.stores > 1;
    if frame_is_empty(state, handle.frame) {
        met.extend(shared.then_some(Sharing::IntoEmpty));
        return met;
    }
    let at_ceiling = at_ceiling(pool, store);
    let victim = pool.record(handle.frame);
    met.extend(match (at_ceiling, victim.store == store, victim.is_dirty()) {
        (true, ..) => Some(Sharing::SweptOwn),
        (false, true, _) => shared.then_some(Sharing::TookOwn),
        (false, false, false) => Some(Sharing::TookNeighbour),
        (false, false, true) => Some(Sharing::TookDirtyNeighbour),
    });
    for frame in (0..pool.count as u8).map(FrameIndex).filter(|frame| looks_at(pool, *frame, looks) > 0) {
        met.extend(looked_at(state, store, frame, handle.frame));
    }
    met
}

/// What the looks at a frame met.
fn looked_at(state: &State, store: StoreNumber, frame: FrameIndex, taken: FrameIndex) -> Option<Sharing> {
    let (pool, record) = (&state.pool, state.pool.record(frame));
    let (at_ceiling, own) = (at_ceiling(pool, store), record.store == store);
    let cool = record.usage < MAX_USAGE;
    if !record.is_used() {
        return Some(Sharing::EmptyLeft);
    }
    if is_root(pool, frame) {
        return (!own && record.pins > 0 && cool).then_some(Sharing::NeighboursRootLeft);
    }
    let (open, pinned) = (!stays(state, frame), record.pins > 0);
    match (at_ceiling, own) {
        (true, true) => (pinned && cool).then_some(Sharing::OwnWarmed),
        (true, false) if open && record.usage == 0 => Some(Sharing::NeighbourLeft),
        (true, false) if open => Some(Sharing::NeighbourNotCooled),
        (true, false) => (pinned && cool).then_some(Sharing::NeighbourNotWarmed),
        (false, false) if open => (frame != taken).then_some(Sharing::NeighbourCooled),
        (false, false) => (pinned && cool).then_some(Sharing::NeighbourWarmed),
        (false, true) => None,
    }
}

/// "a neighbour's page may be evicted, though its map, pins and shown bytes are the same after it": each page of another store has the
/// bytes that it had, in its frame or in its store, and each pinned one its pins, its frame and its payload there. One that leaves its
/// frame clean has those of its store, which only an alteration from outside makes others.
fn neighbours_spared(before: &State, after: &State, store: StoreNumber) -> Result<(), String> {
    let pinned = |state: &State| -> BTreeMap<Page, (FrameIndex, u16, Vec<u8>)> {
        let others = occupied(&state.pool).filter(|frame| state.pool.record(*frame).store != store);
        let shown = |frame: FrameIndex| page_of(&state.frames, frame.into())[PAYLOAD_START..].to_vec();
        let kept = |frame: FrameIndex| (frame, state.pool.record(frame).pins, shown(frame));
        let pages = others.map(|frame| (page_in(&state.pool, frame), kept(frame)));
        pages.filter(|(_, (_, pins, _))| *pins > 0).collect()
    };
    ensure!(pinned(before) == pinned(after), "pins of pages that aren't of store {store} change");
    let resident = |state: &State| -> BTreeSet<Page> {
        occupied(&state.pool)
            .map(|frame| page_in(&state.pool, frame))
            .filter(|page| page.store != store)
            .collect()
    };
    let moving: BTreeSet<Page> = resident(before).union(&resident(after)).copied().collect();
    for page in &moving {
        let left_clean = frame_of(&after.pool, *page).is_none()
            && frame_of(&before.pool, *page).is_some_and(|frame| !before.pool.record(frame).is_dirty());
        let was = if left_clean { stored(before, *page) } else { current(before, *page) };
        let same = was == current(after, *page);
        ensure!(same, "page {page} has other bytes after a fix in store {store}");
    }
    let pages = before.pool.pages;
    let stored = before.store.chunks(PAGE_SIZE).zip(after.store.chunks(PAGE_SIZE)).enumerate();
    for (place, (was, is)) in stored {
        let page = page((place / usize::from(pages)) as u8, (place % usize::from(pages)) as u16);
        let other = page.store != store && !moving.contains(&page);
        ensure!(!other || was == is, "page {page} changes in its store by a fix in store {store}");
    }
    Ok(())
}

/// A page's bytes: its image if it is resident, otherwise those in its store.
fn current(state: &State, page: Page) -> Vec<u8> {
    match frame_of(&state.pool, page) {
        Some(frame) => image(state, frame),
        None => stored(state, page),
    }
}

fn stored(state: &State, page: Page) -> Vec<u8> {
    page_of(&state.store, page.place(state.pool.pages)).to_vec()
}

/// The frame of a resident page of another store with the same number, no root.
fn namesake(state: &State, page: Page) -> Option<FrameIndex> {
    let mut others = occupied(&state.pool).filter(|frame| !is_root(&state.pool, *frame));
    others.find(|frame| {
        let other = page_in(&state.pool, *frame);
        other.number == page.number && other.store != page.store
    })
}

/// A word of a stored page names what a resident page of another store names too.
fn same_word(state: &State, page: Page) -> bool {
    let stored = state.stored(page).unwrap_or_default();
    let words = stored.chunks_exact(4).take(SLOTS).map(|bytes| u32::from_le_bytes(bytes.try_into().unwrap()));
    let mut numbers = words.map(unmarked).filter(|number| *number != 0);
    numbers.any(|number| named_elsewhere(state, page.beside(PageNumber(number as u16))))
}

/// A word of a resident page of another store names a page's namesake.
fn named_elsewhere(state: &State, page: Page) -> bool {
    let mut others = occupied(&state.pool).filter(|frame| state.pool.record(*frame).store != page.store);
    others.any(|frame| rules::image_names(state, frame, page.number.into()))
}

/// What a call met of pages of different stores with the same number.
fn of_namesakes(state: &State, call: &Call, answer: &Answer) -> Option<Sharing> {
    let page_of_handle = |handle: &Handle, number: u16| Page::from(*handle).beside(PageNumber(number));
    match (call, answer) {
        (Call::Find(store, number), Answer::Found(found)) => {
            let (page, namesake) = (page(*store, *number), namesake(state, page(*store, *number))?);
            let frames = chain(&state.directory, bucket_of(page.number))?;
            let place = frames.iter().position(|frame| *frame == namesake)?;
            match found.frame {
                None => Some(Sharing::AbsentBesideNamesake),
                Some(_) => (place + 1 < found.compared.into()).then_some(Sharing::FoundPastNamesake),
            }
        }
        (Call::Peek(store, number), Answer::Place(_)) => {
            let page = page(*store, *number);
            frame_of(&state.pool, page).is_none().then(|| namesake(state, page))??;
            Some(Sharing::PeekedPastNamesake)
        }
        (Call::Evict(store, number), Answer::Done) => {
            namesake(state, page(*store, *number)).map(|_| Sharing::EvictedBesideNamesake)
        }
        (Call::Evict(store, number), Answer::Refused(11)) => {
            namesake(state, page(*store, *number)).map(|_| Sharing::NamesakeResident)
        }
        (Call::Link(handle, _, number, _), Answer::Done) => {
            named_elsewhere(state, page_of_handle(handle, *number)).then_some(Sharing::LinkedBesideNamesake)
        }
        (Call::Unlink(handle, slot), Answer::Done) => {
            let number = unmarked(frame_word(&state.frames, handle.frame, *slot)) as u16;
            namesake(state, page_of_handle(handle, number)).map(|_| Sharing::UnlinkedBesideNamesake)
        }
        (Call::Write(handle, ..), Answer::Done) => {
            let namesake = namesake(state, Page::from(*handle))?;
            is_locked(state, namesake).then_some(Sharing::NamesakeLocked)
        }
        (Call::Show(handle) | Call::Unfix(handle), Answer::Refused(3)) => {
            let record = state.pool.records[..state.frame_count()].get(usize::from(handle.frame))?;
            let but_for_store = record.is_used() && record.page == handle.page && record.pins > 0;
            (but_for_store && record.store != handle.store).then_some(Sharing::OtherStoresHandle)
        }
        (Call::Settle, Answer::Done) => {
            let dirty = state.occupied().filter(|(_, record)| record.is_dirty());
            let stores: BTreeSet<StoreNumber> = dirty.map(|(_, record)| record.store).collect();
            (stores.len() > 1).then_some(Sharing::SettledSeveral)
        }
        _ => None,
    }
}
