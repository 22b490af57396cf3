//! The thirteen calls of document 01, as the requests have them, and request A.10's draw, in safe Rust, on records lent by `&mut`.
//! Each answers what the method of the same name of `PagePool` does. `tally` has request A.12's.
mod agreement;
pub mod directory;
mod drawing;
pub mod keys;
mod moves;
mod naming;
mod page;
mod rules;
mod seen;
pub mod tally;

use page::{pages_of, pages_of_mut, SWIZZLE_BIT};
use pagepool::{
    Entry, Fixed, Found, FrameIndex, FrameRecord, Generator, Handle, Named, PageNumber, Pool, Refusal,
    StoreNumber, Stores, LOCK_BIT, MAX_PINS, MAX_USAGE, PAGE_SIZE, PAYLOAD_SIZE, PAYLOAD_START,
};
use rules::rule;
use seen::{with_table, Seen};

#[inline(never)]
pub fn open(
    pool: &mut Pool,
    frames: &mut [u8],
    store: &[u8],
    directory: &mut [u8],
    stores: Stores,
) -> Result<(), Refusal> {
    let count = frames.len() / PAGE_SIZE;
    let pages = store.len().checked_div(PAGE_SIZE * usize::from(stores.count)).unwrap_or(0);
    rule(Refusal::WrongLength, rules::figures_fit(count, pages, stores, frames, store, directory))?;
    rule(Refusal::UnsoundStore, naming::are_sound(pages_of(store), pages))?;
    let Stores { count: stores, ceilings } = stores;
    directory::begin(directory, stores);
    *pool = Pool { count: count as u16, pages: pages as u16, stores, ceilings, ..Pool::ZERO };
    for of_store in (0..stores).map(StoreNumber) {
        let root = usize::from(of_store);
        pages_of_mut(frames)[root] = pages_of(store)[place(pool, of_store, PageNumber(0))];
        (pool.records[root].used, pool.records[root].store) = (1, of_store);
    }
    Ok(())
}

#[inline(never)]
pub fn root(
    pool: &mut Pool,
    frames: &[u8],
    store: &[u8],
    directory: &[u8],
    of_store: StoreNumber,
) -> Result<Fixed, Refusal> {
    rules::state(pool, frames, store, directory)?;
    rules::store(pool, of_store)?;
    pin(pool, FrameIndex(of_store.0))
}

#[inline(never)]
pub fn fix(
    pool: &mut Pool,
    frames: &mut [u8],
    store: &mut [u8],
    directory: &mut [u8],
    handle: Handle,
    slot: usize,
) -> Result<Fixed, Refusal> {
    with_table!(pool.stores, pool.pages, |seen| {
        fix_with(pool, frames, store, directory, handle, slot, seen)
    })
}

fn fix_with<const MOST: usize, const STORES: usize>(
    pool: &mut Pool,
    frames: &mut [u8],
    store: &mut [u8],
    directory: &mut [u8],
    handle: Handle,
    slot: usize,
    seen: &mut Seen<MOST, STORES>,
) -> Result<Fixed, Refusal> {
    let keys = rules::state_with(pool, frames, store, directory, seen)?;
    rules::handle(pool, handle)?;
    rules::slot(slot)?;
    let word = page::word(&pages_of(frames)[usize::from(handle.frame)], slot);
    rule(Refusal::EmptySlot, word != 0)?;
    if word >= SWIZZLE_BIT {
        return pin(pool, moves::frame_in(word));
    }
    let (of_store, page) = (handle.store, PageNumber(page::name(word) as u16));
    let stored = &pages_of(store)[place(pool, of_store, page)];
    rule(Refusal::BadStoredPage, naming::may_come_in(stored, PageNumber(pool.pages), seen.of(of_store)))?;
    let (frame, looks) = moves::frame_for_load(pool, frames, store, directory, of_store, &keys)?;
    moves::load(pool, frames, store, (handle.frame, of_store), slot, frame, page);
    directory::enter(directory, frame, page);
    Ok(Fixed { handle: Handle { frame, store: of_store, page }, looks })
}

#[inline(never)]
pub fn unfix(
    pool: &mut Pool,
    frames: &[u8],
    store: &[u8],
    directory: &[u8],
    handle: Handle,
) -> Result<(), Refusal> {
    rules::state(pool, frames, store, directory)?;
    rules::handle(pool, handle)?;
    pool.record_mut(handle.frame).pins -= 1;
    Ok(())
}

#[inline(never)]
pub fn show<'a>(
    pool: &Pool,
    frames: &'a [u8],
    store: &[u8],
    directory: &[u8],
    handle: Handle,
) -> Result<&'a [u8], Refusal> {
    rules::state(pool, frames, store, directory)?;
    rules::handle(pool, handle)?;
    Ok(payload(frames, handle.frame.into()))
}

#[inline(never)]
pub fn peek<'a>(
    pool: &Pool,
    frames: &'a [u8],
    store: &'a [u8],
    directory: &[u8],
    of_store: StoreNumber,
    page: PageNumber,
) -> Result<&'a [u8], Refusal> {
    rules::state(pool, frames, store, directory)?;
    rules::page(pool, of_store, page)?;
    Ok(match directory::seek(&pool.records, directory, of_store, page).0 {
        Some(frame) => payload(frames, frame.into()),
        None => payload(store, place(pool, of_store, page)),
    })
}

#[inline(never)]
pub fn word(
    pool: &Pool,
    frames: &[u8],
    store: &[u8],
    directory: &[u8],
    handle: Handle,
    slot: usize,
) -> Result<Option<Named>, Refusal> {
    rules::state(pool, frames, store, directory)?;
    rules::handle(pool, handle)?;
    rules::slot(slot)?;
    let word = page::word(&pages_of(frames)[usize::from(handle.frame)], slot);
    let page = PageNumber(page::name(moves::plain(&pool.records, word)) as u16);
    Ok((page != PageNumber(0)).then_some(Named { page, locked: page::is_marked(word) }))
}

#[inline(never)]
pub fn write(
    pool: &mut Pool,
    frames: &mut [u8],
    store: &[u8],
    directory: &[u8],
    handle: Handle,
    offset: usize,
    bytes: &[u8],
) -> Result<(), Refusal> {
    rules::state(pool, frames, store, directory)?;
    rules::handle(pool, handle)?;
    rule(Refusal::BadRange, offset <= PAYLOAD_SIZE && bytes.len() <= PAYLOAD_SIZE - offset)?;
    rules::unlocked(pool, frames, handle)?;
    if !bytes.is_empty() {
        let start = PAGE_SIZE * usize::from(handle.frame) + PAYLOAD_START + offset;
        frames[start..start + bytes.len()].copy_from_slice(bytes);
        pool.record_mut(handle.frame).dirty = 1;
    }
    Ok(())
}

#[allow(clippy::too_many_arguments)]
#[inline(never)]
pub fn link(
    pool: &mut Pool,
    frames: &mut [u8],
    store: &[u8],
    directory: &[u8],
    handle: Handle,
    slot: usize,
    page: PageNumber,
    locked: bool,
) -> Result<(), Refusal> {
    let word = u32::from(page) | if locked { LOCK_BIT } else { 0 };
    with_table!(pool.stores, pool.pages, |seen| {
        link_with(pool, frames, store, directory, handle, slot, word, seen)
    })
}

#[allow(clippy::too_many_arguments)]
fn link_with<const MOST: usize, const STORES: usize>(
    pool: &mut Pool,
    frames: &mut [u8],
    store: &[u8],
    directory: &[u8],
    handle: Handle,
    slot: usize,
    word: u32,
    seen: &mut Seen<MOST, STORES>,
) -> Result<(), Refusal> {
    let page = PageNumber(page::name(word) as u16);
    rules::state_with(pool, frames, store, directory, seen)?;
    rules::handle(pool, handle)?;
    rules::slot(slot)?;
    rules::unlocked(pool, frames, handle)?;
    rule(Refusal::BadPage, page != PageNumber(0) && page.0 < pool.pages)?;
    let (of_store, first) = (handle.store, place(pool, handle.store, PageNumber(0)));
    let own = &pages_of(store)[first..first + usize::from(pool.pages)];
    let is_named = seen.of(of_store).has(page) || naming::is_stored(pool, own, of_store, page);
    rule(Refusal::AlreadyNamed, !is_named)?;
    rule(Refusal::FullSlot, page::word(&pages_of(frames)[usize::from(handle.frame)], slot) == 0)?;
    put_link(pool, frames, handle, slot, word);
    Ok(())
}

#[inline(never)]
pub fn unlink(
    pool: &mut Pool,
    frames: &mut [u8],
    store: &[u8],
    directory: &[u8],
    handle: Handle,
    slot: usize,
) -> Result<(), Refusal> {
    rules::state(pool, frames, store, directory)?;
    rules::handle(pool, handle)?;
    rules::slot(slot)?;
    rules::unlocked(pool, frames, handle)?;
    let word = page::word(&pages_of(frames)[usize::from(handle.frame)], slot);
    rule(Refusal::EmptySlot, word != 0)?;
    rule(Refusal::Resident, word < SWIZZLE_BIT)?;
    put_link(pool, frames, handle, slot, 0);
    Ok(())
}

#[inline(never)]
pub fn evict(
    pool: &mut Pool,
    frames: &mut [u8],
    store: &mut [u8],
    directory: &mut [u8],
    of_store: StoreNumber,
    page: PageNumber,
) -> Result<(), Refusal> {
    rules::state(pool, frames, store, directory)?;
    rules::page(pool, of_store, page)?;
    let frame = frame_of(pool, of_store, page).ok_or(Refusal::NotResident)?;
    rule(Refusal::IsRoot, !is_root(pool, frame))?;
    rule(Refusal::IsPinned, pool.record(frame).pins == 0)?;
    rule(Refusal::IsParent, !page::has_swizzled(&pages_of(frames)[usize::from(frame)]))?;
    moves::evict(pool, frames, store, directory, frame);
    Ok(())
}

#[inline(never)]
pub fn settle(pool: &mut Pool, frames: &[u8], store: &mut [u8], directory: &[u8]) -> Result<(), Refusal> {
    rules::state(pool, frames, store, directory)?;
    moves::settle(pool, pages_of(frames), pages_of_mut(store));
    Ok(())
}

#[inline(never)]
pub fn find(
    pool: &Pool,
    frames: &[u8],
    store: &[u8],
    directory: &[u8],
    of_store: StoreNumber,
    page: PageNumber,
) -> Result<Found, Refusal> {
    rules::state(pool, frames, store, directory)?;
    rules::page(pool, of_store, page)?;
    let (frame, compared) = directory::seek(&pool.records, directory, of_store, page);
    Ok(Found { frame, compared })
}

#[inline(never)]
pub fn draw(
    pool: &Pool,
    frames: &[u8],
    store: &[u8],
    directory: &[u8],
    generator: &mut Generator,
) -> Result<Entry, Refusal> {
    rules::state(pool, frames, store, directory)?;
    Ok(drawing::record(pool, generator))
}

/// The records of the F frames.
fn records(pool: &Pool) -> &[FrameRecord] {
    &pool.records[..usize::from(pool.count)]
}

/// Whether a frame is that of a store's root.
fn is_root(pool: &Pool, frame: FrameIndex) -> bool {
    frame.0 < pool.stores
}

/// The place of a store's page among the pages of all stores.
fn place(pool: &Pool, of_store: StoreNumber, page: PageNumber) -> usize {
    usize::from(pool.pages) * usize::from(of_store) + usize::from(page)
}

/// The frame that holds a page of a store, by the records.
fn frame_of(pool: &Pool, of_store: StoreNumber, page: PageNumber) -> Option<FrameIndex> {
    let holds = |record: &FrameRecord| record.is_used() & (record.page == page) & (record.store == of_store);
    records(pool).iter().position(holds).map(|frame| FrameIndex(frame as u8))
}

/// One pin and one usage more for the page in a frame.
fn pin(pool: &mut Pool, frame: FrameIndex) -> Result<Fixed, Refusal> {
    let record = pool.record_mut(frame);
    rule(Refusal::TooManyPins, record.pins < MAX_PINS)?;
    record.pins += 1;
    record.usage = MAX_USAGE.min(record.usage + 1);
    Ok(Fixed { handle: Handle { frame, store: record.store, page: record.page }, looks: 0 })
}

/// Puts a word into a slot of the handle's page, which is then dirty.
fn put_link(pool: &mut Pool, frames: &mut [u8], handle: Handle, slot: usize, word: u32) {
    page::put_word(&mut pages_of_mut(frames)[usize::from(handle.frame)], slot, word);
    pool.record_mut(handle.frame).dirty = 1;
}

fn payload(buffer: &[u8], index: usize) -> &[u8] {
    &pages_of(buffer)[index][PAYLOAD_START..]
}
