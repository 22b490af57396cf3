//! The rules that calls share.
use super::keys::Keys;
use super::page::{is_marked, pages_of, word};
use super::seen::{with_table, Seen};
use super::{agreement, directory, is_root};
use pagepool::{
    FrameRecord, Handle, PageNumber, Pool, Refusal, StoreNumber, Stores, DIRECTORY_SIZE, LEAST_FRAMES,
    MOST_FRAMES, MOST_PAGES, MOST_STORES, PAGE_SIZE, SLOTS,
};

/// Refuses where a rule isn't kept.
pub fn rule(refusal: Refusal, kept: bool) -> Result<(), Refusal> {
    if kept {
        Ok(())
    } else {
        Err(refusal)
    }
}

/// Rule 1.
pub fn figures_fit(
    count: usize,
    pages: usize,
    stores: Stores,
    frames: &[u8],
    store: &[u8],
    directory: &[u8],
) -> bool {
    (LEAST_FRAMES..=MOST_FRAMES).contains(&count)
        && (1..=MOST_PAGES).contains(&pages)
        && stores_fit(count, stores)
        && frames.len() == PAGE_SIZE * count
        && store.len() == PAGE_SIZE * pages * usize::from(stores.count)
        && directory.len() == DIRECTORY_SIZE
}

/// Whether T is in its range and below F, and each ceiling in its own.
fn stores_fit(count: usize, Stores { count: stores, ceilings }: Stores) -> bool {
    let stores = usize::from(stores);
    let fits = |(store, ceiling): (usize, u8)| {
        if store < stores {
            (1..=count).contains(&usize::from(ceiling))
        } else {
            ceiling == 0
        }
    };
    (1..=MOST_STORES).contains(&stores) && stores < count && ceilings.into_iter().enumerate().all(fits)
}

/// Rules 1 and 2.
pub fn state(pool: &Pool, frames: &[u8], store: &[u8], directory: &[u8]) -> Result<(), Refusal> {
    with_table!(pool.stores, pool.pages, |seen| state_with(pool, frames, store, directory, seen).map(|_| ()))
}

/// Rules 1 and 2. Adds the resident pages but the roots, and the numbers in their words, to an empty table, and gives the key of each
/// page.
pub fn state_with<const MOST: usize, const STORES: usize>(
    pool: &Pool,
    frames: &[u8],
    store: &[u8],
    directory: &[u8],
    seen: &mut Seen<MOST, STORES>,
) -> Result<Keys, Refusal> {
    let stores = Stores { count: pool.stores, ceilings: pool.ceilings };
    let figures_fit = figures_fit(pool.count.into(), pool.pages.into(), stores, frames, store, directory);
    rule(Refusal::WrongLength, figures_fit)?;
    let mut keys = Keys::NONE;
    rule(Refusal::Disagree, agreement::agree(pool, pages_of(frames), seen, &mut keys))?;
    let agrees = |directory| directory::agrees(&keys, directory);
    rule(Refusal::Disagree, directory::of(directory).is_some_and(agrees)).map(|()| keys)
}

/// Rule 28.
pub fn store(pool: &Pool, of_store: StoreNumber) -> Result<(), Refusal> {
    rule(Refusal::BadStore, of_store.0 < pool.stores)
}

/// Rules 28 and 3.
pub fn handle(pool: &Pool, handle: Handle) -> Result<(), Refusal> {
    store(pool, handle.store)?;
    let record = super::records(pool).get(usize::from(handle.frame));
    let holds = |record: &FrameRecord| {
        record.is_used() && record.page == handle.page && record.store == handle.store && record.pins > 0
    };
    rule(Refusal::BadHandle, record.is_some_and(holds))
}

/// Rule 4.
pub fn slot(slot: usize) -> Result<(), Refusal> {
    rule(Refusal::BadSlot, slot < SLOTS)
}

/// Rule 26, by the word that names the handle's page. None names a root.
pub fn unlocked(pool: &Pool, frames: &[u8], handle: Handle) -> Result<(), Refusal> {
    let record = pool.record(handle.frame);
    let named_by = word(&pages_of(frames)[usize::from(record.parent)], record.slot.into());
    rule(Refusal::IsLocked, is_root(pool, handle.frame) || !is_marked(named_by))
}

/// Rules 28 and 6.
pub fn page(pool: &Pool, of_store: StoreNumber, page: PageNumber) -> Result<(), Refusal> {
    store(pool, of_store)?;
    rule(Refusal::BadPage, page.0 < pool.pages)
}
