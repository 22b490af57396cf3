//! The thirteen calls, and the draw of a workload's next one, each on records, frames, store and directory lent by the caller.
use crate::raw;
use crate::records::{Entry, FrameIndex, Generator, Handle, PageNumber, Pool, StoreNumber, Stores};
use crate::refusal::{unless_refused, Refusal};

/// The answer of root and fix.
#[derive(Clone, Copy, Debug, PartialEq, Eq)]
pub struct Fixed {
    /// The handle of the page that was pinned.
    pub handle: Handle,
    /// The looks of the sweep that made room for it, 0 if none.
    pub looks: u16,
}

/// The answer of word, where the slot names a page.
#[derive(Clone, Copy, Debug, PartialEq, Eq)]
pub struct Named {
    /// The page.
    pub page: PageNumber,
    /// Whether the word marks it as locked.
    pub locked: bool,
}

/// The answer of find.
#[derive(Clone, Copy, Debug, PartialEq, Eq)]
pub struct Found {
    /// The frame that holds the page, none if it isn't resident.
    pub frame: Option<FrameIndex>,
    /// The entries of the page's chain that were compared: its place there, from 1, or the chain's length if it isn't resident.
    pub compared: u16,
}

/// Calls an exported function with the records and the lent buffers, and then its own arguments.
macro_rules! call {
    ($name:ident(
        $pool:expr,
        $frames:ident.$frames_ptr:ident,
        $store:ident.$store_ptr:ident,
        $directory:ident.$directory_ptr:ident
        $(, $argument:expr)*
    )) => {
        // SAFETY: each pointer is that of a slice of the length beside it, lent for the call alone; the slices that can be
        // written overlap no other.
        unsafe {
            raw::$name(
                $pool,
                $frames.$frames_ptr(),
                $frames.len(),
                $store.$store_ptr(),
                $store.len(),
                $directory.$directory_ptr(),
                $directory.len()
                $(, $argument)*
            )
        }
    };
}

impl raw::Done {
    fn answer(self, pool: &mut Pool) -> Result<(), Refusal> {
        *pool = self.pool;
        unless_refused(self.refusal, ())
    }
}

impl raw::Fixed {
    fn answer(self, pool: &mut Pool) -> Result<Fixed, Refusal> {
        *pool = self.pool;
        unless_refused(self.refusal, Fixed { handle: self.handle, looks: self.looks })
    }
}

impl raw::Place {
    /// The part of a buffer at this place.
    fn part(self, buffer: &[u8]) -> Result<&[u8], Refusal> {
        unless_refused(self.refusal, self.start..self.start + self.size).map(|range| &buffer[range])
    }
}

/// Begins with the stores as they are, one after another in `store`: page 0 of store t is copied to frame t, not pinned, and every
/// other frame is empty. The directory is set over what it held: the roots are alone in it, entered from store 0 on. What an
/// earlier pool has not settled is forgotten. Refused: 1, 16.
///
/// By [`WrongLength`](Refusal::WrongLength) too where T isn't 1 to 4 or doesn't divide the store into whole pages, where F is below
/// T + 1, where the ceiling of a store isn't 1 to F, and where one from T on isn't 0. T and the ceilings can be others at each
/// open.
pub fn open(frames: &mut [u8], store: &[u8], directory: &mut [u8], stores: Stores) -> Result<Pool, Refusal> {
    let mut pool = Pool::ZERO;
    open_into(&mut pool, frames, store, directory, stores).map(|()| pool)
}

/// As [`open`], with the records put where they belong. Refused, those stay as they were, as the directory does.
pub(crate) fn open_into(
    pool: &mut Pool,
    frames: &mut [u8],
    store: &[u8],
    directory: &mut [u8],
    stores: Stores,
) -> Result<(), Refusal> {
    // SAFETY: as in `call`.
    let done = unsafe {
        raw::pool_open(
            frames.as_mut_ptr(),
            frames.len(),
            store.as_ptr(),
            store.len(),
            directory.as_mut_ptr(),
            directory.len(),
            stores.count,
            raw::Ceilings { most: stores.ceilings },
        )
    };
    unless_refused(done.refusal, ()).map(|()| *pool = done.pool)
}

/// Pins page 0 of a store. Refused: 1, 2, 28, 13.
pub fn root(
    pool: &mut Pool,
    frames: &[u8],
    store: &[u8],
    directory: &[u8],
    of_store: StoreNumber,
) -> Result<Fixed, Refusal> {
    call!(pool_root(*pool, frames.as_ptr, store.as_ptr, directory.as_ptr, of_store)).answer(pool)
}

/// Pins the page that a slot of the handle's page names, and loads it first if it isn't resident, into an empty frame or one
/// that a sweep takes, whose page is evicted. Refused: 1, 2, 28, 3, 4, 7; 13 if it is resident, 14, 15 and 27 if not.
///
/// A sweep takes a page that evict would accept: one of least usage, of several the first from the hand on. Pinned pages that
/// it passes over, the roots excepted, gain usage by each look, to 3 at most, so that a page which was held is still warm once
/// its pins are gone. A fix that makes no sweep leaves the usage of every other page as it was. Where the store is at its ceiling,
/// the sweep takes, warms and cools its own pages alone. A sweep takes at most 4 F looks.
///
/// After [`NoFrame`](Refusal::NoFrame), unfix a page without resident children, of any store, and fix again, or open with more
/// frames. After [`AtCeiling`](Refusal::AtCeiling) it has to be one of the store's own, or the store needs a higher ceiling.
pub fn fix(
    pool: &mut Pool,
    frames: &mut [u8],
    store: &mut [u8],
    directory: &mut [u8],
    handle: Handle,
    slot: usize,
) -> Result<Fixed, Refusal> {
    call!(pool_fix(*pool, frames.as_mut_ptr, store.as_mut_ptr, directory.as_mut_ptr, handle, slot))
        .answer(pool)
}

/// Takes one pin off the handle's page. Refused: 1, 2, 28, 3.
pub fn unfix(
    pool: &mut Pool,
    frames: &[u8],
    store: &[u8],
    directory: &[u8],
    handle: Handle,
) -> Result<(), Refusal> {
    call!(pool_unfix(*pool, frames.as_ptr, store.as_ptr, directory.as_ptr, handle)).answer(pool)
}

/// The payload of the handle's page, a part of the frames. Refused: 1, 2, 28, 3.
///
/// Records and store can be changed while it is held:
///
/// ```
/// # use pagepool::{StoreNumber, Stores, DIRECTORY_SIZE, PAGE_SIZE, PAYLOAD_SIZE};
/// # let (mut frames, mut store, mut directory) = ([0; 2 * PAGE_SIZE], [0; PAGE_SIZE], [0; DIRECTORY_SIZE]);
/// # let mut pool = pagepool::open(&mut frames, &store, &mut directory, Stores::one(2))?;
/// # let root = pagepool::root(&mut pool, &frames, &store, &directory, StoreNumber(0))?.handle;
/// let payload = pagepool::show(&pool, &frames, &store, &directory, root)?;
/// pagepool::settle(&mut pool, &frames, &mut store, &directory)?;
/// assert_eq!(payload, [0; PAYLOAD_SIZE]);
/// # Ok::<(), pagepool::Refusal>(())
/// ```
pub fn show<'a>(
    pool: &Pool,
    frames: &'a [u8],
    store: &[u8],
    directory: &[u8],
    handle: Handle,
) -> Result<&'a [u8], Refusal> {
    call!(pool_show(*pool, frames.as_ptr, store.as_ptr, directory.as_ptr, handle)).part(frames)
}

/// The payload of a page, in the frames if it is resident, otherwise in its store. Refused: 1, 2, 28, 6.
pub fn peek<'a>(
    pool: &Pool,
    frames: &'a [u8],
    store: &'a [u8],
    directory: &[u8],
    of_store: StoreNumber,
    page: PageNumber,
) -> Result<&'a [u8], Refusal> {
    let place = call!(pool_peek(*pool, frames.as_ptr, store.as_ptr, directory.as_ptr, of_store, page));
    place.part(if place.in_store { store } else { frames })
}

/// The page that a slot of the handle's page names, if it names one, and whether that page is locked. Refused: 1, 2, 28, 3, 4.
pub fn word(
    pool: &Pool,
    frames: &[u8],
    store: &[u8],
    directory: &[u8],
    handle: Handle,
    slot: usize,
) -> Result<Option<Named>, Refusal> {
    let raw::Named { refusal, locked, page } =
        call!(pool_word(*pool, frames.as_ptr, store.as_ptr, directory.as_ptr, handle, slot));
    unless_refused(refusal, (page != PageNumber(0)).then_some(Named { page, locked }))
}

/// Puts bytes at an offset of the payload of the handle's page, which is then dirty unless there are none. In a locked page a write
/// of no bytes is refused too. Refused: 1, 2, 28, 3, 5, 26.
pub fn write(
    pool: &mut Pool,
    frames: &mut [u8],
    store: &[u8],
    directory: &[u8],
    handle: Handle,
    offset: usize,
    bytes: &[u8],
) -> Result<(), Refusal> {
    call!(pool_write(
        *pool,
        frames.as_mut_ptr,
        store.as_ptr,
        directory.as_ptr,
        handle,
        offset,
        bytes.as_ptr(),
        bytes.len()
    ))
    .answer(pool)
}

/// Stores a page number in an empty slot of the handle's page, which is then dirty; with `locked`, the word marks the page of that
/// number, of the handle's store, as locked. After [`FullSlot`](Refusal::FullSlot) the page can go into an empty slot, after
/// [`AlreadyNamed`](Refusal::AlreadyNamed) into none until the word that names it is unlinked; words of other stores name other
/// pages. Refused: 1, 2, 28, 3, 4, 26, 6, 9, 8.
///
/// A linked page gets the mark, or loses it, by three calls: evict it if it is resident, unlink it, and link it anew:
///
/// ```
/// # use pagepool::{Named, PageNumber, PagePool, Refusal, StoreNumber, Stores, PAGE_SIZE};
/// # let mut pool = PagePool::new([0; 2 * PAGE_SIZE], [0; 8 * PAGE_SIZE]);
/// # pool.open(Stores::one(2))?;
/// # let root = pool.root(StoreNumber(0))?.handle;
/// # pool.link(root, 3, PageNumber(7), false)?;
/// # let seven = pool.fix(root, 3)?.handle;
/// # pool.unfix(seven)?;
/// pool.evict(seven.store, seven.page)?;
/// pool.unlink(root, 3)?;
/// pool.link(root, 3, PageNumber(7), true)?;
/// assert_eq!(pool.word(root, 3)?, Some(Named { page: PageNumber(7), locked: true }));
///
/// let seven = pool.fix(root, 3)?.handle;
/// assert_eq!(pool.write(seven, 0, b"seven"), Err(Refusal::IsLocked));
/// # Ok::<(), Refusal>(())
/// ```
#[allow(clippy::too_many_arguments)]
pub fn link(
    pool: &mut Pool,
    frames: &mut [u8],
    store: &[u8],
    directory: &[u8],
    handle: Handle,
    slot: usize,
    page: PageNumber,
    locked: bool,
) -> Result<(), Refusal> {
    call!(pool_link(*pool, frames.as_mut_ptr, store.as_ptr, directory.as_ptr, handle, slot, page, locked))
        .answer(pool)
}

/// Clears a slot of the handle's page, which is then dirty. A mark there goes with it. Refused: 1, 2, 28, 3, 4, 26, 7, 10.
pub fn unlink(
    pool: &mut Pool,
    frames: &mut [u8],
    store: &[u8],
    directory: &[u8],
    handle: Handle,
    slot: usize,
) -> Result<(), Refusal> {
    call!(pool_unlink(*pool, frames.as_mut_ptr, store.as_ptr, directory.as_ptr, handle, slot)).answer(pool)
}

/// Takes a page out of its frame, to its store if it is dirty. A resident page that has to stay is refused by the first of three
/// reasons that holds. After [`IsRoot`](Refusal::IsRoot) nothing helps: a root stays, pinned or not. After
/// [`IsPinned`](Refusal::IsPinned) unfix the page until its pins are gone; one that names resident pages too is refused by
/// [`IsParent`](Refusal::IsParent) then. After `IsParent` first evict the resident pages that it names: the used records whose
/// parent is its frame have their numbers. Where one of them is refused by `IsPinned` or `IsParent` in turn, do there what is
/// said here. Refused: 1, 2, 28, 6, 11, 20, 21, 22.
pub fn evict(
    pool: &mut Pool,
    frames: &mut [u8],
    store: &mut [u8],
    directory: &mut [u8],
    of_store: StoreNumber,
    page: PageNumber,
) -> Result<(), Refusal> {
    call!(pool_evict(*pool, frames.as_mut_ptr, store.as_mut_ptr, directory.as_mut_ptr, of_store, page))
        .answer(pool)
}

/// Writes each dirty page to its store, in all stores, and marks it clean. Refused: 1, 2.
pub fn settle(pool: &mut Pool, frames: &[u8], store: &mut [u8], directory: &[u8]) -> Result<(), Refusal> {
    call!(pool_settle(*pool, frames.as_ptr, store.as_mut_ptr, directory.as_ptr)).answer(pool)
}

/// The frame that holds a page, none if it isn't resident, and the entries of the page's chain in the directory that were
/// compared: its place there, from 1, or the chain's length if it isn't resident. That is never more than the resident pages with
/// its remainder by 67, of all stores: their entries share the chains, and each that is compared counts. The last of a chain and an
/// absent page take as many: `frame` tells them apart. Refused: 1, 2, 28, 6.
///
/// Pages 5 and 72 share a chain, and the one that was loaded last stands first:
///
/// ```
/// # use pagepool::{Found, FrameIndex, PageNumber, PagePool, StoreNumber, Stores, PAGE_SIZE};
/// # let mut pool = PagePool::new([0; 3 * PAGE_SIZE], vec![0; 200 * PAGE_SIZE]);
/// # pool.open(Stores::one(3))?;
/// let store = StoreNumber(0);
/// # let root = pool.root(store)?.handle;
/// # pool.link(root, 0, PageNumber(5), false)?;
/// # pool.link(root, 1, PageNumber(72), false)?;
/// pool.fix(root, 0)?;
/// pool.fix(root, 1)?;
/// assert_eq!(pool.find(store, PageNumber(72))?, Found { frame: Some(FrameIndex(2)), compared: 1 });
/// assert_eq!(pool.find(store, PageNumber(5))?, Found { frame: Some(FrameIndex(1)), compared: 2 });
/// assert_eq!(pool.find(store, PageNumber(139))?, Found { frame: None, compared: 2 });
/// assert_eq!(pool.find(store, PageNumber(6))?, Found { frame: None, compared: 0 });
/// # Ok::<(), pagepool::Refusal>(())
/// ```
pub fn find(
    pool: &Pool,
    frames: &[u8],
    store: &[u8],
    directory: &[u8],
    of_store: StoreNumber,
    page: PageNumber,
) -> Result<Found, Refusal> {
    let found = call!(pool_find(*pool, frames.as_ptr, store.as_ptr, directory.as_ptr, of_store, page));
    let frame = found.present.then_some(found.frame);
    unless_refused(found.refusal, Found { frame, compared: found.compared })
}

impl Generator {
    /// The generator of a seed. A seed of 0 is read as 1.
    pub fn seeded(seed: u32) -> Generator {
        // SAFETY: a number is handed over, and one comes back.
        unsafe { raw::pool_seeded(seed) }
    }
}

/// Draws five numbers, makes a record of the call listing of them, and moves the generator on. The pool stays as it is: a record
/// is drawn, not run. Refused: 1, 2. Then the generator stays where it was.
///
/// The numbers are those of the 32-bit xorshift generator of Marsaglia with shifts left 13, right 17, left 5. Call, frame, page,
/// slot and offset are their remainders by 9 (plus 1), F, N, 16 and 193, in this order, whichever the call uses. Length and data
/// are 0, but that link's handle has the page that is in the drawn frame, or 0 where that is empty. A record has no mark: its link
/// is made with `locked` false. It names no store: on a pool of several, which one its call is made in is for the host to say.
///
/// Where each record is drawn on the pool as the calls before left it, and then run, a seed gives the same on every machine:
///
/// ```
/// use pagepool::{Generator, PagePool, StoreNumber, Stores, PAGE_SIZE};
///
/// let mut pool = PagePool::new([0; 4 * PAGE_SIZE], [0; 16 * PAGE_SIZE]);
/// pool.open(Stores::one(4))?;
/// let mut generator = Generator::seeded(1);
/// assert_eq!(pool.draw(&mut generator)?[..6], [1, 1, 5, 0, 15, 120]); // root
/// pool.root(StoreNumber(0))?;
/// assert_eq!(pool.draw(&mut generator)?[..6], [8, 2, 2, 0, 5, 172]); // settle
/// pool.settle()?;
/// assert_eq!(generator.number, 2916098932);
/// # Ok::<(), pagepool::Refusal>(())
/// ```
pub fn draw(
    pool: &Pool,
    frames: &[u8],
    store: &[u8],
    directory: &[u8],
    generator: &mut Generator,
) -> Result<Entry, Refusal> {
    let drawn = call!(pool_draw(*pool, frames.as_ptr, store.as_ptr, directory.as_ptr, *generator));
    *generator = drawn.generator;
    unless_refused(drawn.refusal, drawn.entry)
}
