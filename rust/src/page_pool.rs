//! A pool together with the buffers it works on.
use crate::calls::{self, Fixed, Found, Named};
use crate::records::{Entry, Generator, Handle, PageNumber, Pool, StoreNumber, Stores, DIRECTORY_SIZE};
use crate::refusal::Refusal;

/// The records with the frames, the store and the directory that each call is lent, and the calls as methods. Frames and store are
/// what the host has: vectors, arrays, or slices of its own memory.
///
/// ```
/// use pagepool::{Found, FrameIndex, PageNumber, PagePool, Refusal, StoreNumber, Stores, LOCK_BIT, PAGE_SIZE};
///
/// // 4 frames over one store of 16 empty pages.
/// let mut pool = PagePool::new([0; 4 * PAGE_SIZE], vec![0; 16 * PAGE_SIZE]);
/// let store = StoreNumber(0);
/// pool.open(Stores::one(4))?;
///
/// // Page 7 goes below slot 3 of the root, and gets some bytes.
/// let root = pool.root(store)?.handle;
/// pool.link(root, 3, PageNumber(7), false)?;
/// let seven = pool.fix(root, 3)?.handle;
/// pool.write(seven, 0, b"seven")?;
/// assert_eq!(&pool.show(seven)?[..5], b"seven");
/// assert_eq!(pool.find(store, PageNumber(7))?, Found { frame: Some(FrameIndex(1)), compared: 1 });
///
/// // A pinned page stays where it is. A released one can go to the store, where peek still finds it.
/// assert_eq!(pool.evict(store, PageNumber(7)), Err(Refusal::IsPinned));
/// pool.unfix(seven)?;
/// pool.evict(store, PageNumber(7))?;
/// assert_eq!(pool.find(store, PageNumber(7))?, Found { frame: None, compared: 0 });
/// assert_eq!(&pool.peek(store, PageNumber(7))?[..5], b"seven");
///
/// // Linked again with the mark, it is locked: it can be read, and not changed.
/// pool.unlink(root, 3)?;
/// pool.link(root, 3, PageNumber(7), true)?;
/// let seven = pool.fix(root, 3)?.handle;
/// assert_eq!(pool.write(seven, 0, b"eight"), Err(Refusal::IsLocked));
///
/// // After a settle the store holds every change.
/// pool.settle()?;
/// assert_eq!(pool.store[3 * 4..4 * 4], (7 | LOCK_BIT).to_le_bytes());
/// # Ok::<(), Refusal>(())
/// ```
///
/// Two stores over the same frames, with the same page numbers in each:
///
/// ```
/// use pagepool::{FrameIndex, PageNumber, PagePool, Refusal, StoreNumber, Stores, PAGE_SIZE};
///
/// // 6 frames over two stores of 16 pages each, the second of which never has more than 2 of them.
/// let mut pool = PagePool::new([0; 6 * PAGE_SIZE], vec![0; 2 * 16 * PAGE_SIZE]);
/// let [first, second] = [StoreNumber(0), StoreNumber(1)];
/// pool.open(Stores::of([6, 2]))?;
///
/// // Each has a root of its own, in frames 0 and 1, and pages of its own below it.
/// let roots = [pool.root(first)?.handle, pool.root(second)?.handle];
/// assert_eq!(roots.map(|root| root.frame), [FrameIndex(0), FrameIndex(1)]);
/// for root in roots {
///     pool.link(root, 3, PageNumber(7), false)?;
/// }
/// let seven = pool.fix(roots[0], 3)?.handle;
/// let other = pool.fix(roots[1], 3)?.handle;
/// pool.write(other, 0, b"another seven")?;
/// assert_eq!(pool.show(seven)?[0], 0);
///
/// // The second store is at its ceiling: it gets no frame while its only page is pinned, though two are empty.
/// pool.link(roots[1], 4, PageNumber(8), false)?;
/// assert_eq!(pool.fix(roots[1], 4), Err(Refusal::AtCeiling));
/// pool.unfix(other)?;
/// assert_eq!(pool.fix(roots[1], 4)?.handle.frame, other.frame);
/// # Ok::<(), Refusal>(())
/// ```
#[derive(Clone, Debug, PartialEq, Eq)]
pub struct PagePool<F, S> {
    /// The pool's records.
    pub records: Pool,
    /// F frames of 256 bytes.
    pub frames: F,
    /// N pages of 256 bytes, for each of the stores, one after another.
    pub store: S,
    /// The resident pages by the remainders of their numbers.
    pub directory: [u8; DIRECTORY_SIZE],
}

impl<F, S> PagePool<F, S> {
    /// The buffers of a pool that is still to be opened: until then every other call is refused by
    /// [`WrongLength`](Refusal::WrongLength).
    pub const fn new(frames: F, store: S) -> PagePool<F, S> {
        PagePool { records: Pool::ZERO, frames, store, directory: [0; DIRECTORY_SIZE] }
    }
}

/// The calls that leave frames, store and directory alone.
impl<F: AsRef<[u8]>, S: AsRef<[u8]>> PagePool<F, S> {
    /// As [`root`](calls::root).
    pub fn root(&mut self, of_store: StoreNumber) -> Result<Fixed, Refusal> {
        calls::root(&mut self.records, self.frames.as_ref(), self.store.as_ref(), &self.directory, of_store)
    }

    /// As [`unfix`](calls::unfix).
    pub fn unfix(&mut self, handle: Handle) -> Result<(), Refusal> {
        calls::unfix(&mut self.records, self.frames.as_ref(), self.store.as_ref(), &self.directory, handle)
    }

    /// As [`show`](calls::show), which borrows the frames alone and not the whole pool.
    pub fn show(&self, handle: Handle) -> Result<&[u8], Refusal> {
        calls::show(&self.records, self.frames.as_ref(), self.store.as_ref(), &self.directory, handle)
    }

    /// As [`peek`](calls::peek), which borrows frames and store and neither records nor directory.
    pub fn peek(&self, of_store: StoreNumber, page: PageNumber) -> Result<&[u8], Refusal> {
        calls::peek(&self.records, self.frames.as_ref(), self.store.as_ref(), &self.directory, of_store, page)
    }

    /// As [`word`](calls::word).
    pub fn word(&self, handle: Handle, slot: usize) -> Result<Option<Named>, Refusal> {
        calls::word(&self.records, self.frames.as_ref(), self.store.as_ref(), &self.directory, handle, slot)
    }

    /// As [`find`](calls::find).
    pub fn find(&self, of_store: StoreNumber, page: PageNumber) -> Result<Found, Refusal> {
        calls::find(&self.records, self.frames.as_ref(), self.store.as_ref(), &self.directory, of_store, page)
    }

    /// As [`draw`](calls::draw).
    pub fn draw(&self, generator: &mut Generator) -> Result<Entry, Refusal> {
        calls::draw(&self.records, self.frames.as_ref(), self.store.as_ref(), &self.directory, generator)
    }
}

/// The calls that change frames, store or directory.
impl<F, S> PagePool<F, S>
where
    F: AsRef<[u8]> + AsMut<[u8]>,
    S: AsRef<[u8]> + AsMut<[u8]>,
{
    /// Begins with the stores as they are, as [`open`](calls::open) does. Refused, records and directory stay as they were.
    pub fn open(&mut self, stores: Stores) -> Result<(), Refusal> {
        calls::open_into(
            &mut self.records,
            self.frames.as_mut(),
            self.store.as_ref(),
            &mut self.directory,
            stores,
        )
    }

    /// As [`fix`](calls::fix).
    pub fn fix(&mut self, handle: Handle, slot: usize) -> Result<Fixed, Refusal> {
        calls::fix(
            &mut self.records,
            self.frames.as_mut(),
            self.store.as_mut(),
            &mut self.directory,
            handle,
            slot,
        )
    }

    /// As [`write`](calls::write).
    pub fn write(&mut self, handle: Handle, offset: usize, bytes: &[u8]) -> Result<(), Refusal> {
        calls::write(
            &mut self.records,
            self.frames.as_mut(),
            self.store.as_ref(),
            &self.directory,
            handle,
            offset,
            bytes,
        )
    }

    /// As [`link`](calls::link).
    pub fn link(
        &mut self,
        handle: Handle,
        slot: usize,
        page: PageNumber,
        locked: bool,
    ) -> Result<(), Refusal> {
        calls::link(
            &mut self.records,
            self.frames.as_mut(),
            self.store.as_ref(),
            &self.directory,
            handle,
            slot,
            page,
            locked,
        )
    }

    /// As [`unlink`](calls::unlink).
    pub fn unlink(&mut self, handle: Handle, slot: usize) -> Result<(), Refusal> {
        calls::unlink(
            &mut self.records,
            self.frames.as_mut(),
            self.store.as_ref(),
            &self.directory,
            handle,
            slot,
        )
    }

    /// As [`evict`](calls::evict).
    pub fn evict(&mut self, of_store: StoreNumber, page: PageNumber) -> Result<(), Refusal> {
        calls::evict(
            &mut self.records,
            self.frames.as_mut(),
            self.store.as_mut(),
            &mut self.directory,
            of_store,
            page,
        )
    }

    /// As [`settle`](calls::settle).
    pub fn settle(&mut self) -> Result<(), Refusal> {
        calls::settle(&mut self.records, self.frames.as_ref(), self.store.as_mut(), &self.directory)
    }
}
