//! The calls as an archive of version 5.0 exports them, on one store: with the feature `former` they are the library's in every row
//! of one store, so that such an archive can be timed. `bench/compare` asks for it where it has to.
//!
//! Structs and declarations repeat those of `rust/src/raw.rs`, since each takes or answers the records, and those of 5.0 know no T.
use pagepool::raw::{Drawn, Found, Named, Place};
use pagepool::{
    Entry, FrameIndex, FrameRecord, Generator, PageNumber, Pool, Refusal, StoreNumber, Stores,
    DIRECTORY_SIZE, MOST_FRAMES,
};

/// 5.0's records. In those of a frame, the store's number is padding.
#[repr(C)]
#[derive(Clone, Copy, PartialEq)]
struct Records {
    records: [FrameRecord; MOST_FRAMES],
    count: u16,
    pages: u16,
    hand: FrameIndex,
}

impl From<&Pool> for Records {
    fn from(pool: &Pool) -> Records {
        let Pool { records, count, pages, hand, .. } = *pool;
        Records { records, count, pages, hand }
    }
}

#[repr(C)]
#[derive(Clone, Copy)]
struct Handle {
    frame: FrameIndex,
    page: PageNumber,
}

impl From<pagepool::Handle> for Handle {
    fn from(handle: pagepool::Handle) -> Handle {
        Handle { frame: handle.frame, page: handle.page }
    }
}

#[repr(C)]
struct Done {
    pool: Records,
    refusal: u8,
}

#[repr(C)]
struct Fixed {
    pool: Records,
    refusal: u8,
    handle: Handle,
    looks: u16,
}

/// Declares functions that take the records, frames, store and directory lent as the pointers say, and then their own arguments.
macro_rules! exported {
    ($frames:ty, $store:ty, $directory:ty; $($name:ident($($argument:ident: $kind:ty),*) -> $answer:ty;)*) => {
        // The package's own of these names aren't called beside these.
        #[allow(clashing_extern_declarations)]
        extern "C" {
            $(fn $name(
                pool: Records,
                frames: $frames,
                frames_size: usize,
                store: $store,
                store_size: usize,
                directory: $directory,
                directory_size: usize,
                $($argument: $kind),*
            ) -> $answer;)*
        }
    };
}

exported! {
    *const u8, *const u8, *const u8;
    pool_root() -> Fixed;
    pool_unfix(handle: Handle) -> Done;
    pool_show(handle: Handle) -> Place;
    pool_peek(page: PageNumber) -> Place;
    pool_word(handle: Handle, slot: usize) -> Named;
    pool_find(page: PageNumber) -> Found;
    pool_draw(generator: Generator) -> Drawn;
}

exported! {
    *mut u8, *const u8, *const u8;
    pool_write(handle: Handle, offset: usize, bytes: *const u8, bytes_size: usize) -> Done;
    pool_link(handle: Handle, slot: usize, page: PageNumber, locked: bool) -> Done;
    pool_unlink(handle: Handle, slot: usize) -> Done;
}

exported! {
    *const u8, *mut u8, *const u8;
    pool_settle() -> Done;
}

exported! {
    *mut u8, *mut u8, *mut u8;
    pool_fix(handle: Handle, slot: usize) -> Fixed;
    pool_evict(page: PageNumber) -> Done;
}

#[allow(clashing_extern_declarations)]
extern "C" {
    fn pool_open(
        frames: *mut u8,
        frames_size: usize,
        store: *const u8,
        store_size: usize,
        directory: *mut u8,
        directory_size: usize,
    ) -> Done;
}

/// A pool with its buffers, as the package's of the same name, but with records of its own beside those that the baseline takes.
#[derive(Clone, PartialEq)]
pub struct PagePool<F, S> {
    pub records: Pool,
    own: Records,
    pub frames: F,
    pub store: S,
    pub directory: [u8; DIRECTORY_SIZE],
}

fn unless_refused<T>(refusal: u8, accepted: T) -> Result<T, Refusal> {
    match refusal {
        0 => Ok(accepted),
        number => Err(Refusal::try_from(number).expect("a refusal's number")),
    }
}

/// Calls an exported function with the records and the buffers, lent as the three names say, and then its own arguments.
macro_rules! call {
    ($name:ident($pool:ident.$frames:ident.$store:ident.$directory:ident $(, $argument:expr)*)) => {
        // SAFETY: each pointer is that of a buffer of the length beside it, lent for the call alone.
        unsafe {
            $name(
                $pool.own,
                $pool.frames.$frames(),
                $pool.frames.len(),
                $pool.store.$store(),
                $pool.store.len(),
                $pool.directory.$directory(),
                $pool.directory.len()
                $(, $argument)*
            )
        }
    };
}

impl PagePool<Vec<u8>, Vec<u8>> {
    pub fn new(frames: Vec<u8>, store: Vec<u8>) -> Self {
        let own = Records::from(&Pool::ZERO);
        PagePool { records: Pool::ZERO, own, frames, store, directory: [0; DIRECTORY_SIZE] }
    }

    /// Puts records into both places.
    pub fn put_records(&mut self, records: &Pool) {
        self.records = *records;
        self.own = Records::from(records);
    }

    fn done(&mut self, done: Done) -> Result<(), Refusal> {
        self.own = done.pool;
        unless_refused(done.refusal, ())
    }

    fn fixed(&mut self, fixed: Fixed) -> Result<pagepool::Fixed, Refusal> {
        self.own = fixed.pool;
        let Handle { frame, page } = fixed.handle;
        let handle = pagepool::Handle { frame, store: StoreNumber(0), page };
        unless_refused(fixed.refusal, pagepool::Fixed { handle, looks: fixed.looks })
    }

    fn part(&self, place: Place) -> Result<&[u8], Refusal> {
        let buffer = if place.in_store { &self.store } else { &self.frames };
        unless_refused(place.refusal, place.start..place.start + place.size).map(|range| &buffer[range])
    }

    pub fn open(&mut self, _: Stores) -> Result<(), Refusal> {
        let (frames, store, directory) = (&mut self.frames, &self.store, &mut self.directory);
        // SAFETY: as in `call`.
        let done = unsafe {
            pool_open(
                frames.as_mut_ptr(),
                frames.len(),
                store.as_ptr(),
                store.len(),
                directory.as_mut_ptr(),
                directory.len(),
            )
        };
        unless_refused(done.refusal, ()).map(|()| self.own = done.pool)
    }

    pub fn root(&mut self, _: StoreNumber) -> Result<pagepool::Fixed, Refusal> {
        let fixed = call!(pool_root(self.as_ptr.as_ptr.as_ptr));
        self.fixed(fixed)
    }

    pub fn fix(&mut self, handle: pagepool::Handle, slot: usize) -> Result<pagepool::Fixed, Refusal> {
        let fixed = call!(pool_fix(self.as_mut_ptr.as_mut_ptr.as_mut_ptr, handle.into(), slot));
        self.fixed(fixed)
    }

    pub fn unfix(&mut self, handle: pagepool::Handle) -> Result<(), Refusal> {
        let done = call!(pool_unfix(self.as_ptr.as_ptr.as_ptr, handle.into()));
        self.done(done)
    }

    pub fn show(&self, handle: pagepool::Handle) -> Result<&[u8], Refusal> {
        self.part(call!(pool_show(self.as_ptr.as_ptr.as_ptr, handle.into())))
    }

    pub fn peek(&self, _: StoreNumber, page: PageNumber) -> Result<&[u8], Refusal> {
        self.part(call!(pool_peek(self.as_ptr.as_ptr.as_ptr, page)))
    }

    pub fn word(&self, handle: pagepool::Handle, slot: usize) -> Result<Option<pagepool::Named>, Refusal> {
        let named = call!(pool_word(self.as_ptr.as_ptr.as_ptr, handle.into(), slot));
        let Named { refusal, locked, page } = named;
        unless_refused(refusal, (page != PageNumber(0)).then_some(pagepool::Named { page, locked }))
    }

    pub fn write(&mut self, handle: pagepool::Handle, offset: usize, bytes: &[u8]) -> Result<(), Refusal> {
        let (start, size) = (bytes.as_ptr(), bytes.len());
        let done = call!(pool_write(self.as_mut_ptr.as_ptr.as_ptr, handle.into(), offset, start, size));
        self.done(done)
    }

    pub fn link(
        &mut self,
        handle: pagepool::Handle,
        slot: usize,
        page: PageNumber,
        locked: bool,
    ) -> Result<(), Refusal> {
        let done = call!(pool_link(self.as_mut_ptr.as_ptr.as_ptr, handle.into(), slot, page, locked));
        self.done(done)
    }

    pub fn unlink(&mut self, handle: pagepool::Handle, slot: usize) -> Result<(), Refusal> {
        let done = call!(pool_unlink(self.as_mut_ptr.as_ptr.as_ptr, handle.into(), slot));
        self.done(done)
    }

    pub fn evict(&mut self, _: StoreNumber, page: PageNumber) -> Result<(), Refusal> {
        let done = call!(pool_evict(self.as_mut_ptr.as_mut_ptr.as_mut_ptr, page));
        self.done(done)
    }

    pub fn settle(&mut self) -> Result<(), Refusal> {
        let done = call!(pool_settle(self.as_ptr.as_mut_ptr.as_ptr));
        self.done(done)
    }

    pub fn find(&self, _: StoreNumber, page: PageNumber) -> Result<pagepool::Found, Refusal> {
        let found = call!(pool_find(self.as_ptr.as_ptr.as_ptr, page));
        let frame = found.present.then_some(found.frame);
        unless_refused(found.refusal, pagepool::Found { frame, compared: found.compared })
    }

    pub fn draw(&self, generator: &mut Generator) -> Result<Entry, Refusal> {
        let drawn = call!(pool_draw(self.as_ptr.as_ptr.as_ptr, *generator));
        *generator = drawn.generator;
        unless_refused(drawn.refusal, drawn.entry)
    }
}
