//! The linked library through the methods of the package's `PagePool`, behind the same trait. Its directory is an array: a state
//! with one of another length can't be held so.
use crate::package::{fixed, found, named, numbered, place, Answered};
use crate::pool::{Fixed, Found, Machine, Named, Place, Refusal};
use crate::records::{
    Entry, Generator, Handle, Page, PageNumber, Pool, State, StoreNumber, Stores, DIRECTORY_SIZE,
};
use pagepool::PagePool;

pub struct Held;

/// Whether a state can be held.
pub fn can_hold(state: &State) -> bool {
    state.directory.len() == DIRECTORY_SIZE
}

fn array(directory: &[u8]) -> [u8; DIRECTORY_SIZE] {
    directory.try_into().expect("a directory of 131 bytes")
}

/// Makes a call that may change a state.
fn change<T>(
    state: &mut State,
    call: impl FnOnce(&mut PagePool<&mut [u8], &mut [u8]>) -> Answered<T>,
) -> Answered<T> {
    let mut pool = PagePool {
        records: state.pool,
        frames: &mut state.frames[..],
        store: &mut state.store[..],
        directory: array(&state.directory),
    };
    let answer = call(&mut pool);
    state.pool = pool.records;
    state.directory = pool.directory.to_vec();
    answer
}

fn shared(state: &State) -> PagePool<&[u8], &[u8]> {
    let directory = array(&state.directory);
    PagePool { records: state.pool, frames: &state.frames, store: &state.store, directory }
}

impl Machine for Held {
    /// A refused open gives no records here.
    fn open(
        &self,
        frames: &mut [u8],
        store: &mut [u8],
        directory: &mut [u8],
        stores: Stores,
    ) -> (Result<(), Refusal>, Pool) {
        let mut pool = PagePool::new(frames, store);
        pool.directory.copy_from_slice(directory);
        let opened = pool.open(stores);
        directory.copy_from_slice(&pool.directory);
        (numbered(opened), pool.records)
    }

    fn root(&self, state: &mut State, of_store: StoreNumber) -> Result<Fixed, Refusal> {
        fixed(change(state, |pool| pool.root(of_store)))
    }

    fn fix(&self, state: &mut State, handle: Handle, slot: usize) -> Result<Fixed, Refusal> {
        fixed(change(state, |pool| pool.fix(handle, slot)))
    }

    fn unfix(&self, state: &mut State, handle: Handle) -> Result<(), Refusal> {
        numbered(change(state, |pool| pool.unfix(handle)))
    }

    fn show(&self, state: &State, handle: Handle) -> Result<Place, Refusal> {
        place(state, shared(state).show(handle))
    }

    fn peek(&self, state: &State, page: Page) -> Result<Place, Refusal> {
        place(state, shared(state).peek(page.store, page.number))
    }

    fn word(&self, state: &State, handle: Handle, slot: usize) -> Result<Named, Refusal> {
        named(shared(state).word(handle, slot))
    }

    fn write(&self, state: &mut State, handle: Handle, offset: usize, bytes: &[u8]) -> Result<(), Refusal> {
        numbered(change(state, |pool| pool.write(handle, offset, bytes)))
    }

    fn link(
        &self,
        state: &mut State,
        handle: Handle,
        slot: usize,
        page: PageNumber,
        locked: bool,
    ) -> Result<(), Refusal> {
        numbered(change(state, |pool| pool.link(handle, slot, page, locked)))
    }

    fn unlink(&self, state: &mut State, handle: Handle, slot: usize) -> Result<(), Refusal> {
        numbered(change(state, |pool| pool.unlink(handle, slot)))
    }

    fn evict(&self, state: &mut State, page: Page) -> Result<(), Refusal> {
        numbered(change(state, |pool| pool.evict(page.store, page.number)))
    }

    fn settle(&self, state: &mut State) -> Result<(), Refusal> {
        numbered(change(state, |pool| pool.settle()))
    }

    fn find(&self, state: &State, page: Page) -> Result<Found, Refusal> {
        found(shared(state).find(page.store, page.number))
    }

    fn seeded(&self, seed: u32) -> Generator {
        Generator::seeded(seed)
    }

    fn draw(&self, state: &State, generator: &mut Generator) -> Result<Entry, Refusal> {
        numbered(shared(state).draw(generator))
    }
}
