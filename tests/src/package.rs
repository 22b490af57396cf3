//! The linked library through the package's own functions, behind the same trait.
use crate::pool::{Buffer, Fixed, Found, Machine, Named, Place, Refusal};
use crate::records::{Entry, Generator, Handle, Page, PageNumber, Pool, State, StoreNumber, Stores};

pub struct Package;

pub(crate) type Answered<T> = Result<T, pagepool::Refusal>;

pub(crate) fn numbered<T>(answer: Answered<T>) -> Result<T, Refusal> {
    answer.map_err(pagepool::Refusal::number)
}

pub(crate) fn fixed(answer: Answered<pagepool::Fixed>) -> Result<Fixed, Refusal> {
    numbered(answer).map(|pagepool::Fixed { handle, looks }| Fixed { handle, looks })
}

/// What a word names, page 0 where nothing.
pub(crate) fn named(answer: Answered<Option<pagepool::Named>>) -> Result<Named, Refusal> {
    let nothing = Named { page: PageNumber(0), locked: false };
    Ok(numbered(answer)?.map_or(nothing, |pagepool::Named { page, locked }| Named { page, locked }))
}

pub(crate) fn found(answer: Answered<pagepool::Found>) -> Result<Found, Refusal> {
    numbered(answer).map(|pagepool::Found { frame, compared }| Found { frame, compared })
}

/// Where a part of a state's buffers lies.
pub(crate) fn place(state: &State, part: Answered<&[u8]>) -> Result<Place, Refusal> {
    let part = numbered(part)?;
    let buffers = [(Buffer::Frames, &state.frames), (Buffer::Store, &state.store)];
    let within = buffers.into_iter().find(|(_, buffer)| buffer.as_ptr_range().contains(&part.as_ptr()));
    let (buffer, bytes) = within.expect("a part of the lent buffers");
    Ok(Place { buffer, start: part.as_ptr() as usize - bytes.as_ptr() as usize, size: part.len() })
}

impl Machine for Package {
    /// A refused open gives no records here.
    fn open(
        &self,
        frames: &mut [u8],
        store: &mut [u8],
        directory: &mut [u8],
        stores: Stores,
    ) -> (Result<(), Refusal>, Pool) {
        match numbered(pagepool::open(frames, store, directory, stores)) {
            Ok(pool) => (Ok(()), pool),
            Err(refusal) => (Err(refusal), Pool::ZERO),
        }
    }

    fn root(&self, state: &mut State, of_store: StoreNumber) -> Result<Fixed, Refusal> {
        fixed(pagepool::root(&mut state.pool, &state.frames, &state.store, &state.directory, of_store))
    }

    fn fix(&self, state: &mut State, handle: Handle, slot: usize) -> Result<Fixed, Refusal> {
        let State { pool, frames, store, directory } = state;
        fixed(pagepool::fix(pool, frames, store, directory, handle, slot))
    }

    fn unfix(&self, state: &mut State, handle: Handle) -> Result<(), Refusal> {
        let State { pool, frames, store, directory } = state;
        numbered(pagepool::unfix(pool, frames, store, directory, handle))
    }

    fn show(&self, state: &State, handle: Handle) -> Result<Place, Refusal> {
        let State { pool, frames, store, directory } = state;
        place(state, pagepool::show(pool, frames, store, directory, handle))
    }

    fn peek(&self, state: &State, page: Page) -> Result<Place, Refusal> {
        let State { pool, frames, store, directory } = state;
        place(state, pagepool::peek(pool, frames, store, directory, page.store, page.number))
    }

    fn word(&self, state: &State, handle: Handle, slot: usize) -> Result<Named, Refusal> {
        let State { pool, frames, store, directory } = state;
        named(pagepool::word(pool, frames, store, directory, handle, slot))
    }

    fn write(&self, state: &mut State, handle: Handle, offset: usize, bytes: &[u8]) -> Result<(), Refusal> {
        let State { pool, frames, store, directory } = state;
        numbered(pagepool::write(pool, frames, store, directory, handle, offset, bytes))
    }

    fn link(
        &self,
        state: &mut State,
        handle: Handle,
        slot: usize,
        page: PageNumber,
        locked: bool,
    ) -> Result<(), Refusal> {
        let State { pool, frames, store, directory } = state;
        numbered(pagepool::link(pool, frames, store, directory, handle, slot, page, locked))
    }

    fn unlink(&self, state: &mut State, handle: Handle, slot: usize) -> Result<(), Refusal> {
        let State { pool, frames, store, directory } = state;
        numbered(pagepool::unlink(pool, frames, store, directory, handle, slot))
    }

    fn evict(&self, state: &mut State, page: Page) -> Result<(), Refusal> {
        let State { pool, frames, store, directory } = state;
        numbered(pagepool::evict(pool, frames, store, directory, page.store, page.number))
    }

    fn settle(&self, state: &mut State) -> Result<(), Refusal> {
        let State { pool, frames, store, directory } = state;
        numbered(pagepool::settle(pool, frames, store, directory))
    }

    fn find(&self, state: &State, page: Page) -> Result<Found, Refusal> {
        let State { pool, frames, store, directory } = state;
        found(pagepool::find(pool, frames, store, directory, page.store, page.number))
    }

    fn seeded(&self, seed: u32) -> Generator {
        Generator::seeded(seed)
    }

    fn draw(&self, state: &State, generator: &mut Generator) -> Result<Entry, Refusal> {
        let State { pool, frames, store, directory } = state;
        numbered(pagepool::draw(pool, frames, store, directory, generator))
    }
}
