//! The linked library `pagepool`, behind the same trait as the model.
use crate::pool::{Buffer, Fixed, Found, Machine, Named, Place, Refusal};
use crate::records::{
    self, Entry, FrameIndex, Generator, Handle, Page, PageNumber, Pool, State, StoreNumber, Stores,
};
use pagepool::raw;

/// Lends a state to a function that may change it, or to one that only reads.
macro_rules! lend {
    (mut $state:ident, $name:ident $(, $argument:expr)*) => {
        lend!(@ $state, as_mut_ptr, $name $(, $argument)*)
    };
    ($state:ident, $name:ident $(, $argument:expr)*) => {
        lend!(@ $state, as_ptr, $name $(, $argument)*)
    };
    (@ $state:ident, $pointer:ident, $name:ident $(, $argument:expr)*) => {
        // SAFETY: each pointer is that of a slice of the length beside it, lent for the call alone.
        unsafe {
            raw::$name(
                $state.pool,
                $state.frames.$pointer(),
                $state.frames.len(),
                $state.store.$pointer(),
                $state.store.len(),
                $state.directory.$pointer(),
                $state.directory.len()
                $(, $argument)*
            )
        }
    };
}

/// What an accepted call answers. "A refused call answers its number alone": the rest is 0.
fn unless_refused<T>(refusal: Refusal, rest_is_zero: bool, accepted: T) -> Result<T, Refusal> {
    if refusal == 0 {
        return Ok(accepted);
    }
    assert!(rest_is_zero, "more than its number beside refusal {refusal}");
    Err(refusal)
}

fn done(answer: raw::Done, state: &mut State) -> Result<(), Refusal> {
    state.pool = answer.pool;
    unless_refused(answer.refusal, true, ())
}

fn fixed(answer: raw::Fixed, state: &mut State) -> Result<Fixed, Refusal> {
    state.pool = answer.pool;
    let (handle, looks) = (answer.handle, answer.looks);
    let zero = (handle, looks) == (records::handle(0, 0), 0);
    unless_refused(answer.refusal, zero, Fixed { handle, looks })
}

fn place(answer: raw::Place) -> Result<Place, Refusal> {
    let buffer = if answer.in_store { Buffer::Store } else { Buffer::Frames };
    let (start, size) = (answer.start, answer.size);
    let zero = (answer.in_store, start, size) == (false, 0, 0);
    unless_refused(answer.refusal, zero, Place { buffer, start, size })
}

/// Where the word names nothing, too, there is no mark.
fn named(answer: raw::Named) -> Result<Named, Refusal> {
    let raw::Named { refusal, locked, page } = answer;
    assert!(!locked || page != PageNumber(0), "a mark beside no page, refusal {refusal}");
    unless_refused(refusal, page == PageNumber(0), Named { page, locked })
}

/// Beside 'absent', too, the frame is 0.
fn found(answer: raw::Found) -> Result<Found, Refusal> {
    let raw::Found { refusal, present, frame, compared } = answer;
    assert!(present || frame == FrameIndex(0), "frame {frame} beside 'absent'");
    let zero = !present && compared == 0;
    unless_refused(refusal, zero, Found { frame: present.then_some(frame), compared })
}

fn drawn(answer: raw::Drawn, generator: &mut Generator) -> Result<Entry, Refusal> {
    *generator = answer.generator;
    unless_refused(answer.refusal, answer.entry == [0; 16], answer.entry)
}

#[derive(Clone)]
pub struct Library;

impl Machine for Library {
    fn open(
        &self,
        frames: &mut [u8],
        store: &mut [u8],
        directory: &mut [u8],
        stores: Stores,
    ) -> (Result<(), Refusal>, Pool) {
        // SAFETY: as in `lend`.
        let done = unsafe {
            raw::pool_open(
                frames.as_mut_ptr(),
                frames.len(),
                store.as_mut_ptr(),
                store.len(),
                directory.as_mut_ptr(),
                directory.len(),
                stores.count,
                raw::Ceilings { most: stores.ceilings },
            )
        };
        (unless_refused(done.refusal, true, ()), done.pool)
    }

    fn root(&self, state: &mut State, of_store: StoreNumber) -> Result<Fixed, Refusal> {
        fixed(lend!(mut state, pool_root, of_store), state)
    }

    fn fix(&self, state: &mut State, handle: Handle, slot: usize) -> Result<Fixed, Refusal> {
        fixed(lend!(mut state, pool_fix, handle, slot), state)
    }

    fn unfix(&self, state: &mut State, handle: Handle) -> Result<(), Refusal> {
        done(lend!(mut state, pool_unfix, handle), state)
    }

    fn show(&self, state: &State, handle: Handle) -> Result<Place, Refusal> {
        place(lend!(state, pool_show, handle))
    }

    fn peek(&self, state: &State, page: Page) -> Result<Place, Refusal> {
        place(lend!(state, pool_peek, page.store, page.number))
    }

    fn word(&self, state: &State, handle: Handle, slot: usize) -> Result<Named, Refusal> {
        named(lend!(state, pool_word, handle, slot))
    }

    fn write(&self, state: &mut State, handle: Handle, offset: usize, bytes: &[u8]) -> Result<(), Refusal> {
        done(lend!(mut state, pool_write, handle, offset, bytes.as_ptr(), bytes.len()), state)
    }

    fn link(
        &self,
        state: &mut State,
        handle: Handle,
        slot: usize,
        page: PageNumber,
        locked: bool,
    ) -> Result<(), Refusal> {
        done(lend!(mut state, pool_link, handle, slot, page, locked), state)
    }

    fn unlink(&self, state: &mut State, handle: Handle, slot: usize) -> Result<(), Refusal> {
        done(lend!(mut state, pool_unlink, handle, slot), state)
    }

    fn evict(&self, state: &mut State, page: Page) -> Result<(), Refusal> {
        done(lend!(mut state, pool_evict, page.store, page.number), state)
    }

    fn settle(&self, state: &mut State) -> Result<(), Refusal> {
        done(lend!(mut state, pool_settle), state)
    }

    fn find(&self, state: &State, page: Page) -> Result<Found, Refusal> {
        found(lend!(state, pool_find, page.store, page.number))
    }

    fn seeded(&self, seed: u32) -> Generator {
        // SAFETY: a number is handed over, and one comes back.
        unsafe { raw::pool_seeded(seed) }
    }

    fn draw(&self, state: &State, generator: &mut Generator) -> Result<Entry, Refusal> {
        drawn(lend!(state, pool_draw, *generator), generator)
    }
}
