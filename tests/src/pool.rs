//! The machine under test: document 01's thirteen calls, and request A.10's draw, behind one trait.
use crate::records::{
    Entry, FrameIndex, Generator, Handle, Page, PageNumber, Pool, State, StoreNumber, Stores,
};

/// The number of the first broken rule.
pub type Refusal = u8;

/// The answer of root and fix.
#[derive(Clone, Copy, Debug, PartialEq, Eq)]
pub struct Fixed {
    pub handle: Handle,
    pub looks: u16,
}

/// The answer of find: the frame, none for 'absent', and the entries compared.
#[derive(Clone, Copy, Debug, PartialEq, Eq)]
pub struct Found {
    pub frame: Option<FrameIndex>,
    pub compared: u16,
}

/// The answer of word: the page that the word names, page 0 for none, and whether it marks that page as locked.
#[derive(Clone, Copy, Debug, PartialEq, Eq)]
pub struct Named {
    pub page: PageNumber,
    pub locked: bool,
}

#[derive(Clone, Copy, Debug, PartialEq, Eq)]
pub enum Buffer {
    Frames,
    Store,
}

/// The answer of show and peek: where the payload lies.
#[derive(Clone, Copy, Debug, PartialEq, Eq)]
pub struct Place {
    pub buffer: Buffer,
    pub start: usize,
    pub size: usize,
}

impl Place {
    /// The bytes there, if it is a place in its buffer.
    pub fn bytes<'a>(&self, state: &'a State) -> Option<&'a [u8]> {
        let buffer = match self.buffer {
            Buffer::Frames => &state.frames,
            Buffer::Store => &state.store,
        };
        buffer.get(self.start..)?.get(..self.size)
    }
}

pub trait Machine {
    /// The records handed back too: all zero with a refusal.
    fn open(
        &self,
        frames: &mut [u8],
        store: &mut [u8],
        directory: &mut [u8],
        stores: Stores,
    ) -> (Result<(), Refusal>, Pool);
    fn root(&self, state: &mut State, of_store: StoreNumber) -> Result<Fixed, Refusal>;
    fn fix(&self, state: &mut State, handle: Handle, slot: usize) -> Result<Fixed, Refusal>;
    fn unfix(&self, state: &mut State, handle: Handle) -> Result<(), Refusal>;
    fn show(&self, state: &State, handle: Handle) -> Result<Place, Refusal>;
    fn peek(&self, state: &State, page: Page) -> Result<Place, Refusal>;
    fn word(&self, state: &State, handle: Handle, slot: usize) -> Result<Named, Refusal>;
    fn write(&self, state: &mut State, handle: Handle, offset: usize, bytes: &[u8]) -> Result<(), Refusal>;
    fn link(
        &self,
        state: &mut State,
        handle: Handle,
        slot: usize,
        page: PageNumber,
        locked: bool,
    ) -> Result<(), Refusal>;
    fn unlink(&self, state: &mut State, handle: Handle, slot: usize) -> Result<(), Refusal>;
    fn evict(&self, state: &mut State, page: Page) -> Result<(), Refusal>;
    fn settle(&self, state: &mut State) -> Result<(), Refusal>;
    fn find(&self, state: &State, page: Page) -> Result<Found, Refusal>;

    fn seeded(&self, seed: u32) -> Generator;
    /// A record of the state, by a generator that is moved on.
    fn draw(&self, state: &State, generator: &mut Generator) -> Result<Entry, Refusal>;
}

#[cfg(feature = "host")]
pub use crate::host::Library as UnderTest;
#[cfg(not(feature = "host"))]
pub use crate::model::Model as UnderTest;
