//! A pool for a single case: each call is made on the machine under test and compared with the model.
use crate::calls::{Answer, Call};
use crate::coverage::Coverage;
use crate::lockstep::{draw, step};
use crate::pool::{Buffer, Place, Refusal, UnderTest};
use crate::records::{
    page, page_of, page_of_mut, put_word, word_in, Entry, FrameIndex, FrameRecord, Generator, Handle, Pool,
    State, Stores, DIRECTORY_SIZE, PAGE_SIZE,
};

/// A word of a stored page: the page, the slot, and the word, which is the page that it names, with the mark or without.
pub type Link = (usize, usize, u32);

/// A pool of so many frames and 16 pages: pages 5, 6 and 7 are in frames 1, 2 and 3, under slots 1, 2 and 3 of the root, and page
/// 8, under slot 4, in none. The root alone is pinned.
pub fn three_children(frames: usize) -> (Trial, Handle) {
    let mut trial = Trial::open(frames, 16, &[(0, 1, 5), (0, 2, 6), (0, 3, 7), (0, 4, 8)]);
    let root = trial.root();
    for slot in 1..4 {
        let child = trial.fix(root, slot);
        trial.accept(Call::Unfix(child));
    }
    (trial, root)
}

/// The payload of the page at an index of a buffer.
pub fn payload(buffer: Buffer, index: usize) -> Answer {
    Answer::Place(Place { buffer, start: 256 * index + 64, size: 192 })
}

#[derive(Clone)]
pub struct Trial {
    pub state: State,
}

impl Trial {
    /// A pool of one store, which may fill every frame, just opened over zero pages with some words.
    pub fn open(frames: usize, pages: usize, links: &[Link]) -> Trial {
        let mut trial = Trial::closed(frames, pages, links);
        assert_eq!(trial.reopen(), 0);
        trial
    }

    /// A pool of several stores of so many zero pages, in each of which these words stand.
    pub fn open_stores(frames: usize, pages: usize, stores: Stores, links: &[Link]) -> Trial {
        let mut trial = Trial::closed(frames, pages * usize::from(stores.count), &[]);
        for (store, (number, slot, word)) in
            (0..stores.count).flat_map(|store| links.iter().map(move |link| (store, *link)))
        {
            trial.put_stored_word(page(store, number as u16).place(pages as u16), slot, word);
        }
        trial.accept(Call::Open(stores));
        trial
    }

    /// The refusal's number of an open with one store, which may fill every frame.
    pub fn reopen(&mut self) -> u8 {
        self.number(Call::Open(self.state.as_one()))
    }

    /// The buffers before an open, with no records.
    pub fn closed(frames: usize, pages: usize, links: &[Link]) -> Trial {
        let mut store = vec![0; PAGE_SIZE * pages];
        for (page, slot, word) in links {
            put_word(page_of_mut(&mut store, *page), *slot, *word);
        }
        let (frames, directory) = (vec![0; PAGE_SIZE * frames], vec![0; DIRECTORY_SIZE]);
        Trial { state: State { pool: Pool::ZERO, frames, store, directory } }
    }

    pub fn call(&mut self, call: Call) -> Answer {
        step(&UnderTest, &mut self.state, &call, &mut Coverage::default()).unwrap()
    }

    /// A record of the pool as it is, by a generator that is moved on.
    pub fn draw(&self, generator: &mut Generator) -> Result<Entry, Refusal> {
        draw(&UnderTest, &self.state, generator, &mut Coverage::default()).unwrap()
    }

    /// The refusal's number of a call, 0 if accepted.
    pub fn number(&mut self, call: Call) -> u8 {
        self.call(call).number()
    }

    /// A call that must be accepted.
    pub fn accept(&mut self, call: Call) {
        let answer = self.call(call.clone());
        assert!(answer.accepted(), "{call:?}: {answer:?}");
    }

    /// Pins the root of the first store.
    pub fn root(&mut self) -> Handle {
        self.root_of(0)
    }

    /// Pins the root of a store.
    pub fn root_of(&mut self, store: u8) -> Handle {
        self.handle(Call::Root(store))
    }

    /// Pins the page in a slot.
    pub fn fix(&mut self, parent: Handle, slot: usize) -> Handle {
        self.handle(Call::Fix(parent, slot))
    }

    fn handle(&mut self, call: Call) -> Handle {
        match self.call(call.clone()) {
            Answer::Fixed(fixed) => fixed.handle,
            other => panic!("{call:?}: {other:?}"),
        }
    }

    /// The frame of a page of the first store, none if it is absent, and the entries that find compares.
    pub fn find(&mut self, page: u16) -> (Option<u8>, u16) {
        self.find_in(0, page)
    }

    /// The same for a page of a store.
    pub fn find_in(&mut self, store: u8, page: u16) -> (Option<u8>, u16) {
        match self.call(Call::Find(store, page)) {
            Answer::Found(found) => (found.frame.map(|frame| frame.0), found.compared),
            other => panic!("find {page} of store {store}: {other:?}"),
        }
    }

    /// The page that a slot names, 0 for none, and whether the word marks it as locked.
    pub fn word(&mut self, page: Handle, slot: usize) -> (u16, bool) {
        match self.call(Call::Word(page, slot)) {
            Answer::Named(named) => (named.page.0, named.locked),
            other => panic!("word {slot} of {page:?}: {other:?}"),
        }
    }

    pub fn record(&mut self, frame: u8) -> &mut FrameRecord {
        self.state.pool.record_mut(FrameIndex(frame))
    }

    pub fn frame_word(&self, frame: usize, slot: usize) -> u32 {
        word_in(page_of(&self.state.frames, frame), slot)
    }

    pub fn stored_word(&self, page: usize, slot: usize) -> u32 {
        word_in(page_of(&self.state.store, page), slot)
    }

    pub fn put_frame_word(&mut self, frame: usize, slot: usize, word: u32) {
        put_word(page_of_mut(&mut self.state.frames, frame), slot, word);
    }

    pub fn put_stored_word(&mut self, page: usize, slot: usize, word: u32) {
        put_word(page_of_mut(&mut self.state.store, page), slot, word);
    }
}
