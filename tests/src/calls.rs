//! A call with its arguments as a value, and its answer.
use crate::pool::{Fixed, Found, Machine, Named, Place, Refusal};
use crate::records::{page, Handle, PageNumber, Pool, State, StoreNumber, Stores};

/// A store's number stands before a page's.
#[derive(Clone, Debug, PartialEq, Eq)]
pub enum Call {
    Open(Stores),
    Root(u8),
    Fix(Handle, usize),
    Unfix(Handle),
    Show(Handle),
    Peek(u8, u16),
    Word(Handle, usize),
    Write(Handle, usize, Vec<u8>),
    /// With the mark that the word gets.
    Link(Handle, usize, u16, bool),
    Unlink(Handle, usize),
    Evict(u8, u16),
    Settle,
    Find(u8, u16),
}

/// The names of the calls, in the order of `Call::index`.
pub const NAMES: [&str; 13] = [
    "open", "root", "fix", "unfix", "show", "peek", "word", "write", "link", "unlink", "evict", "settle",
    "find",
];

/// Request A.10's call, which makes a record and changes nothing, so that a list is the same without it.
pub const DRAW: &str = "draw";

#[derive(Clone, Copy, Debug, PartialEq, Eq)]
pub enum Answer {
    Refused(Refusal),
    Done,
    Fixed(Fixed),
    Place(Place),
    Named(Named),
    Found(Found),
}

impl Answer {
    /// The refusal's number, 0 if accepted.
    pub fn number(&self) -> Refusal {
        match self {
            Answer::Refused(number) => *number,
            _ => 0,
        }
    }

    pub fn accepted(&self) -> bool {
        self.number() == 0
    }
}

fn answer<T>(result: Result<T, Refusal>, accepted: impl FnOnce(T) -> Answer) -> Answer {
    result.map_or_else(Answer::Refused, accepted)
}

impl Call {
    pub fn index(&self) -> usize {
        match self {
            Call::Open(_) => 0,
            Call::Root(_) => 1,
            Call::Fix(..) => 2,
            Call::Unfix(..) => 3,
            Call::Show(..) => 4,
            Call::Peek(..) => 5,
            Call::Word(..) => 6,
            Call::Write(..) => 7,
            Call::Link(..) => 8,
            Call::Unlink(..) => 9,
            Call::Evict(..) => 10,
            Call::Settle => 11,
            Call::Find(..) => 12,
        }
    }

    /// Makes the call. After a refused open the state keeps its old records.
    pub fn make(&self, machine: &impl Machine, state: &mut State) -> Answer {
        let done = |()| Answer::Done;
        match self {
            Call::Open(stores) => reopen(machine, state, *stores),
            Call::Root(store) => answer(machine.root(state, StoreNumber(*store)), Answer::Fixed),
            Call::Fix(handle, slot) => answer(machine.fix(state, *handle, *slot), Answer::Fixed),
            Call::Unfix(handle) => answer(machine.unfix(state, *handle), done),
            Call::Show(handle) => answer(machine.show(state, *handle), Answer::Place),
            Call::Peek(store, number) => answer(machine.peek(state, page(*store, *number)), Answer::Place),
            Call::Word(handle, slot) => answer(machine.word(state, *handle, *slot), Answer::Named),
            Call::Write(handle, offset, bytes) => answer(machine.write(state, *handle, *offset, bytes), done),
            Call::Link(handle, slot, page, locked) => {
                answer(machine.link(state, *handle, *slot, PageNumber(*page), *locked), done)
            }
            Call::Unlink(handle, slot) => answer(machine.unlink(state, *handle, *slot), done),
            Call::Evict(store, number) => answer(machine.evict(state, page(*store, *number)), done),
            Call::Settle => answer(machine.settle(state), done),
            Call::Find(store, number) => answer(machine.find(state, page(*store, *number)), Answer::Found),
        }
    }
}

fn reopen(machine: &impl Machine, state: &mut State, stores: Stores) -> Answer {
    let (opened, records) = machine.open(&mut state.frames, &mut state.store, &mut state.directory, stores);
    match opened {
        Ok(()) => state.pool = records,
        Err(_) => assert_eq!(records, Pool::ZERO, "the records of a refused open"),
    }
    answer(opened, |()| Answer::Done)
}
