//! The exported functions and the structs that they answer, as `include/pagepool.h` declares and explains them.
#![allow(missing_docs)]

use crate::records::{Entry, FrameIndex, Generator, Handle, PageNumber, Pool, StoreNumber, MOST_STORES};
use crate::tally::TallyHead;

#[repr(C)]
#[derive(Clone, Copy, Debug)]
pub struct Ceilings {
    pub most: [u8; MOST_STORES],
}

#[repr(C)]
#[derive(Clone, Copy, Debug)]
pub struct Done {
    pub pool: Pool,
    pub refusal: u8,
}

#[repr(C)]
#[derive(Clone, Copy, Debug)]
pub struct Fixed {
    pub pool: Pool,
    pub refusal: u8,
    pub handle: Handle,
    pub looks: u16,
}

#[repr(C)]
#[derive(Clone, Copy, Debug)]
pub struct Named {
    pub refusal: u8,
    pub locked: bool,
    pub page: PageNumber,
}

#[repr(C)]
#[derive(Clone, Copy, Debug)]
pub struct Found {
    pub refusal: u8,
    pub present: bool,
    pub frame: FrameIndex,
    pub compared: u16,
}

#[repr(C)]
#[derive(Clone, Copy, Debug)]
pub struct Place {
    pub refusal: u8,
    pub in_store: bool,
    pub start: usize,
    pub size: usize,
}

#[repr(C)]
#[derive(Clone, Copy, Debug)]
pub struct Drawn {
    pub refusal: u8,
    pub entry: Entry,
    pub generator: Generator,
}

#[repr(C)]
#[derive(Clone, Copy, Debug)]
pub struct Added {
    pub refusal: u8,
    pub tally: TallyHead,
}

#[repr(C)]
#[derive(Clone, Copy, Debug)]
pub struct Share {
    pub refusal: u8,
    pub within: u64,
    pub all: u64,
}

/// Declares functions that take the records, frames, store and directory lent as the pointers say, and then their own arguments.
macro_rules! exported {
    ($frames:ty, $store:ty, $directory:ty; $($name:ident($($argument:ident: $kind:ty),*) -> $answer:ty;)*) => {
        extern "C" {
            $(pub fn $name(
                pool: Pool,
                frames: $frames,
                frames_size: usize,
                store: $store,
                store_size: usize,
                directory: $directory,
                directory_size: usize,
                $($argument: $kind),*
            ) -> $answer;)*
        }
    };
}

exported! {
    *const u8, *const u8, *const u8;
    pool_root(of_store: StoreNumber) -> Fixed;
    pool_unfix(handle: Handle) -> Done;
    pool_show(handle: Handle) -> Place;
    pool_peek(of_store: StoreNumber, page: PageNumber) -> Place;
    pool_word(handle: Handle, slot: usize) -> Named;
    pool_find(of_store: StoreNumber, page: PageNumber) -> Found;
    pool_draw(generator: Generator) -> Drawn;
}

exported! {
    *mut u8, *const u8, *const u8;
    pool_write(handle: Handle, offset: usize, bytes: *const u8, bytes_size: usize) -> Done;
    pool_link(handle: Handle, slot: usize, page: PageNumber, locked: bool) -> Done;
    pool_unlink(handle: Handle, slot: usize) -> Done;
}

exported! {
    *const u8, *mut u8, *const u8;
    pool_settle() -> Done;
}

exported! {
    *mut u8, *mut u8, *mut u8;
    pool_fix(handle: Handle, slot: usize) -> Fixed;
    pool_evict(of_store: StoreNumber, page: PageNumber) -> Done;
}

extern "C" {
    pub fn pool_open(
        frames: *mut u8,
        frames_size: usize,
        store: *const u8,
        store_size: usize,
        directory: *mut u8,
        directory_size: usize,
        stores: u8,
        ceilings: Ceilings,
    ) -> Done;

    pub fn pool_seeded(seed: u32) -> Generator;

    pub fn pool_tally_add(
        tally: TallyHead,
        counts: *mut u32,
        counts_length: usize,
        pages: *const u16,
        pages_length: usize,
    ) -> Added;
    pub fn pool_tally_share(tally: TallyHead, counts: *const u32, counts_length: usize, size: u64) -> Share;
    pub fn pool_tally_report(
        counts: *const u32,
        counts_length: usize,
        hits: *mut u64,
        hits_length: usize,
    ) -> u8;

    pub fn pool_layout_done() -> Done;
    pub fn pool_layout_fixed() -> Fixed;
    pub fn pool_layout_named() -> Named;
    pub fn pool_layout_found() -> Found;
    pub fn pool_layout_place() -> Place;
    pub fn pool_layout_drawn() -> Drawn;
    pub fn pool_layout_added() -> Added;
    pub fn pool_layout_share() -> Share;
}
