//! Document 01 as a program, with document 02's changes, naive on purpose: each rule and each call reads like its sentence.
mod agreement;
pub mod chains;
pub mod directory;
pub mod drawing;
pub mod figures;
pub mod locks;
mod moves;
mod rules;
pub mod search;
pub mod sharing;
pub mod stays;
pub mod taken;
pub mod warmth;
pub mod workload;

use crate::pool::{Buffer, Fixed, Found, Machine, Named, Place, Refusal};
use crate::records::{
    handle_of, is_marked, mark_of, page_of, page_of_mut, put_word, unmarked, with_mark, word_in, Entry,
    FrameIndex, FrameRecord, Generator, Handle, Page, PageNumber, Pool, State, StoreNumber, Stores,
    MAX_USAGE, PAGE_SIZE, PAYLOAD_SIZE, PAYLOAD_START, SLOTS, SWIZZLE_BIT,
};
use rules::rule;

#[derive(Clone)]
pub struct Model;

/// The readings of a word, whether it marks what it names as locked or not. Request A.8: "page numbers and frame indices become the
/// low 30 bits".
#[derive(Clone, Copy, Debug, PartialEq, Eq)]
enum Reading {
    Nothing,
    /// Bit 30 "on a word of otherwise 0".
    MarkAlone,
    Page(u32),
    Frame(u32),
}

fn read(word: u32) -> Reading {
    let low = word % (1 << 30);
    if word == 0 {
        Reading::Nothing
    } else if word >= SWIZZLE_BIT {
        Reading::Frame(low)
    } else if low == 0 {
        Reading::MarkAlone
    } else {
        Reading::Page(low)
    }
}

fn swizzled_to(frame: FrameIndex) -> u32 {
    SWIZZLE_BIT + u32::from(frame)
}

/// The word in a slot of a frame.
fn frame_word(frames: &[u8], frame: FrameIndex, slot: usize) -> u32 {
    word_in(page_of(frames, usize::from(frame)), slot)
}

/// The page in a frame has a swizzled word.
fn has_swizzled(state: &State, frame: FrameIndex) -> bool {
    (0..SLOTS).any(|slot| matches!(read(frame_word(&state.frames, frame, slot)), Reading::Frame(_)))
}

/// The frames that hold a page.
fn occupied(pool: &Pool) -> impl Iterator<Item = FrameIndex> + Clone + '_ {
    (0..pool.count as u8).map(FrameIndex).filter(|frame| pool.record(*frame).is_used())
}

/// The page in an occupied frame.
fn page_in(pool: &Pool, frame: FrameIndex) -> Page {
    Page::from(pool.record(frame))
}

/// The frame that holds a page, by the records. Find and peek go by the directory.
fn frame_of(pool: &Pool, page: Page) -> Option<FrameIndex> {
    occupied(pool).find(|frame| page_in(pool, *frame) == page)
}

/// Request A.11: "frames 0 to T − 1 hold their roots".
fn is_root(pool: &Pool, frame: FrameIndex) -> bool {
    frame.0 < pool.stores
}

/// The frames that hold a page of a store.
fn held(pool: &Pool, store: StoreNumber) -> impl Iterator<Item = FrameIndex> + Clone + '_ {
    occupied(pool).filter(move |frame| pool.record(*frame).store == store)
}

/// Request A.11: "a ceiling of 1 to F resident pages, its root included".
fn ceiling(pool: &Pool, store: StoreNumber) -> usize {
    pool.ceilings[usize::from(store)].into()
}

/// A store has as many resident pages as its ceiling is.
fn at_ceiling(pool: &Pool, store: StoreNumber) -> bool {
    held(pool, store).count() >= ceiling(pool, store)
}

/// The word with a frame replaced by the number of the page in it, which is of the store that the word stands in. The mark stays.
fn unswizzled(pool: &Pool, word: u32) -> u32 {
    match read(word) {
        Reading::Frame(frame) => mark_of(word) + u32::from(pool.records[frame as usize].page),
        Reading::Nothing | Reading::MarkAlone | Reading::Page(_) => word,
    }
}

/// Request A.8: "Bit 30 of a word marks the page it names as locked". The page in a frame is named by a word that is swizzled to
/// it.
fn is_locked(state: &State, frame: FrameIndex) -> bool {
    let marks_it = |word| is_marked(word) && read(word) == Reading::Frame(frame.into());
    occupied(&state.pool).any(|other| (0..SLOTS).any(|slot| marks_it(frame_word(&state.frames, other, slot))))
}

fn payload_in(buffer: Buffer, index: usize) -> Place {
    Place { buffer, start: PAGE_SIZE * index + PAYLOAD_START, size: PAYLOAD_SIZE }
}

/// One pin and one usage more for the page in a frame.
fn pin(state: &mut State, frame: FrameIndex) -> Result<Fixed, Refusal> {
    let record = state.pool.record_mut(frame);
    rule(13, record.pins < u16::MAX)?;
    record.pins += 1;
    record.usage = MAX_USAGE.min(record.usage + 1);
    Ok(Fixed { handle: handle_of(frame, record), looks: 0 })
}

/// Puts a word into a slot of the handle's page, which is then dirty.
fn put_link(state: &mut State, handle: Handle, slot: usize, word: u32) {
    put_word(page_of_mut(&mut state.frames, handle.frame.into()), slot, word);
    state.pool.record_mut(handle.frame).dirty = 1;
}

fn opened(frames: &mut [u8], store: &[u8], directory: &mut [u8], stores: Stores) -> Result<Pool, Refusal> {
    let (count, pages) = rules::figures(frames, store, stores)?;
    rules::directory_length(directory)?;
    rules::sound(store, stores.count)?;
    let mut pool = Pool { count, pages, stores: stores.count, ceilings: stores.ceilings, ..Pool::ZERO };
    directory.fill(0);
    for store_number in (0..stores.count).map(StoreNumber) {
        let (frame, root) = (FrameIndex(store_number.0), Page::root(store_number));
        page_of_mut(frames, frame.into()).copy_from_slice(page_of(store, root.place(pages)));
        *pool.record_mut(frame) = FrameRecord { used: 1, store: store_number, ..FrameRecord::EMPTY };
        directory::enter(directory, root.number, frame);
    }
    Ok(pool)
}

impl Machine for Model {
    fn open(
        &self,
        frames: &mut [u8],
        store: &mut [u8],
        directory: &mut [u8],
        stores: Stores,
    ) -> (Result<(), Refusal>, Pool) {
        match opened(frames, store, directory, stores) {
            Ok(pool) => (Ok(()), pool),
            Err(refusal) => (Err(refusal), Pool::ZERO),
        }
    }

    fn root(&self, state: &mut State, of_store: StoreNumber) -> Result<Fixed, Refusal> {
        rules::state(state)?;
        rules::store(&state.pool, of_store)?;
        pin(state, FrameIndex(of_store.0))
    }

    fn fix(&self, state: &mut State, handle: Handle, slot: usize) -> Result<Fixed, Refusal> {
        rules::state(state)?;
        rules::handle(&state.pool, handle)?;
        rules::slot(slot)?;
        match read(frame_word(&state.frames, handle.frame, slot)) {
            Reading::Nothing | Reading::MarkAlone => Err(7),
            Reading::Frame(frame) => pin(state, FrameIndex(frame as u8)),
            Reading::Page(number) => {
                let page = Page::from(handle).beside(PageNumber(number as u16));
                rules::loadable(state, page)?;
                let (frame, looks) = moves::make_room(state, page.store)?;
                moves::load(state, page, frame, handle.frame, slot);
                Ok(Fixed { handle: handle_of(frame, state.pool.record(frame)), looks })
            }
        }
    }

    fn unfix(&self, state: &mut State, handle: Handle) -> Result<(), Refusal> {
        rules::state(state)?;
        rules::handle(&state.pool, handle)?;
        state.pool.record_mut(handle.frame).pins -= 1;
        Ok(())
    }

    fn show(&self, state: &State, handle: Handle) -> Result<Place, Refusal> {
        rules::state(state)?;
        rules::handle(&state.pool, handle)?;
        Ok(payload_in(Buffer::Frames, handle.frame.into()))
    }

    fn peek(&self, state: &State, page: Page) -> Result<Place, Refusal> {
        rules::state(state)?;
        rules::store(&state.pool, page.store)?;
        rules::page(&state.pool, page.number)?;
        Ok(match directory::seek(&state.pool, &state.directory, page).0 {
            Some(frame) => payload_in(Buffer::Frames, frame.into()),
            None => payload_in(Buffer::Store, page.place(state.pool.pages)),
        })
    }

    fn word(&self, state: &State, handle: Handle, slot: usize) -> Result<Named, Refusal> {
        rules::state(state)?;
        rules::handle(&state.pool, handle)?;
        rules::slot(slot)?;
        let word = unswizzled(&state.pool, frame_word(&state.frames, handle.frame, slot));
        Ok(Named { page: PageNumber(unmarked(word) as u16), locked: is_marked(word) })
    }

    fn write(&self, state: &mut State, handle: Handle, offset: usize, bytes: &[u8]) -> Result<(), Refusal> {
        rules::state(state)?;
        rules::handle(&state.pool, handle)?;
        rules::range(offset, bytes.len())?;
        rules::unlocked(state, handle)?;
        let start = PAYLOAD_START + offset;
        page_of_mut(&mut state.frames, handle.frame.into())[start..start + bytes.len()]
            .copy_from_slice(bytes);
        if !bytes.is_empty() {
            state.pool.record_mut(handle.frame).dirty = 1;
        }
        Ok(())
    }

    fn link(
        &self,
        state: &mut State,
        handle: Handle,
        slot: usize,
        page: PageNumber,
        locked: bool,
    ) -> Result<(), Refusal> {
        rules::state(state)?;
        rules::handle(&state.pool, handle)?;
        rules::slot(slot)?;
        rules::unlocked(state, handle)?;
        rules::linked_page(&state.pool, page)?;
        rules::unnamed(state, Page::from(handle).beside(page))?;
        rule(8, frame_word(&state.frames, handle.frame, slot) == 0)?;
        put_link(state, handle, slot, with_mark(page.into(), locked));
        Ok(())
    }

    fn unlink(&self, state: &mut State, handle: Handle, slot: usize) -> Result<(), Refusal> {
        rules::state(state)?;
        rules::handle(&state.pool, handle)?;
        rules::slot(slot)?;
        rules::unlocked(state, handle)?;
        let word = frame_word(&state.frames, handle.frame, slot);
        rule(7, word != 0)?;
        let number = PageNumber(unmarked(unswizzled(&state.pool, word)) as u16);
        rule(10, frame_of(&state.pool, Page::from(handle).beside(number)).is_none())?;
        put_link(state, handle, slot, 0);
        Ok(())
    }

    fn evict(&self, state: &mut State, page: Page) -> Result<(), Refusal> {
        rules::state(state)?;
        rules::store(&state.pool, page.store)?;
        rules::page(&state.pool, page.number)?;
        let frame = frame_of(&state.pool, page).ok_or(11)?;
        rule(20, !page.is_root())?;
        rule(21, state.pool.record(frame).pins == 0)?;
        rule(22, !has_swizzled(state, frame))?;
        moves::evict(state, frame);
        Ok(())
    }

    fn settle(&self, state: &mut State) -> Result<(), Refusal> {
        rules::state(state)?;
        for frame in (0..state.pool.count as u8).map(FrameIndex) {
            moves::write_out(state, frame);
            state.pool.record_mut(frame).dirty = 0;
        }
        Ok(())
    }

    fn find(&self, state: &State, page: Page) -> Result<Found, Refusal> {
        rules::state(state)?;
        rules::store(&state.pool, page.store)?;
        rules::page(&state.pool, page.number)?;
        let (frame, compared) = directory::seek(&state.pool, &state.directory, page);
        Ok(Found { frame, compared })
    }

    fn seeded(&self, seed: u32) -> Generator {
        workload::seeded(seed)
    }

    fn draw(&self, state: &State, generator: &mut Generator) -> Result<Entry, Refusal> {
        rules::state(state)?;
        Ok(workload::record(&state.pool, generator))
    }
}
