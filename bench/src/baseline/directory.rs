//! The directory of resident pages: byte b holds 1 plus the frame at the head of chain b, byte 67 + f 1 plus the one after f.
use super::keys::Keys;
use pagepool::{FrameIndex, FrameRecord, PageNumber, StoreNumber, BUCKETS, DIRECTORY_SIZE, MOST_FRAMES};

pub type Directory = [u8; DIRECTORY_SIZE];

/// The directory, where it has its length.
pub fn of(bytes: &[u8]) -> Option<&Directory> {
    bytes.try_into().ok()
}

fn bucket_of(page: PageNumber) -> usize {
    usize::from(page) % BUCKETS
}

/// The byte that leads on from a frame.
fn link_of(frame: usize) -> usize {
    BUCKETS + frame
}

/// The chain that each frame is awaited in: one that holds a page in that page's, and any other in none.
pub type Awaited = [u16; MOST_FRAMES];

/// No chain; and more than that and a byte together, for a frame that was met where it was awaited.
pub const NOWHERE: u16 = BUCKETS as u16;
const MET: u16 = NOWHERE + 256;

/// The heads that are looked at together.
const ROW: usize = 8;

/// Whether the chains give the resident pages of their remainders, each once, and every other byte is 0.
pub fn agrees(keys: &Keys, directory: &Directory) -> bool {
    gives(directory, keys.by_page(NOWHERE, |page| page % NOWHERE))
}

/// Whether the chains give the frames that are awaited in them, each once, and every other byte is 0. A row of heads without
/// entries is passed at once.
#[inline(never)]
pub fn gives(directory: &Directory, mut awaited: Awaited) -> bool {
    let (rows, rest) = directory[..BUCKETS].as_chunks::<ROW>();
    for (row, heads) in rows.iter().enumerate() {
        if u64::from_le_bytes(*heads) != 0 && !follow_row(directory, &mut awaited, heads, ROW * row) {
            return false;
        }
    }
    follow_row(directory, &mut awaited, rest, ROW * rows.len()) && none_awaited(&awaited, directory)
}

fn follow_row(directory: &Directory, awaited: &mut Awaited, heads: &[u8], first: usize) -> bool {
    heads.iter().zip(first as u16..).all(|(head, chain)| follow(directory, awaited, *head, chain))
}

/// Whether a chain leads through frames that are awaited there. Each is met then, so that it is awaited no more.
#[inline(always)]
fn follow(directory: &Directory, awaited: &mut Awaited, head: u8, chain: u16) -> bool {
    let mut byte = head;
    while byte != 0 {
        let frame = usize::from(byte - 1);
        if awaited.get(frame) != Some(&chain) {
            return false;
        }
        awaited[frame] = MET;
        byte = directory[link_of(frame)];
    }
    true
}

/// Whether every frame that was awaited is met, and the link of each other is 0.
fn none_awaited(awaited: &Awaited, directory: &Directory) -> bool {
    let frames = awaited.iter().zip(&directory[BUCKETS..]);
    frames.fold(true, |none, (awaited, link)| none & (*awaited >= NOWHERE + u16::from(*link)))
}

/// The roots alone, of so many stores, in the first frames and entered in their order.
pub fn begin(directory: &mut [u8], stores: u8) {
    directory.fill(0);
    for frame in (0..stores).map(FrameIndex) {
        enter(directory, frame, PageNumber(0));
    }
}

/// Puts a frame at the head of its page's chain.
pub fn enter(directory: &mut [u8], frame: FrameIndex, page: PageNumber) {
    let head = bucket_of(page);
    directory[link_of(frame.into())] = directory[head];
    directory[head] = frame.0 + 1;
}

/// Takes a frame out of its page's chain, where it is.
pub fn take_out(directory: &mut [u8], frame: FrameIndex, page: PageNumber) {
    let mut at = bucket_of(page);
    while directory[at] != frame.0 + 1 {
        at = link_of(usize::from(directory[at] - 1));
    }
    directory[at] = std::mem::take(&mut directory[link_of(frame.into())]);
}

/// The frame that holds a page of a store, by its chain, and the entries compared.
pub fn seek(
    records: &[FrameRecord],
    directory: &[u8],
    of_store: StoreNumber,
    page: PageNumber,
) -> (Option<FrameIndex>, u16) {
    let (mut byte, mut compared) = (directory[bucket_of(page)], 0);
    while byte != 0 {
        let frame = usize::from(byte - 1);
        compared += 1;
        if records[frame].page == page && records[frame].store == of_store {
            return (Some(FrameIndex(frame as u8)), compared);
        }
        byte = directory[link_of(frame)];
    }
    (None, compared)
}
