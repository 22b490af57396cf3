//! A record of five draws.
use pagepool::{Entry, Generator, Pool, PAYLOAD_SIZE, SLOTS};

/// The calls of a record, and the number of link among them.
const CALLS: u32 = 9;
const LINK: u8 = 5;

/// Moves the generator on, and gives a number below `end`.
fn below(generator: &mut Generator, end: u32) -> u32 {
    let mut number = generator.number;
    number ^= number << 13;
    number ^= number >> 17;
    number ^= number << 5;
    generator.number = number;
    number % end
}

/// The next record. F and N are in their ranges, and an empty frame's record is all zero.
pub fn record(pool: &Pool, generator: &mut Generator) -> Entry {
    let call = below(generator, CALLS) as u8 + 1;
    let frame = below(generator, pool.count.into()) as u8;
    let [page, page_high] = (below(generator, pool.pages.into()) as u16).to_le_bytes();
    let slot = below(generator, SLOTS as u32) as u8;
    let offset = below(generator, PAYLOAD_SIZE as u32 + 1) as u8;
    let parent = if call == LINK { pool.records[usize::from(frame)].page.0 } else { 0 };
    let [parent, parent_high] = parent.to_le_bytes();
    [call, frame, page, page_high, slot, offset, 0, parent, parent_high, 0, 0, 0, 0, 0, 0, 0]
}
