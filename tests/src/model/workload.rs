//! Request A.10, "A load anyone can repeat": the generator, and a record of five draws. A load is a page's coming into a frame
//! here: what the request calls one is a workload.
use super::occupied;
use crate::records::{Entry, FrameIndex, Generator, PageNumber, Pool};

/// The number of link in a record.
pub const LINK: u8 = 5;

/// "a seed of 0 is read as 1"
pub fn seeded(seed: u32) -> Generator {
    Generator { number: if seed == 0 { 1 } else { seed } }
}

/// "The generator's number is lent to each draw and moved on there", "each giving the number after it".
pub fn draw(generator: &mut Generator) -> u32 {
    generator.number = next(generator.number);
    generator.number
}

/// "the 32-bit xorshift generator of Marsaglia with shifts left 13, right 17, left 5"
fn next(mut number: u32) -> u32 {
    number ^= number << 13;
    number ^= number >> 17;
    number ^= number << 5;
    number
}

/// "Five draws .. make a call record: call, frame, page, slot and offset are remainders by 9 (plus 1), F, N, 16 and 193; length
/// is 0 and the data zero." F and N aren't 0.
pub fn record(pool: &Pool, generator: &mut Generator) -> Entry {
    let call = (draw(generator) % 9 + 1) as u8;
    let frame = (draw(generator) % u32::from(pool.count)) as u8;
    let page = (draw(generator) % u32::from(pool.pages)) as u16;
    let slot = (draw(generator) % 16) as u8;
    let offset = (draw(generator) % 193) as u8;

    let mut entry = [0; 16];
    entry[0] = call;
    entry[1] = frame;
    entry[2..4].copy_from_slice(&page.to_le_bytes());
    entry[4] = slot;
    entry[5] = offset;
    if call == LINK {
        entry[7..9].copy_from_slice(&resident_in(pool, FrameIndex(frame)).0.to_le_bytes());
    }
    entry
}

/// "Link's parent page is the page resident in the drawn frame, else 0."
fn resident_in(pool: &Pool, frame: FrameIndex) -> PageNumber {
    match occupied(pool).find(|other| *other == frame) {
        Some(frame) => pool.record(frame).page,
        None => PageNumber(0),
    }
}

/// The number before a draw, from its bits: "a draw from any number but 0 is undone by exactly one earlier number".
pub fn undone(number: u32) -> u32 {
    left_undone(right_undone(left_undone(number, 5), 17), 13)
}

/// The number that gives `sum` with itself, shifted left, added bit by bit: from the lowest bit on, each with the bit so many
/// places below it.
fn left_undone(sum: u32, places: u32) -> u32 {
    let mut number = 0;
    for bit in 0..32 {
        let below = if bit < places { 0 } else { bit_of(number, bit - places) };
        number |= (bit_of(sum, bit) ^ below) << bit;
    }
    number
}

/// The same for a shift to the right: from the highest bit on, each with the bit so many places above it.
fn right_undone(sum: u32, places: u32) -> u32 {
    let mut number = 0;
    for bit in (0..32).rev() {
        let above = if bit + places > 31 { 0 } else { bit_of(number, bit + places) };
        number |= (bit_of(sum, bit) ^ above) << bit;
    }
    number
}

fn bit_of(number: u32, bit: u32) -> u32 {
    number >> bit & 1
}
