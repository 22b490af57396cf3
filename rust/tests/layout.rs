//! Reads back every field of the structs that the library fills with values of their own, and compares versions.
use pagepool::raw;
use pagepool::{
    FrameIndex, FrameRecord, Generator, Handle, PageNumber, Pool, StoreNumber, TallyHead, BUCKETS,
    DIRECTORY_SIZE, MOST_FRAMES, MOST_STORES,
};

fn expect_pool(pool: Pool) {
    assert_eq!((pool.count, pool.pages, pool.hand), (3001, 3002, FrameIndex(200)));
    assert_eq!((pool.stores, pool.ceilings), (227, [228, 229, 230, 231]));
    for i in 0..MOST_FRAMES as u8 {
        let wide = u16::from(i);
        let expected = FrameRecord {
            used: 192 + i,
            dirty: 255 - i,
            usage: i,
            slot: 64 + i,
            parent: FrameIndex(128 + i),
            store: StoreNumber(63 - i),
            pins: 1000 + wide,
            page: PageNumber(2000 + wide),
        };
        assert_eq!(*pool.record(FrameIndex(i)), expected, "record {i}");
    }
}

#[test]
fn done() {
    // SAFETY, here and below: the functions take nothing.
    let done = unsafe { raw::pool_layout_done() };
    assert_eq!(done.refusal, 201);
    expect_pool(done.pool);
}

#[test]
fn fixed() {
    let fixed = unsafe { raw::pool_layout_fixed() };
    assert_eq!(fixed.refusal, 202);
    let handle = Handle { frame: FrameIndex(203), store: StoreNumber(232), page: PageNumber(4001) };
    assert_eq!(fixed.handle, handle);
    assert_eq!(fixed.looks, 4002);
    expect_pool(fixed.pool);
}

#[test]
fn named() {
    let named = unsafe { raw::pool_layout_named() };
    assert_eq!((named.refusal, named.locked, named.page), (204, true, PageNumber(4003)));
}

#[test]
fn found() {
    let found = unsafe { raw::pool_layout_found() };
    assert_eq!((found.refusal, found.present), (205, true));
    assert_eq!((found.frame, found.compared), (FrameIndex(206), 4004));
}

#[test]
fn place() {
    let place = unsafe { raw::pool_layout_place() };
    assert_eq!((place.refusal, place.in_store), (207, true));
    assert_eq!((place.start, place.size), (5001, 5002));
}

#[test]
fn drawn() {
    let drawn = unsafe { raw::pool_layout_drawn() };
    assert_eq!((drawn.refusal, drawn.generator), (208, Generator { number: 5003 }));
    assert_eq!(drawn.entry, std::array::from_fn(|i| 209 + i as u8));
}

#[test]
fn added() {
    let added = unsafe { raw::pool_layout_added() };
    assert_eq!((added.refusal, added.tally), (225, TallyHead { recordings: 5004, references: 70005 }));
}

#[test]
fn share() {
    let share = unsafe { raw::pool_layout_share() };
    assert_eq!((share.refusal, share.within, share.all), (226, 5_000_000_006, 5_000_000_007));
}

/// The package's version is the header's.
#[test]
fn version() {
    let header = include_str!("../../include/pagepool.h");
    for (name, figure) in
        [("MAJOR", env!("CARGO_PKG_VERSION_MAJOR")), ("MINOR", env!("CARGO_PKG_VERSION_MINOR"))]
    {
        let line = format!("\n#define PAGEPOOL_VERSION_{name} {figure}\n");
        assert!(header.contains(&line), "no {}", line.trim());
    }
}

/// And so are the bit that marks a locked page, the most stores, and the figures of the directory.
#[test]
fn figures() {
    let header = include_str!("../../include/pagepool.h");
    for (name, figure) in [
        ("LOCK_BIT", format!("{:#x}u", pagepool::LOCK_BIT)),
        ("MOST_STORES", MOST_STORES.to_string()),
        ("BUCKETS", BUCKETS.to_string()),
        ("DIRECTORY_SIZE", DIRECTORY_SIZE.to_string()),
    ] {
        let line = format!("\n#define POOL_{name} {figure}\n");
        assert!(header.contains(&line), "no {}", line.trim());
    }
}
