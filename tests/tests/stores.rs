//! Single consequences of request A.11, each with the figures that show it: several stores over one set of frames. And every short
//! list of calls on small pools of two stores.
use pool_tests::calls::{Answer, Call, NAMES};
use pool_tests::coverage::Coverage;
use pool_tests::history::History;
use pool_tests::model::figures::Figure;
use pool_tests::pool::{Buffer, Fixed, UnderTest};
use pool_tests::records::{
    handle_in, handle_of, page, page_of, page_of_mut, FrameIndex, FrameRecord, Generator, Handle, PageNumber,
    Pool, State, StoreNumber, Stores, LOCK_BIT, PAGE_SIZE, PAYLOAD_START, SWIZZLE_BIT,
};
use pool_tests::trial::{payload, Link, Trial};
use std::collections::HashSet;
use words::rules::Table;

/// In each store: pages 5, 6 and 7 are under slots 1, 2 and 3 of the root, and page 8 under slot 0 of page 5.
const LINKS: [Link; 4] = [(0, 1, 5), (0, 2, 6), (0, 3, 7), (5, 0, 8)];

/// A pool of so many frames over stores of 16 pages with these ceilings, each root pinned.
fn shared<const T: usize>(frames: usize, ceilings: [u8; T]) -> (Trial, [Handle; T]) {
    let mut trial = Trial::open_stores(frames, 16, Stores::of(ceilings), &LINKS);
    let roots = std::array::from_fn(|store| trial.root_of(store as u8));
    (trial, roots)
}

/// The same with page 5 of each store in frames from T on, pinned.
fn with_fives<const T: usize>(frames: usize, ceilings: [u8; T]) -> (Trial, [Handle; T], [Handle; T]) {
    let (mut trial, roots) = shared(frames, ceilings);
    let fives = roots.map(|root| trial.fix(root, 1));
    (trial, roots, fives)
}

/// Pins a page and lets it go.
fn touch(trial: &mut Trial, parent: Handle, slot: usize) -> Handle {
    let handle = trial.fix(parent, slot);
    trial.accept(Call::Unfix(handle));
    handle
}

/// The usage of each frame.
fn usages(trial: &Trial) -> Vec<u8> {
    trial.state.pool.records[..trial.state.frame_count()].iter().map(|record| record.usage).collect()
}

/// A call that each call's name stands for, in store 1 of a pool of `with_fives`, which accepts all of them but for that of evict.
fn calls(trial: &Trial, roots: &[Handle], fives: &[Handle]) -> [Call; 13] {
    let Pool { stores: count, ceilings, .. } = trial.state.pool;
    [
        Call::Open(Stores { count, ceilings }),
        Call::Root(1),
        Call::Fix(roots[1], 1),
        Call::Unfix(fives[1]),
        Call::Show(fives[1]),
        Call::Peek(1, 5),
        Call::Word(roots[1], 1),
        Call::Write(fives[1], 0, vec![1]),
        Call::Link(fives[1], 3, 9, false),
        Call::Unlink(roots[1], 3),
        Call::Evict(1, 7),
        Call::Settle,
        Call::Find(1, 5),
    ]
}

/// What each of them answers, each on a copy.
fn answers(trial: &Trial, calls: &[Call; 13]) -> [u8; 13] {
    calls.each_ref().map(|call| trial.clone().number(call.clone()))
}

/// "frames 0 to T − 1 hold their roots, entered in the directory in that order".
#[test]
fn open_holds_each_root_in_its_frame() {
    for count in 1..=4 {
        let mut trial = Trial::closed(6, 3 * usize::from(count), &[]);
        trial.state.frames.fill(0xee);
        for store in 0..count {
            page_of_mut(&mut trial.state.store, 3 * usize::from(store))[PAYLOAD_START] = store + 1;
        }
        let ceilings = std::array::from_fn(|store| if store < count.into() { 6 - store as u8 } else { 0 });
        trial.accept(Call::Open(Stores { count, ceilings }));
        let mut expected = Pool { count: 6, pages: 3, stores: count, ceilings, ..Pool::ZERO };
        for store in 0..count {
            *expected.record_mut(FrameIndex(store)) =
                FrameRecord { used: 1, store: StoreNumber(store), ..FrameRecord::EMPTY };
            assert_eq!(page_of(&trial.state.frames, store.into())[PAYLOAD_START], store + 1);
        }
        assert_eq!(trial.state.pool, expected);
        assert!(trial.state.frames[PAGE_SIZE * usize::from(count)..].iter().all(|byte| *byte == 0xee));
        let entered: Vec<(u8, u16)> = (0..count).map(|store| (store, u16::from(count - store))).collect();
        for (store, compared) in entered {
            assert_eq!(trial.find_in(store, 0), (Some(store), compared), "{count} stores");
        }
        assert_eq!(trial.state.directory[0], count);
    }
}

/// "T is 1 to 4 and F at least T + 1. Every store has a ceiling of 1 to F resident pages"; "0 for no store"; "Figures outside these fall
/// under refusal 1". N is the store's length over 256 × T, and "a remainder is 1".
#[test]
fn open_takes_figures_in_their_ranges_alone() {
    let cases: [(usize, usize, u8, [u8; 4], u8); 34] = [
        (2, 1, 1, [2, 0, 0, 0], 0),
        (2, 1, 1, [1, 0, 0, 0], 0),
        (2, 1, 1, [0, 0, 0, 0], 1),
        (2, 1, 1, [3, 0, 0, 0], 1),
        (2, 1, 1, [2, 1, 0, 0], 1),
        (2, 1, 1, [2, 0, 1, 0], 1),
        (2, 1, 1, [2, 0, 0, 1], 1),
        (2, 1, 0, [2, 0, 0, 0], 1),
        (2, 1, 0, [0, 0, 0, 0], 1),
        (2, 2, 2, [2, 2, 0, 0], 1),
        (3, 2, 2, [2, 2, 0, 0], 0),
        (3, 2, 2, [3, 1, 0, 0], 0),
        (3, 2, 2, [3, 0, 0, 0], 1),
        (3, 2, 2, [0, 3, 0, 0], 1),
        (3, 2, 2, [4, 3, 0, 0], 1),
        (3, 2, 2, [3, 255, 0, 0], 1),
        (3, 3, 2, [3, 3, 0, 0], 1),
        (3, 1, 2, [3, 3, 0, 0], 1),
        (3, 3, 3, [3, 3, 3, 0], 1),
        (4, 3, 3, [4, 4, 4, 0], 0),
        (4, 3, 3, [4, 4, 4, 4], 1),
        (4, 4, 4, [4, 4, 4, 4], 1),
        (5, 4, 4, [5, 5, 5, 5], 0),
        (5, 4, 4, [1, 1, 1, 1], 0),
        (5, 4, 4, [5, 5, 5, 0], 1),
        (5, 4, 4, [5, 5, 5, 6], 1),
        (5, 7, 4, [5, 5, 5, 5], 1),
        (6, 5, 5, [6, 6, 6, 6], 1),
        (64, 4 * 4096, 4, [64, 64, 64, 64], 0),
        (64, 4 * 4097, 4, [64, 64, 64, 64], 1),
        (64, 4 * 4096, 3, [64, 64, 64, 0], 1),
        (64, 4 * 4096, 1, [64, 0, 0, 0], 1),
        (64, 0, 4, [64, 64, 64, 64], 1),
        (65, 4, 4, [64, 64, 64, 64], 1),
    ];
    for (frames, pages, count, ceilings, number) in cases {
        let mut trial = Trial::closed(frames, pages, &[]);
        let stores = Stores { count, ceilings };
        assert_eq!(trial.number(Call::Open(stores)), number, "F {frames}, {pages} pages, {stores:?}");
    }
    let mut trial = Trial::closed(4, 6, &[]);
    trial.state.store.push(0);
    assert_eq!(trial.number(Call::Open(Stores::of([4, 4]))), 1, "a byte over");
}

/// In every other call by the records: each other T, and each other ceiling that is out of its range, falls under 1; one below the
/// resident pages under 2. Refusal 1 comes before 2, and in open before 16.
#[test]
fn the_records_figures_are_tested_by_every_call() {
    let (trial, roots, fives) = with_fives(6, [6, 4, 2]);
    let calls = calls(&trial, &roots, &fives);
    let mut fitting = [0; 13];
    fitting[10] = 11;
    assert_eq!(answers(&trial, &calls), fitting);
    let refused = |trial: &Trial, number: u8| {
        let mut wanted = [number; 13];
        wanted[0] = 0;
        assert_eq!(answers(trial, &calls), wanted, "{:?}", trial.state.pool);
        assert_eq!(trial.draw(&mut Generator { number: 1 }), Err(number));
    };
    for stores in (0..=255).filter(|stores| *stores != 3) {
        let mut other = trial.clone();
        other.state.pool.stores = stores;
        refused(&other, 1);
    }
    for (store, most) in (0..4).flat_map(|store| (0..=255).map(move |most| (store, most))) {
        let mut other = trial.clone();
        other.state.pool.ceilings[store] = most;
        match most {
            _ if store == 3 && most > 0 => refused(&other, 1),
            0 if store < 3 => refused(&other, 1),
            7.. => refused(&other, 1),
            1 => refused(&other, 2),
            _ => assert_eq!(answers(&other, &calls), fitting),
        }
    }
    let mut both = trial;
    both.record(0).usage = 4;
    refused(&both, 2);
    both.state.pool.ceilings[3] = 1;
    refused(&both, 1);
    both.put_stored_word(16, 0, 16);
    assert_eq!(both.number(Call::Open(Stores::of([6, 6, 6]))), 16);
    assert_eq!(both.number(Call::Open(Stores::of([7, 6, 6]))), 1);
}

/// "28: the store number isn't below T, after 2 and before 18": before every rule of a handle or a page, and in no call that names no
/// store.
#[test]
fn a_store_number_is_below_t() {
    let (trial, roots, fives) = with_fives(6, [6, 6]);
    for store in [2, 3, 4, 255] {
        let of = |handle: Handle| Handle { store: StoreNumber(store), ..handle };
        let stale = handle_in(64, store, 16);
        let cases = [
            Call::Root(store),
            Call::Fix(of(roots[1]), 1),
            Call::Fix(stale, 16),
            Call::Unfix(of(fives[1])),
            Call::Show(of(fives[1])),
            Call::Show(stale),
            Call::Peek(store, 5),
            Call::Peek(store, 16),
            Call::Word(of(roots[1]), 16),
            Call::Write(of(fives[1]), 193, vec![]),
            Call::Link(of(fives[1]), 16, 0, true),
            Call::Link(stale, 3, 9, false),
            Call::Unlink(stale, 16),
            Call::Evict(store, 0),
            Call::Evict(store, 16),
            Call::Find(store, 16),
        ];
        for call in cases {
            assert_eq!(trial.clone().number(call.clone()), 28, "{call:?}");
            let mut altered = trial.clone();
            altered.record(0).usage = 4;
            assert_eq!(altered.number(call.clone()), 2, "{call:?}");
            altered.state.directory.pop();
            assert_eq!(altered.number(call.clone()), 1, "{call:?}");
        }
    }
    let table = Table::standing();
    let naming: Vec<&str> =
        NAMES.into_iter().filter(|name| table.answers(name).any(|number| number == 28)).collect();
    let none = ["open", "settle"];
    assert_eq!(naming, NAMES.into_iter().filter(|name| !none.contains(name)).collect::<Vec<_>>());
}

/// "Handles .. name a store": a frame's page with another store below T is 3, whatever else fits.
#[test]
fn a_handles_store_is_its_frames() {
    let (mut trial, roots, fives) = with_fives(8, [8, 8, 8]);
    for (handle, store) in
        [roots, fives].concat().into_iter().flat_map(|handle| (0..3).map(move |store| (handle, store)))
    {
        let other = Handle { store: StoreNumber(store), ..handle };
        let number = if other == handle { 0 } else { 3 };
        assert_eq!(trial.number(Call::Show(other)), number, "{other:?}");
        assert_eq!(trial.clone().number(Call::Unfix(other)), number, "{other:?}");
        assert_eq!(trial.number(Call::Word(other, 1)), number, "{other:?}");
    }
}

/// "find, peek, evict .. name a store, and pages are compared within their store": the same number in each of three stores. Their
/// entries share a chain, and each that is compared counts.
#[test]
fn pages_are_compared_within_their_store() {
    let (mut trial, _, fives) = with_fives(8, [8, 8, 8]);
    assert_eq!([0, 1, 2].map(|store| trial.find_in(store, 5)), [(Some(3), 3), (Some(4), 2), (Some(5), 1)]);
    for (store, five) in (0..).zip(fives) {
        trial.accept(Call::Write(five, 0, vec![store + 1]));
        assert_eq!(trial.call(Call::Peek(store, 5)), payload(Buffer::Frames, five.frame.into()));
        assert_eq!(trial.call(Call::Peek(store, 6)), payload(Buffer::Store, 16 * usize::from(store) + 6));
    }
    trial.accept(Call::Unfix(fives[1]));
    trial.accept(Call::Evict(1, 5));
    assert_eq!([0, 1, 2].map(|store| trial.find_in(store, 5)), [(Some(3), 2), (None, 2), (Some(5), 1)]);
    assert_eq!(trial.number(Call::Evict(1, 5)), 11);
    assert_eq!([0, 2].map(|store| trial.number(Call::Evict(store, 5))), [21; 2]);
    assert_eq!(trial.call(Call::Peek(1, 5)), payload(Buffer::Store, 16 + 5));
    let written = |store: usize| trial.state.store[PAGE_SIZE * (16 * store + 5) + PAYLOAD_START];
    assert_eq!([0, 1, 2].map(written), [0, 2, 0]);
    assert_eq!([0, 1, 2].map(|store| trial.number(Call::Evict(store, 0))), [20; 3]);
    trial.accept(Call::Settle);
    let written = |store: usize| trial.state.store[PAGE_SIZE * (16 * store + 5) + PAYLOAD_START];
    assert_eq!([0, 1, 2].map(written), [1, 2, 3], "settle writes every store");
}

/// Rules 9, 10 and 14 are of one store: what another's words name, and what of it is resident, is no matter.
#[test]
fn words_name_pages_of_their_own_store() {
    let (mut trial, roots, fives) = with_fives(8, [8, 8]);
    trial.accept(Call::Link(fives[0], 3, 9, false));
    assert_eq!(trial.number(Call::Link(roots[0], 4, 9, false)), 9);
    trial.accept(Call::Link(roots[1], 4, 9, true));
    let nine = trial.fix(roots[1], 4);
    assert_eq!((nine, trial.word(fives[0], 3)), (handle_in(4, 1, 9), (9, false)));
    assert_eq!(trial.number(Call::Write(nine, 0, vec![1])), 26);
    trial.accept(Call::Unlink(fives[0], 3));
    assert_eq!(trial.number(Call::Unlink(roots[1], 4)), 10);
    trial.accept(Call::Link(fives[0], 3, 9, false));
    let other = trial.fix(fives[0], 3);
    assert_eq!(other, handle_in(5, 0, 9));
    trial.accept(Call::Write(other, 0, vec![1]));

    trial.put_stored_word(6, 3, 10);
    trial.put_stored_word(16 + 6, 3, 10);
    trial.accept(Call::Fix(roots[0], 2));
    trial.accept(Call::Fix(roots[1], 2));
    let (mut trial, roots, _) = with_fives(8, [8, 8]);
    trial.put_stored_word(6, 3, 8);
    trial.put_stored_word(16 + 6, 3, 9);
    assert_eq!(trial.number(Call::Fix(roots[0], 2)), 14, "page 5 of its store names 8");
    trial.accept(Call::Fix(roots[1], 2));
}

/// "16 is for any of them": each store is sound or not by itself.
#[test]
fn each_store_is_sound_by_itself() {
    let open = |words: &[Link], stores: Stores| Trial::closed(6, 12, words).number(Call::Open(stores));
    let [one, two, three, four] =
        [Stores::of([6]), Stores::of([6, 6]), Stores::of([6; 3]), Stores::of([6; 4])];
    let same = [(0, 0, 1), (3, 0, 1), (6, 0, 1), (9, 0, 1)];
    assert_eq!([one, two, three, four].map(|stores| open(&same, stores)), [16, 16, 16, 0]);
    assert_eq!([one, two, three, four].map(|stores| open(&same[..1], stores)), [0; 4]);
    assert_eq!([one, two, three, four].map(|stores| open(&[(0, 0, 3)], stores)), [0, 0, 0, 16]);
    assert_eq!([one, two, three, four].map(|stores| open(&[(11, 15, 5)], stores)), [0, 0, 16, 16]);
    assert_eq!([one, two, three, four].map(|stores| open(&[(11, 15, LOCK_BIT)], stores)), [16; 4]);
    assert_eq!([one, two, three, four].map(|stores| open(&[(6, 0, SWIZZLE_BIT | 1)], stores)), [16; 4]);
    assert_eq!([two, four].map(|stores| open(&[(0, 0, 2), (5, 3, LOCK_BIT | 2)], stores)), [16, 0]);
}

/// "a child's store is its parent's", "frames 0 to T − 1 hold their roots": the store of a record is what these say, and 0 in an empty
/// one. Each other value of each record breaks rule 2, by four calls in turn.
#[test]
fn each_records_store_counts() {
    let (trial, roots, fives) = with_fives(8, [8, 8, 8]);
    let calls = [Call::Settle, Call::Find(1, 5), Call::Show(fives[0]), Call::Root(2)];
    let changes = (0..64).flat_map(|frame| (0..=255).map(move |store| (frame, store)));
    for (number, (frame, store)) in changes.enumerate() {
        let mut trial = trial.clone();
        let kept = trial.record(frame).store.0 == store;
        trial.record(frame).store.0 = store;
        let call = calls[number % calls.len()].clone();
        assert_eq!(trial.number(call), if kept { 0 } else { 2 }, "frame {frame}, store {store}");
    }
    let mut exchanged = trial.clone();
    for (frame, store) in [(3, 1), (4, 2), (5, 0)] {
        exchanged.record(frame).store.0 = store;
    }
    assert_eq!(exchanged.number(Call::Settle), 2, "each child of the next store");
    let mut exchanged = trial.clone();
    for frame in 0..6 {
        exchanged.record(frame).store.0 = (exchanged.record(frame).store.0 + 1) % 3;
    }
    assert_eq!(exchanged.number(Call::Settle), 2, "each of the next store, roots too");
    let mut swizzled = trial;
    swizzled.put_frame_word(3, 9, SWIZZLE_BIT + 1);
    assert_eq!(swizzled.number(Call::Show(roots[0])), 2, "a word to another root's frame");
    (swizzled.record(1).parent, swizzled.record(1).slot) = (FrameIndex(3), 9);
    assert_eq!(swizzled.number(Call::Show(roots[0])), 2, "though its record points back");
}

/// Words of resident pages are compared within their store too, by rule 2.
#[test]
fn numbers_are_absent_and_once_within_their_store() {
    for (word, number, why) in [
        (9, 0, "named by none"),
        (6, 2, "named by its root too"),
        (8, 2, "named by the page twice"),
        (5, 2, "resident"),
        (16, 2, "not below N"),
    ] {
        for frame in [2, 3] {
            let (mut trial, ..) = with_fives(6, [6, 6]);
            trial.put_frame_word(frame, 9, word);
            assert_eq!(trial.number(Call::Settle), number, "{word} in frame {frame}, {why}");
        }
    }
    let (mut trial, ..) = with_fives(6, [6, 6]);
    trial.put_frame_word(2, 9, 9);
    trial.put_frame_word(3, 9, 9);
    trial.accept(Call::Settle);
    trial.put_frame_word(1, 9, 9);
    assert_eq!(trial.number(Call::Settle), 2);
}

/// The fix of a slot, by its answer.
fn fix(trial: &mut Trial, parent: Handle, slot: usize) -> Answer {
    trial.call(Call::Fix(parent, slot))
}

fn fixed(frame: u8, store: u8, page: u16, looks: u16) -> Answer {
    Answer::Fixed(Fixed { handle: handle_in(frame, store, page), looks })
}

/// "A store at its ceiling sweeps its own pages only, even where frames are empty; any other frame costs a look and is left unchanged":
/// 8 frames, of which 6 and 7 are empty, and a neighbour's page of usage 0 in frame 4, before its own in frame 5.
#[test]
fn a_store_at_its_ceiling_sweeps_its_own() {
    let (mut trial, roots, fives) = with_fives(8, [8, 8, 2]);
    for (store, five) in (0..).zip(fives) {
        trial.accept(Call::Unfix(five));
        trial.record(3 + store).usage = [3, 0, 1][usize::from(store)];
    }
    let before = trial.state.pool;
    assert_eq!(fix(&mut trial, roots[2], 2), fixed(5, 2, 6, 14));
    let mut expected = Pool { hand: FrameIndex(6), ..before };
    *expected.record_mut(FrameIndex(5)) = FrameRecord {
        used: 1,
        usage: 1,
        slot: 2,
        parent: FrameIndex(2),
        store: StoreNumber(2),
        pins: 1,
        page: PageNumber(6),
        ..FrameRecord::EMPTY
    };
    assert_eq!(trial.state.pool, expected);
    assert_eq!(trial.find_in(2, 5), (None, 2));
}

/// "Below it, loading goes as in 01, every root passed over unchanged, so a neighbour's page may be evicted": the same pool with a higher
/// ceiling takes an empty frame, and where none is left the neighbour's page.
#[test]
fn a_store_below_its_ceiling_takes_any_page() {
    let (mut trial, roots, fives) = with_fives(8, [8, 8, 5]);
    trial.accept(Call::Write(fives[1], 0, vec![7]));
    trial.accept(Call::Unfix(fives[1]));
    assert_eq!(fix(&mut trial, roots[2], 2), fixed(6, 2, 6, 0));
    assert_eq!(fix(&mut trial, roots[2], 3), fixed(7, 2, 7, 0));
    assert_eq!(trial.state.pool.hand, FrameIndex(0));
    assert_eq!(fix(&mut trial, fives[2], 0), fixed(4, 2, 8, 13));
    assert_eq!(usages(&trial), [1, 1, 1, 3, 1, 2, 2, 2]);
    assert_eq!((trial.find_in(1, 5), trial.word(roots[1], 1)), ((None, 2), (5, false)));
    assert_eq!(trial.call(Call::Peek(1, 5)), payload(Buffer::Store, 16 + 5));
    assert_eq!(trial.state.store[PAGE_SIZE * 21 + PAYLOAD_START], 7, "its page is in its store");
    assert_eq!(trial.number(Call::Show(fives[1])), 3);
    assert_eq!(trial.number(Call::Fix(roots[1], 1)), 15, "and comes in again once there is room");
    trial.accept(Call::Unfix(fives[0]));
    assert_eq!(trial.fix(roots[1], 1), handle_in(3, 1, 5));
}

/// A.5 in a sweep at the ceiling: own pinned pages warm by each look, neighbours' don't, nor does any root.
#[test]
fn only_own_pages_warm_at_the_ceiling() {
    let (mut trial, roots, fives) = with_fives(8, [8, 3, 8]);
    let six = touch(&mut trial, roots[1], 2);
    assert_eq!(six, handle_in(6, 1, 6));
    trial.accept(Call::Unfix(fives[2]));
    assert_eq!(fix(&mut trial, roots[1], 3), fixed(6, 1, 7, 15));
    assert_eq!(usages(&trial), [1, 1, 1, 1, 3, 1, 1, 0]);
    assert_eq!(trial.state.pool.hand, FrameIndex(7));
}

/// "A sweep takes at most 4 × F looks": at the ceiling too, whatever stands in the other frames.
#[test]
fn four_rounds_at_the_ceiling() {
    for frames in [4, 5, 16, 64] {
        let (mut trial, roots, fives) = with_fives(frames, [2, 2]);
        trial.accept(Call::Unfix(fives[0]));
        trial.record(2).usage = 3;
        trial.state.pool.hand = FrameIndex(3);
        assert_eq!(fix(&mut trial, roots[0], 2), fixed(2, 0, 6, 4 * frames as u16));
        assert_eq!(trial.state.pool.hand, FrameIndex(3));
        assert_eq!(usages(&trial)[3], 1, "the neighbour's pinned page");
    }
}

/// A store at its ceiling takes a page of its own in a pool with no empty frame as in one with some.
#[test]
fn full_or_not_a_store_at_its_ceiling_sweeps_the_same() {
    let (mut trial, roots, fives) = with_fives(6, [3, 6]);
    let six = touch(&mut trial, roots[0], 2);
    trial.accept(Call::Unfix(fives[0]));
    let mut full = trial.clone();
    assert_eq!(full.fix(roots[1], 2), handle_in(5, 1, 6));
    for trial in [&mut trial, &mut full] {
        assert_eq!(fix(trial, roots[0], 3), fixed(2, 0, 7, 9));
        assert_eq!(
            trial.find_in(0, 6),
            (Some(six.frame.0), if trial.state.pool.record(FrameIndex(5)).is_used() { 2 } else { 1 })
        );
    }
}

/// "27: a store at its ceiling has no page of its own that a sweep could take, beside 15": 15 is for a store below its ceiling. Both by
/// the pins and the ceilings of a pool of four frames and two stores, each with page 5 resident.
#[test]
fn which_number_denies_a_load() {
    let mut counts = [[0; 3]; 2];
    for (first, second) in (2..=4).flat_map(|first| (2..=4).map(move |second| (first, second))) {
        for pinned in 0..4 {
            let (mut trial, roots, fives) = with_fives(4, [first, second]);
            for (bit, five) in fives.into_iter().enumerate().filter(|(bit, _)| pinned >> bit & 1 == 0) {
                trial.accept(Call::Unfix(five));
                assert!(bit < 2);
            }
            for (store, ceiling) in [(0, first), (1, second)] {
                let shut = match ceiling {
                    2 => (pinned >> store & 1 == 1).then_some(27),
                    _ => (pinned == 3).then_some(15),
                };
                let number = trial.clone().number(Call::Fix(roots[store], 2));
                assert_eq!(
                    number,
                    shut.unwrap_or(0),
                    "ceilings {first} {second}, pinned {pinned:b}, store {store}"
                );
                counts[store][[0, 15, 27].iter().position(|other| *other == number).expect("one of them")] +=
                    1;
            }
        }
    }
    assert_eq!(counts, [[24, 6, 6]; 2]);
}

/// "15 is for a store below its ceiling": with one store a denied load is 27, whatever its ceiling is.
#[test]
fn one_store_is_never_denied_by_15() {
    for (frames, ceiling) in (2..=5).flat_map(|frames| (1..=frames).map(move |ceiling| (frames, ceiling))) {
        let mut trial = Trial::open_stores(frames, 16, Stores::of([ceiling as u8]), &LINKS);
        let root = trial.root();
        let loads = [1, 2, 3].map(|slot| trial.number(Call::Fix(root, slot)));
        let wanted = [1, 2, 3].map(|load| if load < ceiling { 0 } else { 27 });
        assert_eq!(loads, wanted, "F {frames}, ceiling {ceiling}");
    }
}

/// "judged where 15 would be": 14 comes before both, a page that is resident is never denied, and a denied load leaves all.
#[test]
fn denials_come_last() {
    let (mut trial, roots, fives) = with_fives(4, [2, 3]);
    assert_eq!([trial.number(Call::Fix(roots[0], 2)), trial.number(Call::Fix(roots[1], 2))], [27, 15]);
    trial.accept(Call::Fix(roots[0], 1));
    trial.accept(Call::Fix(roots[1], 1));
    for root in roots {
        assert_eq!(trial.number(Call::Fix(root, 4)), 7);
    }
    for page in [6, 16 + 6] {
        trial.put_stored_word(page, 0, 16);
    }
    assert_eq!(roots.map(|root| trial.number(Call::Fix(root, 2))), [14; 2]);
    assert_eq!(trial.number(Call::Fix(fives[0], 0)), 27);
}

/// A parent of resident pages stays, of whichever store it is: a store at its ceiling whose only page without pins has a child is denied.
#[test]
fn a_parent_stays_at_the_ceiling() {
    let (mut trial, roots, fives) = with_fives(6, [3, 6]);
    let eight = trial.fix(fives[0], 0);
    trial.accept(Call::Unfix(fives[0]));
    assert_eq!(trial.number(Call::Fix(roots[0], 2)), 27);
    assert_eq!(trial.number(Call::Evict(0, 5)), 22);
    trial.accept(Call::Unfix(eight));
    assert_eq!(trial.fix(roots[0], 2), handle_in(4, 0, 6));
    assert_eq!(trial.find_in(0, 8), (None, 0));
}

/// Opens in a list may name another T and other ceilings, and begin anew with the stores as they then are: 12 pages, where no number is
/// above 2, as one store, two, three and four.
#[test]
fn an_open_may_name_other_stores() -> Result<(), String> {
    let coverage = &mut Coverage::default();
    let State { frames, store, directory, .. } = Trial::closed(6, 12, &[(0, 0, 1), (0, 15, 2)]).state;
    let mut history = History::open(&UnderTest, (frames, store, directory), Stores::of([6]), coverage)?;
    for stores in
        [Stores::of([2, 6]), Stores::of([6, 1, 3]), Stores::of([2; 4]), Stores::of([4; 4]), Stores::of([3])]
    {
        for call in [Call::Root(0), Call::Fix(handle_in(0, 0, 0), 0)] {
            assert!(history.call(&call, coverage)?.accepted());
        }
        let own = history.state.pool.stores;
        let page = handle_in(own, 0, 1);
        assert!(history.call(&Call::Write(page, 0, vec![own; 192]), coverage)?.accepted());
        assert_eq!(history.call(&Call::Open(Stores::of([7, 6, 6])), coverage)?, Answer::Refused(1));
        assert!(history.call(&Call::Settle, coverage)?.accepted());
        assert!(history.call(&Call::Open(stores), coverage)?.accepted());
        assert_eq!(
            (history.state.pool.pages, history.state.pool.stores),
            (12 / u16::from(stores.count), stores.count)
        );
        assert_eq!(history.call(&Call::Show(page), coverage)?, Answer::Refused(3));
        history.check()?;
    }
    let figures = [Figure::OtherStores, Figure::OtherCeilings, Figure::CeilingAbove];
    assert_eq!(coverage.missing_figures(&figures), []);
    Ok(())
}

/// "Link's parent page is the page resident in the drawn frame" of A.10, by its number: a record names no store.
#[test]
fn a_drawn_record_names_no_store() {
    let (trial, ..) = with_fives(6, [6, 6, 6]);
    let drawn = |number| trial.draw(&mut Generator { number }).expect("an accepted draw");
    let links = (1..2000).map(drawn).filter(|entry| entry[0] == 5);
    let parents: HashSet<(u8, u8)> = links.map(|entry| (entry[1], entry[7])).collect();
    assert_eq!(parents, HashSet::from([(0, 0), (1, 0), (2, 0), (3, 5), (4, 5), (5, 5)]));
}

/// The calls on a pool of so few pages that change something, but for a pin on a page that has one: in these slots alone, and with
/// these opens.
fn few_calls(state: &State, opens: &[Stores], slots: &[usize]) -> Vec<Call> {
    let mut calls = vec![Call::Settle];
    calls.extend(opens.iter().map(|stores| Call::Open(*stores)));
    for store in state.store_numbers() {
        let unpinned = state.pool.record(FrameIndex(store.0)).pins == 0;
        calls.extend(unpinned.then_some(Call::Root(store.0)));
        calls.extend((1..state.pool.pages).map(|number| Call::Evict(store.0, number)));
    }
    for (frame, record) in state.occupied().filter(|(_, record)| record.pins > 0) {
        let handle = handle_of(frame, record);
        calls.extend([Call::Unfix(handle), Call::Write(handle, 0, vec![1 + record.store.0])]);
        for slot in slots.iter().copied() {
            calls.extend([Call::Fix(handle, slot), Call::Unlink(handle, slot)]);
            calls.extend((1..state.pool.pages).map(|number| Call::Link(handle, slot, number, false)));
        }
    }
    calls
}

/// A state, to be told from others.
fn key(state: &State) -> Vec<u8> {
    let records = format!("{:?}", state.pool).into_bytes();
    [&records[..], &state.frames, &state.store, &state.directory].concat()
}

/// Every list of so many of these calls on a pool, each state once, beside the plain maps. Gives how many states.
fn lists(
    (frames, pages): (usize, usize),
    opens: &[Stores],
    (words, slots): (&[Link], &[usize]),
    depth: usize,
    coverage: &mut Coverage,
) -> Result<usize, String> {
    let State { frames, store, directory, .. } = Trial::closed(frames, pages, words).state;
    let mut at = vec![History::open(&UnderTest, (frames, store, directory), opens[0], coverage)?];
    let mut seen = HashSet::new();
    for _ in 0..depth {
        let mut next = Vec::new();
        for history in &at {
            for call in few_calls(&history.state, opens, slots) {
                let mut after = history.clone();
                after.call(&call, coverage).map_err(|fault| format!("{opens:?}: {fault}"))?;
                if seen.insert(key(&after.state)) {
                    after.check().map_err(|fault| format!("{opens:?}, {call:?}: {fault}"))?;
                    next.push(after);
                }
            }
        }
        at = next;
    }
    Ok(seen.len())
}

/// Every short list of calls on two stores of two pages over three and four frames, with every ceiling; on two of three pages, of which
/// one store names two by its root; and on four pages that are opened as one store, as two and as four.
#[test]
fn every_short_list() -> Result<(), String> {
    let (mut coverage, mut states) = (Coverage::default(), 0);
    let words = [(0, 0, 1), (2, 0, 1)];
    for frames in [3, 4] {
        for (first, second) in (1..=frames).flat_map(|first| (1..=frames).map(move |second| (first, second)))
        {
            let opens = [Stores::of([first as u8, second as u8])];
            states += lists((frames, 4), &opens, (&words, &[0]), 7, &mut coverage)?;
        }
    }
    let words = [(0, 0, 1), (0, 15, 2), (3, 0, 1)];
    for opens in [[Stores::of([2, 4])], [Stores::of([3, 4])], [Stores::of([4, 2])]] {
        states += lists((4, 6), &opens, (&words, &[0, 15]), 6, &mut coverage)?;
    }
    let opens = [Stores::of([5, 2]), Stores::of([5; 4]), Stores::of([3]), Stores::of([2, 5])];
    states += lists((5, 4), &opens, (&[(0, 0, 1)], &[0]), 6, &mut coverage)?;
    println!("{states} states\n{coverage}");
    assert_eq!(coverage.missing(&Table::standing(), &[27]), [], "pairs that did not occur");
    let figures = [Figure::OtherStores, Figure::OtherCeilings, Figure::UnsoundAsSo];
    assert_eq!(coverage.missing_figures(&figures), [], "what no list met");
    Ok(())
}

/// A page's place is told by its store and its number.
#[test]
fn places() {
    assert_eq!(
        [page(0, 0), page(0, 15), page(1, 0), page(3, 15)].map(|page| page.place(16)),
        [0, 15, 16, 63]
    );
    assert_eq!(page(3, 4095).place(4096), 4 * 4096 - 1);
}
