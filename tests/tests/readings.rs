//! Single consequences of document 01 and of the requests, each with the figures that show it.
use pool_tests::calls::{Answer, Call, NAMES};
use pool_tests::pool::{Buffer, Fixed, Machine, UnderTest};
use pool_tests::records::{
    handle, with_mark, Entry, FrameIndex, FrameRecord, Generator, Handle, PageNumber, Pool, LOCK_BIT,
    PAGE_SIZE, SWIZZLE_BIT,
};
use pool_tests::trial::{payload, three_children, Link, Trial};
use words::rules::Table;

/// The store lags behind the map: a page that moved can stand in two stored words.
#[test]
fn an_open_in_between_can_be_refused() {
    let mut trial = Trial::open(4, 16, &[]);
    let root = trial.root();
    trial.accept(Call::Link(root, 0, 5, false));
    trial.accept(Call::Link(root, 1, 7, false));
    trial.accept(Call::Settle);
    let five = trial.fix(root, 0);
    trial.accept(Call::Unlink(root, 1));
    trial.accept(Call::Link(five, 0, 7, false));
    trial.accept(Call::Unfix(five));
    trial.accept(Call::Evict(0, 5));
    assert_eq!(trial.reopen(), 16);
    trial.accept(Call::Settle);
    assert_eq!(trial.reopen(), 0);
}

#[test]
fn open_refuses_lengths_out_of_range() {
    for (frames, pages, number) in
        [(1, 1, 1), (2, 1, 0), (64, 4096, 0), (65, 1, 1), (2, 4097, 1), (2, 0, 1), (0, 0, 1)]
    {
        let mut trial = Trial::closed(frames, pages, &[]);
        assert_eq!(trial.reopen(), number, "F {frames} N {pages}");
    }
}

#[test]
fn open_takes_whole_pages_alone() {
    for (frames, store) in [(-1, 0), (1, 0), (0, -1), (0, 1)] {
        let mut trial = Trial::closed(4, 8, &[(0, 0, 8)]);
        assert_eq!(trial.reopen(), 16);
        trial.state.frames.resize((4 * PAGE_SIZE).strict_add_signed(frames), 0);
        trial.state.store.resize((8 * PAGE_SIZE).strict_add_signed(store), 0);
        assert_eq!(trial.reopen(), 1);
    }
}

#[test]
fn a_refused_open_gives_zero_records() {
    let Trial { mut state } = Trial::closed(2, 4, &[(0, 0, 2), (3, 5, 2)]);
    state.frames.fill(7);
    let stores = state.as_one();
    let (opened, records) = UnderTest.open(&mut state.frames, &mut state.store, &mut state.directory, stores);
    assert_eq!((opened, records), (Err(16), Pool::ZERO));
    assert!(state.frames.iter().all(|byte| *byte == 7));
}

#[test]
fn open_holds_the_root_alone() {
    let pool = Trial::open(3, 5, &[]).state.pool;
    let mut expected = Pool { count: 3, pages: 5, stores: 1, ceilings: [3, 0, 0, 0], ..Pool::ZERO };
    expected.records[0].used = 1;
    assert_eq!(pool, expected);
}

#[test]
fn open_keeps_the_other_frames() {
    let mut trial = Trial::closed(3, 2, &[(0, 2, 1)]);
    trial.state.frames.fill(0xff);
    assert_eq!(trial.reopen(), 0);
    assert_eq!(trial.frame_word(0, 2), 1);
    assert!(trial.state.frames[PAGE_SIZE..].iter().all(|byte| *byte == 0xff));
    trial.root();
}

#[test]
fn lengths_come_before_agreement() {
    let by = [(-1, 0), (1, 0), (0, -1), (0, 1), (256, 0), (0, 256), (-256, 0), (0, -256)];
    for (frames, store) in by {
        let mut trial = Trial::open(4, 8, &[]);
        trial.record(0).used = 0;
        assert_eq!(trial.number(Call::Settle), 2);
        trial.state.frames.resize((4 * PAGE_SIZE).strict_add_signed(frames), 0);
        trial.state.store.resize((8 * PAGE_SIZE).strict_add_signed(store), 0);
        assert_eq!(trial.number(Call::Settle), 1);
    }
}

#[test]
fn counts_out_of_range_are_lengths_refused() {
    for (frames, pages) in [(0, 4), (1, 4), (65, 4), (4, 0), (4, 4097)] {
        let mut trial = Trial::closed(frames, pages, &[]);
        trial.record(0).used = 1;
        (trial.state.pool.count, trial.state.pool.pages) = (frames as u16, pages as u16);
        assert_eq!(trial.number(Call::Root(0)), 1, "F {frames} N {pages}");
    }
}

/// A call that breaks several rules is refused by the one that stands first in the table of rules.
#[test]
fn the_first_broken_rule_answers() {
    let table = Table::standing();
    let first = |call: &Call, broken: &[u8]| {
        table.answers(NAMES[call.index()]).find(|number| broken.contains(number)).expect("one of its rules")
    };
    let (mut trial, [root, five, six]) = two_children();
    trial.put_stored_word(12, 14, 16);
    trial.accept(Call::Link(five, 0, 8, false));
    trial.accept(Call::Link(six, 1, 9, false));
    trial.put_frame_word(0, 2, LOCK_BIT | trial.frame_word(0, 2));
    let eight = trial.fix(five, 0);
    trial.accept(Call::Unfix(eight));
    let stale = handle(3, 7);
    let cases: [(Call, &[u8]); 22] = [
        (Call::Write(six, 193, vec![]), &[5, 26]),
        (Call::Write(six, 0, vec![]), &[26]),
        (Call::Unlink(six, 16), &[4, 26]),
        (Call::Unlink(six, 0), &[7, 26]),
        (Call::Link(six, 16, 0, false), &[4, 6, 26]),
        (Call::Link(six, 0, 0, false), &[6, 26]),
        (Call::Link(six, 0, 5, false), &[9, 26]),
        (Call::Link(six, 1, 10, true), &[8, 26]),
        (Call::Link(six, 1, 9, true), &[8, 9, 26]),
        (Call::Fix(stale, 16), &[3, 4]),
        (Call::Word(stale, 16), &[3, 4]),
        (Call::Write(stale, 193, vec![]), &[3, 5]),
        (Call::Unlink(stale, 16), &[3, 4]),
        (Call::Link(stale, 16, 0, false), &[3, 4, 6]),
        (Call::Link(root, 16, 0, false), &[4, 6]),
        (Call::Link(five, 1, 16, false), &[6, 9]),
        (Call::Link(root, 1, 16, false), &[6, 8, 9]),
        (Call::Link(root, 1, 0, false), &[6, 8]),
        (Call::Link(root, 1, 6, false), &[8, 9]),
        (Call::Evict(0, 16), &[6, 11]),
        (Call::Evict(0, 0), &[20, 21, 22]),
        (Call::Evict(0, 5), &[21, 22]),
    ];
    for (call, broken) in cases {
        assert_eq!(trial.number(call.clone()), first(&call, broken), "{call:?}");
    }
    trial.accept(Call::Unfix(five));
    trial.accept(Call::Unfix(root));
    assert_eq!(trial.number(Call::Evict(0, 0)), first(&Call::Evict(0, 0), &[20, 22]));
    trial.state.pool.hand = FrameIndex(4);
    let evicts = [16, 0, 6, 5].map(|page| Call::Evict(0, page));
    for call in [Call::Fix(stale, 16), Call::Show(stale), Call::Peek(0, 16)].into_iter().chain(evicts) {
        assert_eq!(trial.number(call.clone()), first(&call, &[2, 3, 4, 6, 11, 20, 21, 22]), "{call:?}");
    }
}

/// A flag is 0 or 1: any other byte, of an occupied frame, an empty one or a record from F on, is refused.
#[test]
fn a_flag_is_zero_or_one() {
    let (mut trial, [root, five, six]) = two_children();
    trial.accept(Call::Unfix(six));
    trial.accept(Call::Write(five, 0, vec![1]));
    let calls = [
        Call::Root(0),
        Call::Fix(root, 3),
        Call::Unfix(five),
        Call::Show(five),
        Call::Peek(0, 9),
        Call::Word(root, 1),
        Call::Write(five, 0, vec![2]),
        Call::Link(root, 0, 9, false),
        Call::Unlink(root, 3),
        Call::Evict(0, 6),
        Call::Settle,
        Call::Find(0, 5),
    ];
    let agreed = trial.state;
    for call in &calls {
        Trial { state: agreed.clone() }.accept(call.clone());
    }
    let flags: [fn(&mut FrameRecord) -> &mut u8; 2] = [|record| &mut record.used, |record| &mut record.dirty];
    for frame in [0, 1, 2, 3, 4, 33, 63] {
        for (flag, byte) in flags.iter().flat_map(|flag| (2..=255).map(move |byte| (flag, byte))) {
            let mut trial = Trial { state: agreed.clone() };
            *flag(trial.record(frame)) = byte;
            for call in &calls {
                assert_eq!(trial.number(call.clone()), 2, "{call:?}: {:?}", trial.record(frame));
            }
        }
    }
}

/// Pages 5 and 6 in frames 1 and 2, under slots 1 and 2 of the root, all three pinned.
fn two_children() -> (Trial, [Handle; 3]) {
    let mut trial = Trial::open(4, 16, &[(0, 1, 5), (0, 2, 6), (0, 3, 7)]);
    let root = trial.root();
    let handles = [root, trial.fix(root, 1), trial.fix(root, 2)];
    (trial, handles)
}

/// Hangs a frame below a slot of another, by record and word.
fn hang(trial: &mut Trial, frame: u8, parent: u8, slot: u8) {
    let record = trial.record(frame);
    (record.parent, record.slot) = (FrameIndex(parent), slot);
    trial.put_frame_word(parent.into(), slot.into(), SWIZZLE_BIT + u32::from(frame));
}

#[test]
fn parents_must_lead_to_the_root() {
    let (mut trial, _) = two_children();
    trial.put_frame_word(0, 1, 0);
    hang(&mut trial, 1, 2, 9);
    assert_eq!(trial.number(Call::Settle), 0);
    trial.put_frame_word(0, 2, 0);
    hang(&mut trial, 2, 1, 3);
    assert_eq!(trial.number(Call::Settle), 2, "each other's parents");

    let (mut trial, _) = two_children();
    trial.put_frame_word(0, 1, 0);
    hang(&mut trial, 1, 1, 0);
    assert_eq!(trial.number(Call::Settle), 2, "its own parent");
}

#[test]
fn words_and_records_must_agree() {
    let cases =
        [(4, SWIZZLE_BIT), (4, SWIZZLE_BIT + 1), (4, SWIZZLE_BIT + 3), (4, 5), (4, 7), (4, 16), (1, 5)];
    for (slot, word) in cases {
        let (mut trial, _) = two_children();
        trial.put_frame_word(0, slot, word);
        assert_eq!(trial.number(Call::Settle), 2, "word {word:#x} in slot {slot}");
    }
}

#[test]
fn records_are_tested_up_to_the_last() {
    for frame in [3, 4, 63] {
        let (mut trial, _) = two_children();
        *trial.record(frame) = FrameRecord { usage: 1, ..FrameRecord::EMPTY };
        assert_eq!(trial.number(Call::Settle), 2, "frame {frame}");
    }
}

#[test]
fn an_empty_frame_is_free() {
    let (mut trial, _) = two_children();
    trial.state.frames[3 * PAGE_SIZE..].fill(0xff);
    trial.put_frame_word(3, 0, SWIZZLE_BIT + 1);
    trial.put_frame_word(3, 1, 5);
    assert_eq!(trial.number(Call::Settle), 0);
}

#[test]
fn a_handle_is_tested_with_its_page() {
    let (mut trial, [_, five, six]) = two_children();
    for (frame, page) in [(1, 6), (1, 16), (1, 65535), (3, 0), (4, 0), (64, 5), (255, 5)] {
        assert_eq!(trial.number(Call::Show(handle(frame, page))), 3, "frame {frame} page {page}");
    }
    trial.accept(Call::Unfix(five));
    assert_eq!(trial.number(Call::Unfix(five)), 3);
    trial.accept(Call::Show(six));
}

#[test]
fn a_stale_handle_is_good_again() {
    let (mut trial, [root, five, _]) = two_children();
    trial.accept(Call::Unfix(five));
    trial.accept(Call::Evict(0, 5));
    assert_eq!(trial.number(Call::Show(five)), 3);
    trial.state.pool.hand = FrameIndex(1);
    assert_eq!(trial.fix(root, 1), five);
    trial.accept(Call::Show(five));
}

#[test]
fn page_0_is_refused_in_link_alone() {
    let (mut trial, [root, ..]) = two_children();
    assert_eq!(trial.number(Call::Link(root, 5, 0, false)), 6);
    assert_eq!(trial.number(Call::Evict(0, 0)), 20);
    assert_eq!(trial.find(0), (Some(0), 1));
    for call in [Call::Peek(0, 16), Call::Find(0, 16), Call::Evict(0, 16), Call::Link(root, 5, 16, false)] {
        assert_eq!(trial.number(call), 6);
    }
}

#[test]
fn payloads_lie_in_frames_or_store() {
    let (mut trial, [_, five, _]) = two_children();
    assert_eq!(trial.call(Call::Show(five)), payload(Buffer::Frames, 1));
    assert_eq!(trial.call(Call::Peek(0, 5)), payload(Buffer::Frames, 1));
    assert_eq!(trial.call(Call::Peek(0, 7)), payload(Buffer::Store, 7));
}

#[test]
fn a_loaded_page_has_one_pin_and_one_usage() {
    let (mut trial, [root, ..]) = two_children();
    trial.fix(root, 3);
    let loaded =
        FrameRecord { used: 1, usage: 1, slot: 3, pins: 1, page: PageNumber(7), ..FrameRecord::EMPTY };
    assert_eq!(*trial.record(3), loaded);
    assert!(!trial.record(0).is_dirty());
}

#[test]
fn pins_count_on_where_usage_stops() {
    let (mut trial, [root, five, _]) = two_children();
    for (usage, pins) in [(2, 2), (3, 3), (3, 4)] {
        trial.fix(root, 1);
        assert_eq!((trial.record(1).usage, trial.record(1).pins), (usage, pins));
    }
    trial.accept(Call::Unfix(five));
    assert_eq!((trial.record(1).usage, trial.record(1).pins), (3, 3));
}

#[test]
fn settle_marks_clean() {
    let (mut trial, [_, five, six]) = two_children();
    trial.accept(Call::Write(five, 7, vec![1, 2, 3]));
    trial.accept(Call::Link(six, 0, 8, false));
    assert_eq!([1, 2].map(|frame| trial.record(frame).is_dirty()), [true, true]);
    trial.accept(Call::Settle);
    assert_eq!([1, 2].map(|frame| trial.record(frame).is_dirty()), [false, false]);
    let start = 5 * PAGE_SIZE + 64 + 7;
    assert_eq!(trial.state.store[start..start + 3], [1, 2, 3]);
    assert_eq!(trial.stored_word(6, 0), 8);
}

/// The first empty frame is taken from the hand on, and the hand stays.
#[test]
fn an_empty_frame_at_or_after_the_hand() {
    for (hand, frame) in [(0, 1), (1, 1), (2, 2), (3, 3)] {
        let mut trial = Trial::open(4, 16, &[(0, 1, 5)]);
        trial.state.pool.hand = FrameIndex(hand);
        let root = trial.root();
        let fixed = Answer::Fixed(Fixed { handle: handle(frame, 5), looks: 0 });
        assert_eq!(trial.call(Call::Fix(root, 1)), fixed, "hand {hand}");
        assert_eq!(trial.state.pool.hand, FrameIndex(hand));
    }
}

#[test]
fn no_room_leaves_usage_and_hand() {
    let mut trial = Trial::open(2, 8, &[(0, 0, 1), (0, 1, 2)]);
    let root = trial.root();
    trial.fix(root, 0);
    trial.state.pool.hand = FrameIndex(1);
    assert_eq!(trial.number(Call::Fix(root, 1)), 27);
}

#[test]
fn a_page_with_a_resident_child_stays() {
    let mut trial = Trial::open(3, 8, &[(0, 0, 1), (1, 0, 2), (0, 1, 3)]);
    let root = trial.root();
    let one = trial.fix(root, 0);
    let two = trial.fix(one, 0);
    trial.accept(Call::Unfix(one));
    assert_eq!(trial.number(Call::Evict(0, 1)), 22);
    assert_eq!(trial.number(Call::Fix(root, 1)), 27);
    trial.accept(Call::Unfix(two));
    assert_eq!(trial.fix(root, 1).frame, two.frame);
}

#[test]
fn an_evicted_page_leaves_its_bytes() {
    let (mut trial, [_, five, _]) = two_children();
    trial.accept(Call::Write(five, 0, vec![9]));
    trial.accept(Call::Unfix(five));
    trial.accept(Call::Evict(0, 5));
    assert_eq!(*trial.record(1), FrameRecord::EMPTY);
    assert_eq!(trial.state.frames[PAGE_SIZE + 64], 9);
    assert_eq!(trial.state.store[5 * PAGE_SIZE + 64], 9);
    assert_eq!(trial.state.pool.hand, FrameIndex(0));
}

/// Neither loading nor evicting a page dirties its parent, and a clean page isn't written.
#[test]
fn a_clean_page_is_not_written() {
    let (mut trial, [_, five, _]) = two_children();
    assert!(!trial.record(0).is_dirty());
    trial.accept(Call::Unfix(five));
    trial.put_stored_word(5, 3, 9);
    trial.accept(Call::Evict(0, 5));
    assert!(!trial.record(0).is_dirty());
    assert_eq!(trial.frame_word(0, 1), 5);
    assert_eq!(trial.stored_word(5, 3), 9);
}

#[test]
fn equal_bytes_are_dirty_and_none_are_not() {
    let (mut trial, [_, five, six]) = two_children();
    trial.accept(Call::Write(five, 0, vec![0; 192]));
    trial.accept(Call::Write(six, 0, vec![]));
    assert!(trial.record(1).is_dirty() && !trial.record(2).is_dirty());
}

/// Rule 9 takes resident pages by their images: what the store alone still says of them doesn't count.
#[test]
fn link_asks_images_and_the_rest_of_the_store() {
    let (mut trial, [root, five, _]) = two_children();
    assert_eq!(trial.number(Call::Link(five, 0, 6, false)), 9, "a swizzled word names it");
    assert_eq!(trial.number(Call::Link(five, 0, 7, false)), 9, "a number names it");
    trial.accept(Call::Unlink(root, 3));
    trial.accept(Call::Link(five, 0, 7, false));
    trial.put_stored_word(12, 15, 8);
    assert_eq!(trial.number(Call::Link(five, 1, 8, false)), 9, "a page out of reach names it");
    trial.put_stored_word(5, 15, 9);
    trial.accept(Call::Link(five, 1, 9, false));
}

/// A.9: a page that is named is refused by 9 in a taken slot too, and one that isn't by 8, which an empty slot then takes.
#[test]
fn a_named_page_comes_before_a_taken_slot() {
    let (mut trial, [root, five, _]) = two_children();
    trial.put_stored_word(7, 0, 8);
    trial.put_stored_word(12, 15, 9);
    trial.put_stored_word(12, 14, 16);
    for (slot, page, number, why) in [
        (1, 5, 9, "that very slot names it, swizzled"),
        (3, 7, 9, "that very slot names it by its number"),
        (1, 6, 9, "another slot names it, swizzled"),
        (1, 7, 9, "another slot names it by its number"),
        (1, 8, 9, "a page that isn't resident names it"),
        (1, 9, 9, "a page out of reach names it"),
        (1, 10, 8, "nothing names it, and the slot is swizzled"),
        (3, 10, 8, "nothing names it, and the slot has a number"),
        (1, 0, 6, "page 0"),
        (3, 16, 6, "a page not below N, though a stored word has its number"),
    ] {
        assert_eq!(trial.number(Call::Link(root, slot, page, false)), number, "{why}");
    }
    trial.accept(Call::Link(five, 0, 10, false));
}

/// A.4: the root is refused by 20 pinned or not, a pinned page by 21 also where it is a parent, a parent without pins by 22, and
/// 6 and 11 come before. Where what the rule says has been done, the page goes.
#[test]
fn evict_tells_why_a_page_stays() {
    let mut trial = Trial::open(4, 16, &[(0, 1, 5), (5, 0, 6), (5, 15, 7)]);
    assert_eq!(trial.number(Call::Evict(0, 0)), 20, "the root");
    let root = trial.root();
    assert_eq!(trial.number(Call::Evict(0, 0)), 20, "the root, pinned");
    assert_eq!(trial.number(Call::Evict(0, 5)), 11, "not resident");
    assert_eq!(trial.number(Call::Evict(0, 16)), 6, "not below N");
    let five = trial.fix(root, 1);
    assert_eq!(trial.number(Call::Evict(0, 5)), 21, "a pinned page");
    assert_eq!(trial.number(Call::Evict(0, 0)), 20, "the root, pinned and a parent");
    let [six, seven] = [0, 15].map(|slot| trial.fix(five, slot));
    trial.fix(five, 0);
    assert_eq!(trial.number(Call::Evict(0, 5)), 21, "a pinned parent");
    for handle in [root, five, seven] {
        trial.accept(Call::Unfix(handle));
    }
    assert_eq!(trial.number(Call::Evict(0, 0)), 20, "the root, a parent");
    assert_eq!(trial.number(Call::Evict(0, 5)), 22, "a parent of two");
    for _ in 0..2 {
        assert_eq!(trial.number(Call::Evict(0, 6)), 21, "a pin is left");
        trial.accept(Call::Unfix(six));
    }
    trial.accept(Call::Evict(0, 6));
    assert_eq!(trial.number(Call::Evict(0, 5)), 22, "a parent by its last slot");
    trial.accept(Call::Evict(0, 7));
    trial.accept(Call::Evict(0, 5));
    assert_eq!(trial.number(Call::Evict(0, 5)), 11, "gone");
    assert_eq!(trial.number(Call::Evict(0, 0)), 20, "the root alone");
}

/// The sweep passes over what evict refuses by 20, 21 and 22, and takes what it doesn't.
#[test]
fn the_sweep_takes_what_evict_takes() {
    let mut trial = Trial::open(4, 16, &[(0, 1, 5), (5, 0, 6), (0, 2, 7), (0, 3, 8)]);
    let root = trial.root();
    let five = trial.fix(root, 1);
    let [six, seven] = [trial.fix(five, 0), trial.fix(root, 2)];
    trial.accept(Call::Unfix(five));
    trial.accept(Call::Unfix(six));
    assert_eq!([0, 5, 7].map(|page| trial.number(Call::Evict(0, page))), [20, 22, 21]);
    assert_eq!(trial.fix(root, 3).frame, six.frame);
    assert_eq!([0, 7, 8].map(|page| trial.number(Call::Evict(0, page))), [20, 21, 21]);
    trial.accept(Call::Evict(0, 5));
    trial.accept(Call::Unfix(seven));
    trial.accept(Call::Evict(0, 7));
}

/// The usage of each frame.
fn usages(trial: &Trial) -> Vec<u8> {
    trial.state.pool.records[..trial.state.frame_count()].iter().map(|record| record.usage).collect()
}

/// Pages 5, 7 and 8 below the root, in frames 1, 3 and 4, and page 6 below page 5, in frame 2, each of usage 1. All but page 8
/// are pinned: a load takes its frame in the second round. Page 9 is below page 5, page 10 below the root.
fn one_open() -> (Trial, [Handle; 4]) {
    let links = [(0, 1, 5), (5, 0, 6), (5, 1, 9), (0, 2, 7), (0, 3, 8), (0, 4, 10)];
    let mut trial = Trial::open(5, 16, &links);
    let root = trial.root();
    let five = trial.fix(root, 1);
    let [six, seven, eight] = [(five, 0), (root, 2), (root, 3)].map(|(page, slot)| trial.fix(page, slot));
    trial.accept(Call::Unfix(eight));
    (trial, [root, five, six, seven])
}

/// The looks of a fix that must load.
fn looks(trial: &mut Trial, page: Handle, slot: usize) -> u16 {
    match trial.call(Call::Fix(page, slot)) {
        Answer::Fixed(fixed) => fixed.looks,
        other => panic!("{other:?}"),
    }
}

/// A.5, "Pages passed over for children alone keep their heat": with children and pinned, a page warms.
#[test]
fn a_pinned_parent_warms_and_a_parent_alone_does_not() {
    let (mut trial, [root, five, ..]) = one_open();
    let mut alone = trial.clone();
    assert_eq!(looks(&mut trial, root, 4), 10);
    assert_eq!(usages(&trial), [1, 3, 3, 3, 1]);
    alone.accept(Call::Unfix(five));
    assert_eq!(looks(&mut alone, root, 4), 10);
    assert_eq!(usages(&alone), [1, 1, 3, 3, 1]);
}

/// A.5, "Each look .. raises its heat by one, to 3 at most": not once for a sweep, and no further.
#[test]
fn each_look_warms_a_pinned_page() {
    for (usage, looked, left) in [(0, 5, 1), (1, 10, 2), (2, 15, 3), (3, 20, 3)] {
        let (mut trial, [root, ..]) = one_open();
        trial.record(3).usage = 0;
        trial.record(4).usage = usage;
        assert_eq!(looks(&mut trial, root, 4), looked);
        assert_eq!(usages(&trial)[3], left, "{looked} looks");
    }
}

/// A.5: the page whose child is loaded is pinned, and warms as any other.
#[test]
fn the_page_whose_child_comes_in_warms() {
    let (mut trial, [_, five, six, seven]) = one_open();
    for handle in [six, seven] {
        trial.accept(Call::Unfix(handle));
    }
    assert_eq!(looks(&mut trial, five, 1), 8);
    assert_eq!(usages(&trial), [1, 3, 1, 0, 0]);
}

/// A.5, "a pinned page other than the root".
#[test]
fn no_look_warms_the_root() {
    for (usage, pins) in [(0, 0), (0, 1), (2, 0), (2, 2)] {
        let (mut trial, [_, five, ..]) = one_open();
        (trial.record(0).usage, trial.record(0).pins) = (usage, pins);
        assert_eq!(looks(&mut trial, five, 1), 10);
        assert_eq!(usages(&trial), [usage, 3, 3, 3, 1]);
    }
}

/// A.5: a fix of a resident page and a load into an empty frame make no look, and a denied load changes nothing: none of them
/// warms another page.
#[test]
fn without_a_sweep_nothing_warms() {
    let (mut trial, [root, five, ..]) = one_open();
    trial.fix(five, 0);
    assert_eq!(usages(&trial), [1, 1, 2, 1, 1]);
    let eight = trial.fix(root, 3);
    assert_eq!(usages(&trial), [1, 1, 2, 1, 2]);
    for call in [Call::Fix(root, 4), Call::Fix(five, 1)] {
        assert_eq!(trial.number(call), 27);
    }
    assert_eq!(usages(&trial), [1, 1, 2, 1, 2]);
    trial.accept(Call::Unfix(eight));
    trial.accept(Call::Evict(0, 8));
    assert_eq!(looks(&mut trial, root, 4), 0);
    assert_eq!(usages(&trial), [1, 1, 2, 1, 1]);
}

/// A.5: whatever usages pinned pages have, a sweep takes the same frame by the same looks, 4 × F at most.
#[test]
fn usages_of_pinned_pages_decide_nothing() {
    for warm in 0..=3 {
        let (mut trial, [root, ..]) = one_open();
        for frame in 0..4 {
            trial.record(frame).usage = warm;
        }
        trial.record(4).usage = 3;
        let fixed = Answer::Fixed(Fixed { handle: handle(4, 10), looks: 20 });
        assert_eq!(trial.call(Call::Fix(root, 4)), fixed);
        assert_eq!((usages(&trial), trial.state.pool.hand), (vec![warm, 3, 3, 3, 1], FrameIndex(0)));
    }
}

/// A.5, "it goes cold on release": a page that was held over a sweep outlives one that came in with it. By document 01's sweep it
/// would go first.
#[test]
fn a_page_that_was_held_outlives_one_that_was_not() {
    let mut trial = Trial::open(3, 8, &[(0, 0, 1), (0, 1, 2), (0, 2, 3)]);
    let root = trial.root();
    let held = trial.fix(root, 0);
    let other = trial.fix(root, 1);
    trial.accept(Call::Unfix(other));
    let three = trial.fix(root, 2);
    assert_eq!(usages(&trial), [1, 3, 1]);
    for handle in [held, three] {
        trial.accept(Call::Unfix(handle));
    }
    let mut formerly = trial.clone();
    assert_eq!(trial.fix(root, 1).frame, three.frame);
    assert_eq!(trial.find(1).0, Some(held.frame.0));
    formerly.record(held.frame.0).usage = 1;
    assert_eq!(formerly.fix(root, 1).frame, held.frame);
}

/// The record that a number draws, and the generator's number after it.
fn drawn(trial: &Trial, number: u32) -> (Entry, u32) {
    let mut generator = Generator { number };
    (trial.draw(&mut generator).expect("it is accepted"), generator.number)
}

/// A record with no data.
fn entry(call: u8, frame: u8, page: u16, slot: u8, offset: u8) -> Entry {
    let [low, high] = page.to_le_bytes();
    [call, frame, low, high, slot, offset, 0, 0, 0, 0, 0, 0, 0, 0, 0, 0]
}

/// A.10: "call, frame, page, slot and offset are remainders by 9 (plus 1), F, N, 16 and 193", each of a draw of its own.
#[test]
fn five_draws_make_a_record() {
    let cases = [
        ((4, 16), 1, (entry(1, 1, 5, 15, 120), 2_398_689_233)),
        ((4, 16), 2_398_689_233, (entry(8, 2, 2, 5, 172), 2_916_098_932)),
        ((64, 4096), 1, (entry(1, 1, 2245, 15, 120), 2_398_689_233)),
        ((64, 4096), u32::MAX, (entry(4, 63, 2115, 10, 160), 2_049_502_865)),
        ((64, 4096), 1 << 31, (entry(9, 4, 328, 4, 90), 1_756_881_985)),
        ((2, 1), 2, (entry(1, 0, 0, 6, 62), 3_819_972_634)),
    ];
    for ((frames, pages), number, record) in cases {
        assert_eq!(drawn(&Trial::open(frames, pages, &[]), number), record, "by {number}");
    }
}

/// A.10: only the seed is read so. From number 0 each draw gives 0.
#[test]
fn from_0_each_draw_gives_0() {
    for (frames, pages) in [(2, 1), (4, 16), (64, 4096)] {
        assert_eq!(drawn(&Trial::open(frames, pages, &[]), 0), (entry(1, 0, 0, 0, 0), 0));
    }
}

/// A.10: "Link's parent page is the page resident in the drawn frame, else 0", as the calls before left it.
#[test]
fn a_links_parent_is_in_the_drawn_frame() {
    let (mut trial, _) = three_children(5);
    let parent = |trial: &Trial, frame: u8, number| {
        let (entry, _) = drawn(trial, number);
        assert_eq!(entry[..2], [5, frame]);
        entry[7..].to_vec()
    };
    let alone = |page: u8| vec![page, 0, 0, 0, 0, 0, 0, 0, 0];
    for (frame, number, page) in [(0, 49, 0), (1, 53, 5), (2, 97, 6), (3, 108, 7), (4, 61, 0)] {
        assert_eq!(parent(&trial, frame, number), alone(page), "frame {frame}");
    }
    trial.accept(Call::Evict(0, 6));
    assert_eq!(parent(&trial, 2, 97), alone(0));
}

#[test]
fn a_links_parent_takes_two_bytes() {
    let mut trial = Trial::open(2, 4096, &[(0, 3, 4095)]);
    let root = trial.root();
    trial.fix(root, 3);
    let mut wanted = entry(5, 1, 3893, 10, 23);
    wanted[7..9].copy_from_slice(&[255, 15]);
    assert_eq!(drawn(&trial, 97), (wanted, 773_620_837));
}

/// A.10: a record is made of a pool, and refused as any call is; then the generator stays (`host` asserts the zeros beside the
/// number), and draws the same record once the pool is as it was.
#[test]
fn a_refused_draw_leaves_the_generator() {
    let (mut trial, _) = three_children(4);
    let mut generator = Generator { number: 53 };
    trial.record(0).usage = 4;
    assert_eq!((trial.draw(&mut generator), generator.number), (Err(2), 53));
    trial.state.store.pop();
    assert_eq!((trial.draw(&mut generator), generator.number), (Err(1), 53));
    trial.state.store.push(0);
    trial.record(0).usage = 1;
    assert_eq!(trial.draw(&mut generator), Ok(drawn(&trial, 53).0));
    assert_eq!(generator.number, 3_867_844_562);
}

/// Page 5, which a marked word names, and page 6, in frames 1 and 2 under slots 1 and 2 of the root; all three pinned. Page 5 names
/// page 8, and page 6 page 9 by a marked word; neither is resident.
fn one_locked() -> (Trial, [Handle; 3]) {
    let words = [(0, 1, LOCK_BIT | 5), (0, 2, 6), (5, 3, 8), (6, 3, LOCK_BIT | 9)];
    let mut trial = Trial::open(5, 16, &words);
    let root = trial.root();
    let handles = [root, trial.fix(root, 1), trial.fix(root, 2)];
    (trial, handles)
}

/// A.8: "Whoever writes, links, unlinks .. in a locked page is refused": one that the mark's word names, and no other call.
#[test]
fn a_locked_page_is_not_edited() {
    let (mut trial, [_, five, six]) = one_locked();
    let edits = |page| [Call::Write(page, 0, vec![1]), Call::Link(page, 0, 10, false), Call::Unlink(page, 3)];
    assert_eq!(edits(five).map(|call| trial.number(call)), [26; 3]);
    assert_eq!(edits(six).map(|call| trial.number(call)), [0; 3]);
    let eight = trial.fix(five, 3);
    trial.accept(Call::Unfix(eight));
    trial.accept(Call::Evict(0, 8));
    for call in [Call::Show(five), Call::Peek(0, 5), Call::Find(0, 5), Call::Word(five, 3), Call::Settle] {
        trial.accept(call);
    }
    trial.accept(Call::Unfix(five));
    trial.accept(Call::Evict(0, 5));
}

/// A.8: "26: the handle's page is locked, after 5 and before 6".
#[test]
fn a_locked_page_comes_after_5_and_before_6() {
    let (mut trial, [_, five, _]) = one_locked();
    trial.fix(five, 3);
    let stale = handle(1, 6);
    for (call, number, why) in [
        (Call::Write(stale, 193, vec![]), 3, "another page's handle"),
        (Call::Write(five, 193, vec![]), 5, "an offset above 192"),
        (Call::Write(five, 192, vec![1]), 5, "a length above 192 - offset"),
        (Call::Write(five, 192, vec![]), 26, "no bytes, at the end"),
        (Call::Write(five, 0, vec![]), 26, "no bytes"),
        (Call::Write(five, 0, vec![0]), 26, "the bytes that stand there"),
        (Call::Link(stale, 16, 0, false), 3, "another page's handle"),
        (Call::Link(five, 16, 0, false), 4, "a slot above 15"),
        (Call::Link(five, 0, 0, false), 26, "page 0"),
        (Call::Link(five, 0, 16, true), 26, "a page not below N"),
        (Call::Link(five, 0, 6, false), 26, "a page that is named"),
        (Call::Link(five, 3, 10, true), 26, "a taken slot"),
        (Call::Link(five, 3, 8, false), 26, "a taken slot, and the page in it"),
        (Call::Link(five, 0, 10, true), 26, "nothing else"),
        (Call::Unlink(stale, 16), 3, "another page's handle"),
        (Call::Unlink(five, 16), 4, "a slot above 15"),
        (Call::Unlink(five, 0), 26, "a word of 0"),
        (Call::Unlink(five, 3), 26, "a resident page"),
    ] {
        assert_eq!(trial.number(call.clone()), number, "{call:?}: {why}");
    }
}

/// A.8, "marks the page it names": neither what lies below it nor what names it is locked.
#[test]
fn a_lock_is_one_pages() {
    let (mut trial, [root, five, six]) = one_locked();
    let eight = trial.fix(five, 3);
    trial.accept(Call::Write(eight, 0, vec![8]));
    trial.accept(Call::Write(root, 0, vec![1]));
    let nine = trial.fix(six, 3);
    assert_eq!(trial.number(Call::Write(nine, 0, vec![9])), 26);
    trial.accept(Call::Write(six, 0, vec![6]));
}

/// A.8: no word names the root, so nothing locks it. Its parent fields, both 0, are those of its own first word.
#[test]
fn nothing_locks_the_root() {
    let mut trial = Trial::open(4, 16, &[(0, 0, LOCK_BIT | 5)]);
    let root = trial.root();
    let edit = [Call::Write(root, 0, vec![1]), Call::Link(root, 1, 6, true), Call::Unlink(root, 1)];
    edit.iter().for_each(|call| trial.accept(call.clone()));
    let five = trial.fix(root, 0);
    assert_eq!(trial.frame_word(0, 0), 0xc000_0001);
    assert_eq!(trial.number(Call::Write(five, 0, vec![1])), 26);
    edit.iter().for_each(|call| trial.accept(call.clone()));
}

/// A.8: the mark is an argument of its own, and a page number has none.
#[test]
fn link_takes_the_mark_apart() {
    let mut trial = Trial::open(4, 16, &[]);
    let root = trial.root();
    trial.accept(Call::Link(root, 0, 7, true));
    trial.accept(Call::Link(root, 1, 8, false));
    assert_eq!([0, 1].map(|slot| trial.frame_word(0, slot)), [0x4000_0007, 8]);
    assert_eq!([0, 1, 2].map(|slot| trial.word(root, slot)), [(7, true), (8, false), (0, false)]);
    assert_eq!(trial.number(Call::Link(root, 2, 0x4009, false)), 6);
    let seven = trial.fix(root, 0);
    assert_eq!((seven, trial.find(7)), (handle(1, 7), (Some(1), 1)));
    assert_eq!(trial.record(1).page, PageNumber(7));
    assert_eq!([0, 1, 2].map(|slot| trial.word(root, slot)), [(7, true), (8, false), (0, false)]);
    assert_eq!(trial.call(Call::Peek(0, 7)), payload(Buffer::Frames, 1));
    trial.accept(Call::Unfix(seven));
    trial.accept(Call::Evict(0, 7));
    assert_eq!(trial.frame_word(0, 0), 0x4000_0007);
}

/// A.8: "Loading, eviction, settling .. carry it", of a locked page and of one below it, by evict and by a sweep, and none of them
/// dirties the page whose word it is.
#[test]
fn marks_are_carried() {
    let words = [(0, 0, LOCK_BIT | 1), (1, 0, LOCK_BIT | 2), (1, 1, 3), (0, 1, 4)];
    let mut trial = Trial::open(3, 8, &words);
    let root = trial.root();
    let one = trial.fix(root, 0);
    let two = trial.fix(one, 0);
    assert_eq!([trial.frame_word(0, 0), trial.frame_word(1, 0)], [0xc000_0001, 0xc000_0002]);
    trial.accept(Call::Unfix(two));
    let three = trial.fix(one, 1);
    assert_eq!([0, 1].map(|slot| trial.frame_word(1, slot)), [0x4000_0002, 0x8000_0002]);
    trial.accept(Call::Unfix(three));
    trial.accept(Call::Evict(0, 3));
    assert_eq!([0, 1].map(|slot| trial.frame_word(1, slot)), [0x4000_0002, 3]);
    trial.accept(Call::Write(root, 0, vec![1]));
    trial.accept(Call::Settle);
    assert_eq!([trial.stored_word(0, 0), trial.frame_word(0, 0)], [0x4000_0001, 0xc000_0001]);
    trial.accept(Call::Unfix(one));
    trial.accept(Call::Evict(0, 1));
    assert_eq!([trial.frame_word(0, 0), trial.frame_word(0, 1)], [0x4000_0001, 4]);
    assert_eq!([0, 1, 2].map(|frame| trial.record(frame).is_dirty()), [false; 3]);
    assert_eq!([0, 1].map(|slot| trial.stored_word(1, slot)), [0x4000_0002, 3]);
}

/// A.8: a dirty page is written out with its marks, as it leaves and as it is settled.
#[test]
fn marks_are_written_out() {
    let (mut trial, [root, _, six]) = one_locked();
    trial.accept(Call::Link(six, 0, 10, true));
    trial.accept(Call::Settle);
    assert_eq!([0, 3].map(|slot| trial.stored_word(6, slot)), [0x4000_000a, 0x4000_0009]);
    trial.accept(Call::Unlink(six, 0));
    trial.accept(Call::Link(six, 1, 10, true));
    trial.accept(Call::Unfix(six));
    trial.accept(Call::Evict(0, 6));
    assert_eq!([0, 1].map(|slot| trial.stored_word(6, slot)), [0, 0x4000_000a]);
    let six = trial.fix(root, 2);
    assert_eq!([0, 1, 3].map(|slot| trial.word(six, slot)), [(0, false), (10, true), (9, true)]);
}

/// A.8: a lock is the page's, whichever frame holds it.
#[test]
fn a_lock_outlives_the_frame() {
    let (mut trial, [root, five, six]) = one_locked();
    for handle in [five, six] {
        trial.accept(Call::Unfix(handle));
        trial.accept(Call::Evict(0, handle.page.0));
    }
    trial.state.pool.hand = FrameIndex(2);
    let [five, six] = [1, 2].map(|slot| trial.fix(root, slot));
    assert_eq!([five, six], [handle(2, 5), handle(3, 6)]);
    assert_eq!([five, six].map(|page| trial.number(Call::Write(page, 0, vec![1]))), [26, 0]);
}

/// A.8: unlinking a marked word is an edit of the page that holds it, refused by 10 as any while the page that it names is
/// resident. Without its mark the page can be edited, and with a mark again it can't.
#[test]
fn a_marked_word_is_unlinked_where_it_stands() {
    let (mut trial, [root, five, _]) = one_locked();
    assert_eq!(trial.number(Call::Unlink(root, 1)), 10);
    trial.accept(Call::Unfix(five));
    trial.accept(Call::Evict(0, 5));
    for (locked, number) in [(false, 0), (true, 26)] {
        trial.accept(Call::Unlink(root, 1));
        trial.accept(Call::Link(root, 1, 5, locked));
        let five = trial.fix(root, 1);
        assert_eq!(trial.number(Call::Write(five, 0, vec![1])), number);
        trial.accept(Call::Unfix(five));
        trial.accept(Call::Evict(0, 5));
    }
}

/// A.8: a locked page keeps its own words, marked or not, until its own mark is gone.
#[test]
fn a_locked_page_keeps_its_words() {
    let mut trial = Trial::open(4, 16, &[(0, 0, LOCK_BIT | 1), (1, 0, 2), (1, 1, LOCK_BIT | 3)]);
    let root = trial.root();
    let one = trial.fix(root, 0);
    assert_eq!([0, 1].map(|slot| trial.number(Call::Unlink(one, slot))), [26; 2]);
    trial.accept(Call::Unfix(one));
    trial.accept(Call::Evict(0, 1));
    trial.accept(Call::Unlink(root, 0));
    trial.accept(Call::Link(root, 0, 1, false));
    let one = trial.fix(root, 0);
    assert_eq!([0, 1].map(|slot| trial.number(Call::Unlink(one, slot))), [0; 2]);
}

/// A.8, "Opening accepts bit 30 on a word naming a page and denies it on a word of otherwise 0": in any page and slot. Numbers are
/// compared by their low 30 bits.
#[test]
fn open_reads_marks() {
    let mark = LOCK_BIT;
    let cases: [(&[Link], u8); 17] = [
        (&[(0, 0, mark | 5)], 0),
        (&[(0, 0, mark | 15), (15, 15, mark | 1)], 0),
        (&[(9, 7, mark | 9)], 0),
        (&[(8, 0, mark | 9), (9, 0, mark | 8)], 0),
        (&[(0, 0, mark)], 16),
        (&[(0, 15, mark)], 16),
        (&[(9, 3, mark)], 16),
        (&[(15, 15, mark)], 16),
        (&[(0, 0, 5), (0, 1, mark | 5)], 16),
        (&[(0, 0, mark | 5), (15, 15, 5)], 16),
        (&[(0, 0, mark | 5), (15, 15, mark | 5)], 16),
        (&[(0, 0, mark | 16)], 16),
        (&[(0, 0, mark | 1 << 16 | 5)], 16),
        (&[(0, 0, mark | 0x3fff_ffff)], 16),
        (&[(0, 0, 1 << 29 | 5)], 16),
        (&[(0, 0, SWIZZLE_BIT | mark)], 16),
        (&[(0, 0, SWIZZLE_BIT | mark | 5)], 16),
    ];
    for (words, number) in cases {
        assert_eq!(Trial::closed(4, 16, words).reopen(), number, "{words:x?}");
    }
}

/// A.8: in an occupied frame bit 30 alone is refused by 2, and so are a number and its like with the mark, a marked number of a
/// resident page, and a marked word that is swizzled to the root or to a frame that doesn't point back.
#[test]
fn marks_and_records_must_agree() {
    let mark = LOCK_BIT;
    for (slot, word, number) in [
        (4, mark, 2),
        (4, mark | 7, 2),
        (4, mark | 5, 2),
        (4, mark | 16, 2),
        (4, mark | 1 << 16 | 8, 2),
        (4, mark | 8, 0),
        (3, mark | 7, 0),
        (4, SWIZZLE_BIT | mark, 2),
        (0, SWIZZLE_BIT | mark, 2),
        (4, SWIZZLE_BIT | mark | 1, 2),
        (4, SWIZZLE_BIT | mark | 3, 2),
        (1, SWIZZLE_BIT | mark | 2, 2),
        (1, SWIZZLE_BIT | mark | 1, 0),
        (1, SWIZZLE_BIT | 1 << 29 | 1, 2),
    ] {
        let (mut trial, _) = two_children();
        trial.put_frame_word(0, slot, word);
        assert_eq!(trial.number(Call::Settle), number, "word {word:#x} in slot {slot}");
    }
}

/// A.8: an empty frame's bytes are free, marks among them.
#[test]
fn a_mark_in_an_empty_frame_is_free() {
    let (mut trial, _) = two_children();
    for (slot, word) in [LOCK_BIT, LOCK_BIT | 5, SWIZZLE_BIT | LOCK_BIT, u32::MAX].into_iter().enumerate() {
        trial.put_frame_word(3, slot, word);
    }
    trial.accept(Call::Settle);
    trial.put_frame_word(2, 0, LOCK_BIT);
    assert_eq!(trial.number(Call::Settle), 2);
}

/// A.8: rule 9 goes by the low 30 bits too, all of them. Bit 30 alone names nothing, and a stored word with bit 31 no page.
#[test]
fn link_asks_past_the_marks() {
    let (mut trial, [root, five, six]) = one_locked();
    trial.put_stored_word(12, 15, LOCK_BIT | 10);
    for (page, why) in [
        (5, "a marked swizzled word names it"),
        (6, "a swizzled word names it"),
        (9, "a marked number of a resident page names it"),
        (8, "a locked page names it"),
        (10, "a marked word of a page out of reach names it"),
    ] {
        for locked in [false, true] {
            assert_eq!(trial.number(Call::Link(six, 0, page, locked)), 9, "{why}");
        }
    }
    trial.put_stored_word(12, 14, LOCK_BIT);
    trial.put_stored_word(12, 13, SWIZZLE_BIT | 11);
    trial.put_stored_word(12, 12, SWIZZLE_BIT | LOCK_BIT | 11);
    trial.put_stored_word(12, 11, LOCK_BIT | 1 << 16 | 11);
    trial.accept(Call::Link(six, 0, 11, true));
    assert_eq!(trial.number(Call::Link(root, 1, 12, true)), 8);
    trial.accept(Call::Show(five));
}

/// A.8: a page that names itself by a marked word is out of reach, and no link brings it in.
#[test]
fn a_page_that_locks_itself() {
    let mut trial = Trial::open(4, 16, &[(9, 2, LOCK_BIT | 9)]);
    let root = trial.root();
    assert_eq!(trial.number(Call::Link(root, 0, 9, false)), 9);
    trial.accept(Call::Peek(0, 9));
}

/// A.8: only an alteration from outside makes a locked page dirty. It is written out then as any other.
#[test]
fn a_dirty_locked_page_is_written() {
    let (mut trial, [_, five, _]) = one_locked();
    trial.record(1).dirty = 1;
    trial.state.frames[PAGE_SIZE + 64] = 7;
    trial.accept(Call::Settle);
    assert_eq!(trial.state.store[5 * PAGE_SIZE + 64], 7);
    trial.record(1).dirty = 1;
    trial.state.frames[PAGE_SIZE + 64] = 8;
    trial.accept(Call::Unfix(five));
    trial.accept(Call::Evict(0, 5));
    assert_eq!((trial.state.store[5 * PAGE_SIZE + 64], trial.frame_word(0, 1)), (8, 0x4000_0005));
}

/// A.8, "its payload in the map never changes while the marked word stands": over edits all around it, and after another open.
#[test]
fn a_locked_page_stays_as_it_is() {
    let (mut trial, [root, five, six]) = one_locked();
    let before = trial.state.store[5 * PAGE_SIZE..][..PAGE_SIZE].to_vec();
    let eight = trial.fix(five, 3);
    for (page, linked) in [(root, 10), (six, 11), (eight, 12)] {
        trial.accept(Call::Write(page, 0, vec![1; 192]));
        trial.accept(Call::Link(page, 14, linked, page == six));
    }
    for handle in [eight, five] {
        trial.accept(Call::Unfix(handle));
        trial.accept(Call::Evict(0, handle.page.0));
    }
    trial.accept(Call::Settle);
    assert_eq!(trial.reopen(), 0);
    assert_eq!(trial.state.store[5 * PAGE_SIZE..][..PAGE_SIZE], before);
    let root = trial.root();
    let five = trial.fix(root, 1);
    assert_eq!(trial.number(Call::Write(five, 0, vec![1])), 26);
}

/// Rule 14 on each of its grounds, whether the words of resident pages that name the same are marked or not.
#[test]
fn a_stored_page_that_may_not_come_in() {
    let grounds: [&[(usize, u32)]; 18] = [
        &[(0, SWIZZLE_BIT)],
        &[(15, 16)],
        &[(2, 9), (3, 9)],
        &[(0, 5)],
        &[(0, 7)],
        &[(0, 8)],
        &[(0, u32::MAX)],
        &[(0, LOCK_BIT)],
        &[(15, LOCK_BIT)],
        &[(2, 9), (3, LOCK_BIT | 9)],
        &[(2, LOCK_BIT | 9), (3, LOCK_BIT | 9)],
        &[(0, LOCK_BIT | 16)],
        &[(0, LOCK_BIT | 1 << 16 | 9)],
        &[(0, LOCK_BIT | 5)],
        &[(0, LOCK_BIT | 7)],
        &[(0, LOCK_BIT | 8)],
        &[(0, SWIZZLE_BIT | LOCK_BIT)],
        &[(0, SWIZZLE_BIT | LOCK_BIT | 1)],
    ];
    for (words, locked) in grounds.into_iter().flat_map(|words| [(words, false), (words, true)]) {
        let (mut trial, [root, ..]) = two_children();
        trial.accept(Call::Link(root, 4, 8, locked));
        trial.put_frame_word(0, 1, with_mark(SWIZZLE_BIT | 1, locked));
        trial.put_frame_word(0, 3, with_mark(7, locked));
        for (slot, word) in words {
            trial.put_stored_word(7, *slot, *word);
        }
        assert_eq!(trial.number(Call::Fix(root, 3)), 14, "{words:x?}, locked: {locked}");
    }
    let (mut trial, [root, ..]) = two_children();
    trial.put_stored_word(7, 0, LOCK_BIT | 9);
    trial.accept(Call::Fix(root, 3));
}

#[test]
fn a_page_that_may_not_come_in_is_refused_before_room_is_sought() {
    let mut trial = Trial::open(2, 8, &[(0, 0, 1), (0, 1, 2)]);
    let root = trial.root();
    trial.fix(root, 0);
    assert_eq!(trial.number(Call::Fix(root, 1)), 27);
    trial.put_stored_word(2, 0, SWIZZLE_BIT);
    assert_eq!(trial.number(Call::Fix(root, 1)), 14);
}

/// Rule 14 comes before the sweep: the page that names the same one is still resident.
#[test]
fn a_coming_victim_still_names_its_pages() {
    let mut trial = Trial::open(2, 8, &[(0, 0, 1), (1, 0, 3), (0, 1, 2)]);
    let root = trial.root();
    let one = trial.fix(root, 0);
    trial.accept(Call::Unfix(one));
    trial.put_stored_word(2, 9, 3);
    assert_eq!(trial.number(Call::Fix(root, 1)), 14);
    trial.accept(Call::Evict(0, 1));
    assert_eq!(trial.number(Call::Fix(root, 1)), 0);
}
