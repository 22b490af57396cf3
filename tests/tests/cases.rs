//! Document 01's bench cases, executed, and what requests A.5 and A.8 make of its sweep and of its words.
use pool_tests::calls::{Answer, Call};
use pool_tests::coverage::Coverage;
use pool_tests::history::History;
use pool_tests::pool::{Fixed, UnderTest};
use pool_tests::records::{handle, page_of, FrameIndex, PageNumber, State, Stores};
use pool_tests::trial::{three_children, Trial};

fn word_bytes(trial: &Trial, slot: usize) -> [u8; 4] {
    let page = page_of(&trial.state.frames, 0);
    page[4 * slot..4 * slot + 4].try_into().unwrap()
}

#[test]
fn a_word_names_a_frame() {
    let (mut trial, root) = three_children(4);
    assert_eq!(word_bytes(&trial, 3), [0x03, 0x00, 0x00, 0x80]);
    assert_eq!(trial.find(7), (Some(3), 1));
    assert_eq!(trial.word(root, 3), (7, false));
    assert_eq!(trial.fix(root, 3), handle(3, 7));
}

#[test]
fn a_word_names_a_page() {
    let mut trial = Trial::open(4, 16, &[]);
    let root = trial.root();
    trial.accept(Call::Link(root, 3, 7, false));
    assert_eq!(word_bytes(&trial, 3), [0x07, 0x00, 0x00, 0x00]);
    assert_eq!(trial.word(root, 3), (7, false));
    assert_eq!(trial.fix(root, 3).page, PageNumber(7));
}

/// A.8: bytes 03 00 00 C0 name frame 3, and bytes 07 00 00 40 page 7, as locked.
#[test]
fn a_marked_word_names_the_same() {
    let mut trial = Trial::open(4, 16, &[(0, 1, 5), (0, 2, 6), (0, 3, 0x4000_0007)]);
    let root = trial.root();
    assert_eq!(word_bytes(&trial, 3), [0x07, 0x00, 0x00, 0x40]);
    assert_eq!(trial.word(root, 3), (7, true));
    for slot in 1..4 {
        trial.fix(root, slot);
    }
    assert_eq!(word_bytes(&trial, 3), [0x03, 0x00, 0x00, 0xc0]);
    assert_eq!(trial.word(root, 3), (7, true));
    assert_eq!(trial.fix(root, 3), handle(3, 7));
}

/// Links page 7 in the root, with the mark or without, and fixes it in frame 1. Gives the word, and the one in the root's image.
fn word_and_image(locked: bool) -> [u32; 2] {
    let mut trial = Trial::open(4, 16, &[]);
    let root = trial.root();
    trial.accept(Call::Link(root, 0, 7, locked));
    assert_eq!(trial.fix(root, 0).frame, FrameIndex(1));
    let word = trial.frame_word(0, 0);
    trial.accept(Call::Settle);
    assert_eq!(trial.frame_word(0, 0), word);
    [word, trial.stored_word(0, 0)]
}

#[test]
fn an_image_names_pages() {
    assert_eq!(word_and_image(false), [0x8000_0001, 0x0000_0007]);
}

/// A.8: word 0xC0000001, frame 1 holding page 7: the image's word is 0x40000007.
#[test]
fn an_image_keeps_the_mark() {
    assert_eq!(word_and_image(true), [0xc000_0001, 0x4000_0007]);
}

#[test]
fn writes_at_the_end_of_the_payload() {
    let mut trial = Trial::open(2, 1, &[]);
    let root = trial.root();
    assert_eq!(trial.number(Call::Write(root, 192, vec![])), 0);
    assert!(!trial.record(0).is_dirty());
    assert_eq!(trial.number(Call::Write(root, 191, vec![9])), 0);
    assert!(trial.record(0).is_dirty());
    assert_eq!(trial.state.frames[255], 9);
    assert_eq!(trial.number(Call::Write(root, 192, vec![9])), 5);
}

#[test]
fn slots_end_at_15() {
    let mut trial = Trial::open(2, 4, &[(0, 15, 3)]);
    let root = trial.root();
    assert_eq!(trial.number(Call::Word(root, 15)), 0);
    assert_eq!(trial.number(Call::Fix(root, 15)), 0);
    let slot_16 =
        [Call::Word(root, 16), Call::Fix(root, 16), Call::Link(root, 16, 2, false), Call::Unlink(root, 16)];
    for call in slot_16 {
        assert_eq!(trial.number(call), 4);
    }
}

#[test]
fn pins_end_at_65535() {
    let (mut trial, root) = three_children(4);
    for (call, frame) in [(Call::Root(0), 0), (Call::Fix(root, 3), 3)] {
        trial.record(frame).pins = 65_534;
        assert_eq!(trial.number(call.clone()), 0);
        assert_eq!(trial.record(frame).pins, 65_535);
        assert_eq!(trial.number(call), 13);
    }
}

/// Pins rise to the limit by calls alone, beside the plain map.
#[test]
fn pins_rise_to_65535_by_calls() -> Result<(), String> {
    let coverage = &mut Coverage::default();
    let State { frames, store, directory, .. } = Trial::closed(2, 4, &[(0, 1, 3)]).state;
    let mut history = History::open(&UnderTest, (frames, store, directory), Stores::one(2), coverage)?;
    for call in [Call::Root(0), Call::Fix(handle(0, 0), 1)] {
        for _ in 0..65_535 {
            assert!(history.call(&call, coverage)?.accepted());
        }
        assert_eq!(history.call(&call, coverage)?, Answer::Refused(13));
    }
    history.check()
}

/// Fixes page 8 where no frame is empty, with frames 1 to 3 of these usages.
fn sweep(hand: u8, usages: [u8; 3], pinned: &[u8]) -> (Trial, Fixed) {
    let (mut trial, root) = three_children(4);
    trial.state.pool.hand = FrameIndex(hand);
    for (frame, usage) in (1..).zip(usages) {
        trial.record(frame).usage = usage;
    }
    for frame in pinned {
        trial.record(*frame).pins = 1;
    }
    match trial.call(Call::Fix(root, 4)) {
        Answer::Fixed(fixed) => (trial, fixed),
        other => panic!("{other:?}"),
    }
}

/// The hand and the usages of frames 1 to 3 after a sweep; that of the frame taken is the loaded page's.
fn left(trial: &Trial) -> (u8, [u8; 3]) {
    let pool = &trial.state.pool;
    (pool.hand.0, [1, 2, 3].map(|frame| pool.records[frame].usage))
}

#[test]
fn a_sweep_from_hand_0() {
    let (trial, fixed) = sweep(0, [1, 0, 2], &[]);
    assert_eq!(fixed, Fixed { handle: handle(2, 8), looks: 3 });
    assert_eq!(left(&trial), (3, [0, 1, 2]));
}

#[test]
fn a_sweep_from_hand_3() {
    let (trial, fixed) = sweep(3, [1, 0, 2], &[]);
    assert_eq!(fixed, Fixed { handle: handle(2, 8), looks: 4 });
    assert_eq!(left(&trial), (3, [0, 1, 1]));
}

#[test]
fn a_sweep_of_16_looks() {
    let (trial, fixed) = sweep(0, [0, 0, 3], &[1, 2]);
    assert_eq!(fixed, Fixed { handle: handle(3, 8), looks: 16 });
    assert_eq!(left(&trial), (0, [3, 3, 1]));
}

/// A.5: sweeps past pinned pages that end within a round, so that not all are looked at equally often.
#[test]
fn sweeps_that_end_within_a_round() {
    let swept = |hand, usages, pinned: &[u8]| {
        let (trial, fixed) = sweep(hand, usages, pinned);
        (fixed.handle.frame.0, fixed.looks, left(&trial))
    };
    assert_eq!(swept(2, [0, 0, 0], &[1, 2]), (3, 2, (0, [0, 1, 1])));
    assert_eq!(swept(2, [0, 0, 1], &[1, 2]), (3, 6, (0, [1, 2, 1])));
    assert_eq!(swept(2, [0, 0, 2], &[1, 2]), (3, 10, (0, [2, 3, 1])));
    assert_eq!(swept(3, [1, 0, 2], &[2]), (1, 7, (2, [1, 1, 0])));
    assert_eq!(swept(1, [2, 3, 3], &[1, 2]), (3, 15, (0, [3, 3, 1])));
}

#[test]
fn the_last_page_of_4096() {
    let mut trial = Trial::open(4, 4096, &[]);
    let root = trial.root();
    assert_eq!(trial.number(Call::Link(root, 0, 4095, false)), 0);
    assert_eq!(trial.number(Call::Link(root, 1, 4096, false)), 6);
    assert_eq!(trial.number(Call::Link(root, 1, 4096, true)), 6);
    assert_eq!(trial.number(Call::Link(root, 1, 4094, true)), 0);
    assert_eq!(trial.fix(root, 0), handle(1, 4095));
    assert_eq!(trial.word(root, 1), (4094, true));
}

#[test]
fn the_calls_of_the_listing() {
    let mut trial = Trial::open(4, 16, &[]);
    let root = trial.root();
    assert_eq!(root, handle(0, 0));
    assert_eq!(trial.number(Call::Link(root, 3, 7, false)), 0);
    let child = trial.fix(root, 3);
    assert_eq!(child, handle(1, 7));
    assert_eq!(trial.number(Call::Evict(0, 7)), 21);
    assert_eq!(trial.number(Call::Unfix(child)), 0);
    assert_eq!(trial.number(Call::Evict(0, 7)), 0);
}
