//! Single consequences of request A.3, each with the figures that show it: the directory's chains.
use pool_tests::calls::{Answer, Call};
use pool_tests::pool::Buffer;
use pool_tests::records::{handle, FrameIndex, Generator, Handle, PageNumber};
use pool_tests::trial::{payload, three_children, Link, Trial};

/// A pool of so many frames over 300 pages. Pages 5, 72, 139 and 206, which share bucket 5, are under slots 1 to 4 of the root,
/// page 67, which shares the root's, under slot 5, and page 9 under slot 6. The first so many of them are resident, in frames from
/// 1 on, and the root alone is pinned.
fn sharing(frames: usize, resident: usize) -> (Trial, Handle) {
    let links: Vec<Link> = (1..).zip(SHARING).map(|(slot, page)| (0, slot, page.into())).collect();
    let mut trial = Trial::open(frames, 300, &links);
    let root = trial.root();
    for slot in 1..=resident {
        let child = trial.fix(root, slot);
        trial.accept(Call::Unfix(child));
    }
    (trial, root)
}

const SHARING: [u16; 6] = [5, 72, 139, 206, 67, 9];

/// The frames of a chain, by the directory's bytes.
fn chain(trial: &Trial, bucket: usize) -> Vec<u8> {
    let (mut frames, mut byte) = (Vec::new(), trial.state.directory[bucket]);
    while byte != 0 {
        frames.push(byte - 1);
        byte = trial.state.directory[66 + usize::from(byte)];
    }
    frames
}

/// The directory's bytes that aren't 0, each with its place.
fn bytes_set(trial: &Trial) -> Vec<(usize, u8)> {
    let bytes = trial.state.directory.iter().copied().enumerate();
    bytes.filter(|(_, byte)| *byte != 0).collect()
}

/// A.3, "Open leaves page 0 alone in it", over whatever stood there: all 131 bytes are set.
#[test]
fn open_leaves_the_root_alone_in_the_directory() {
    for byte in [0, 1, 255] {
        let mut trial = Trial::closed(4, 16, &[]);
        trial.state.directory.fill(byte);
        assert_eq!(trial.reopen(), 0);
        assert_eq!(bytes_set(&trial), [(0, 1)]);
        assert_eq!([0, 5].map(|page| trial.find(page)), [(Some(0), 1), (None, 0)]);
    }
}

/// A.3, "A directory of wrong length falls under refusal 1": in open before 16, in every other call before 2. Refused, open leaves
/// the bytes as found, by 16 too.
#[test]
fn a_directory_of_another_length_is_refused() {
    for length in [0, 66, 67, 130, 132, 262] {
        let (mut trial, root) = sharing(8, 4);
        trial.accept(Call::Write(root, 0, vec![1]));
        trial.put_stored_word(1, 0, 300);
        trial.record(0).usage = 4;
        assert_eq!([trial.reopen(), trial.number(Call::Root(0))], [16, 2]);
        trial.state.directory.resize(length, 0);
        let before = trial.state.directory.clone();
        assert_eq!(every_answer(&trial, root), [1; 13], "{length} bytes");
        assert_eq!(trial.draw(&mut Generator { number: 1 }), Err(1));
        assert_eq!(trial.state.directory, before);
    }
    let mut trial = Trial::closed(2, 4, &[(0, 0, 4)]);
    trial.state.directory.fill(7);
    assert_eq!(trial.reopen(), 16);
    assert!(trial.state.directory.iter().all(|byte| *byte == 7));
}

/// What each call answers on a pool of `sharing`, each on a copy, where page 5 is in frame 1.
fn every_answer(trial: &Trial, root: Handle) -> [u8; 13] {
    let calls = [
        Call::Open(trial.state.as_one()),
        Call::Root(0),
        Call::Fix(root, 6),
        Call::Unfix(root),
        Call::Show(root),
        Call::Peek(0, 5),
        Call::Word(root, 1),
        Call::Write(root, 0, vec![2]),
        Call::Link(root, 0, 10, false),
        Call::Unlink(root, 6),
        Call::Evict(0, 5),
        Call::Settle,
        Call::Find(0, 5),
    ];
    calls.map(|call| trial.clone().number(call))
}

/// A.3, "an entry added at its chain's head on loading": the newest is first, and find compares it first.
#[test]
fn the_newest_entry_is_first() {
    let (mut trial, _) = sharing(8, 5);
    assert_eq!((chain(&trial, 5), chain(&trial, 0)), (vec![4, 3, 2, 1], vec![5, 0]));
    let bytes = [(0, 6), (5, 5), (69, 2), (70, 3), (71, 4), (72, 1)];
    assert_eq!(bytes_set(&trial), bytes);
    let found = [(Some(1), 4), (Some(2), 3), (Some(3), 2), (Some(4), 1), (Some(5), 1), (None, 0)];
    assert_eq!(SHARING.map(|page| trial.find(page)), found);
    assert_eq!(trial.find(0), (Some(0), 2));
}

/// A.3, "or the chain's length if absent", 0 for an empty chain.
#[test]
fn an_absent_page_takes_its_chains_length() {
    for resident in 0..=4 {
        let (mut trial, _) = sharing(8, resident);
        assert_eq!(trial.find(273), (None, resident as u16));
        assert_eq!([67, 68, 299].map(|page| trial.find(page)), [(None, 1), (None, 0), (None, 0)]);
    }
}

/// A.3, "and taken out on eviction": the others stay in their order, and the byte of a frame that left is 0.
#[test]
fn an_entry_taken_out_keeps_the_others_order() {
    for (page, left, bytes) in [
        (206, [3, 2, 1], [(0, 1), (5, 4), (69, 2), (70, 3)]),
        (139, [4, 2, 1], [(0, 1), (5, 5), (69, 2), (71, 3)]),
        (72, [4, 3, 1], [(0, 1), (5, 5), (70, 2), (71, 4)]),
        (5, [4, 3, 2], [(0, 1), (5, 5), (70, 3), (71, 4)]),
    ] {
        let (mut trial, _) = sharing(8, 4);
        trial.accept(Call::Evict(0, page));
        assert_eq!(chain(&trial, 5), left, "without {page}");
        assert_eq!(bytes_set(&trial), bytes, "without {page}");
        assert_eq!(trial.find(page), (None, 3));
    }
    let (mut trial, _) = sharing(8, 1);
    trial.accept(Call::Evict(0, 5));
    assert_eq!(bytes_set(&trial), [(0, 1)]);
}

/// A.3: a page that is loaded again is its chain's newest, in whichever frame.
#[test]
fn a_page_that_comes_back_is_first() {
    let (mut trial, root) = sharing(8, 4);
    trial.accept(Call::Evict(0, 72));
    assert_eq!(trial.fix(root, 2).frame, FrameIndex(2));
    assert_eq!(chain(&trial, 5), [2, 4, 3, 1]);
}

/// A.3: a hit, a find or a peek moves nothing in the directory, and no other call that loads and evicts nothing does.
#[test]
fn only_loads_and_evictions_move_entries() {
    let (mut trial, root) = sharing(8, 4);
    let before = trial.state.directory.clone();
    let five = trial.fix(root, 1);
    for call in [
        Call::Find(0, 5),
        Call::Peek(0, 5),
        Call::Find(0, 273),
        Call::Peek(0, 273),
        Call::Show(five),
        Call::Word(root, 1),
        Call::Write(five, 0, vec![1]),
        Call::Link(five, 0, 10, true),
        Call::Unlink(five, 0),
        Call::Unfix(five),
        Call::Settle,
        Call::Root(0),
    ] {
        trial.accept(call);
        assert_eq!(trial.state.directory, before);
    }
}

/// A.3: in a sweep's load the victim is out before the newcomer is in, so that a frame can leave a chain and enter it.
#[test]
fn a_sweeps_victim_leaves_first() {
    let (mut trial, root) = sharing(4, 3);
    for (hand, frame, left) in [(1, 1, [1, 3, 2]), (2, 2, [2, 3, 1]), (3, 3, [3, 2, 1])] {
        let mut trial = trial.clone();
        trial.state.pool.hand = FrameIndex(hand);
        for other in 1..4 {
            trial.record(other).usage = 0;
        }
        assert_eq!(trial.fix(root, 4), handle(frame, 206));
        assert_eq!(chain(&trial, 5), left, "from hand {hand}");
        assert_eq!(bytes_set(&trial).len(), 4);
    }
    trial.state.pool.hand = FrameIndex(2);
    trial.record(2).usage = 0;
    assert_eq!(trial.fix(root, 6), handle(2, 9));
    assert_eq!((chain(&trial, 5), chain(&trial, 9)), (vec![3, 1], vec![2]));
}

/// A.3, "each once in any order": chains in another order are accepted, and find's count is by the order that stands.
#[test]
fn any_order_of_a_chain_is_right() {
    let (trial, root) = sharing(8, 3);
    for order in [[1, 2, 3], [1, 3, 2], [2, 1, 3], [2, 3, 1], [3, 1, 2], [3, 2, 1]] {
        let mut trial = trial.clone();
        put_chain(&mut trial, 5, &order);
        assert_eq!(every_answer(&trial, root), [0; 13], "{order:?}");
        for (place, frame) in (1..).zip(order) {
            let page = SHARING[usize::from(frame) - 1];
            assert_eq!(trial.find(page), (Some(frame), place), "{order:?}");
        }
        assert_eq!(trial.find(206), (None, 3));
        trial.accept(Call::Evict(0, 72));
        let left: Vec<u8> = order.into_iter().filter(|frame| *frame != 2).collect();
        assert_eq!(chain(&trial, 5), left);
        trial.fix(root, 4);
        assert_eq!(chain(&trial, 5), [&[2], &left[..]].concat());
    }
}

/// Puts a chain into the directory's bytes.
fn put_chain(trial: &mut Trial, bucket: usize, frames: &[u8]) {
    let mut at = bucket;
    for frame in frames {
        trial.state.directory[at] = frame + 1;
        at = 67 + usize::from(*frame);
    }
    trial.state.directory[at] = 0;
}

/// A.3: a directory that isn't right breaks rule 2 in every call but open, each time by one thing alone. On a pool of 8 frames with
/// bucket 5's chain in frames 3, 2, 1, and the root's in frames 4, 0.
#[test]
fn chains_and_records_must_agree() {
    let wrong: [(&str, &[(usize, u8)]); 22] = [
        ("a byte above F", &[(6, 9)]),
        ("a byte above F at a chain's end", &[(68, 9)]),
        ("a byte above 64", &[(6, 65)]),
        ("a byte above 64 at a chain's end", &[(68, 255)]),
        ("an empty frame alone in a chain", &[(6, 6)]),
        ("an empty frame at a head", &[(5, 6), (72, 4)]),
        ("an empty frame within", &[(70, 6), (72, 3)]),
        ("an empty frame at the end", &[(68, 6)]),
        ("a frame of another bucket", &[(5, 3), (70, 0), (6, 4)]),
        ("a chain's end in another bucket", &[(69, 0), (6, 2)]),
        ("two heads changed", &[(0, 4), (5, 5)]),
        ("a chain into its head", &[(68, 4)]),
        ("a chain into its middle", &[(68, 3)]),
        ("a frame into itself", &[(68, 2)]),
        ("a chain into another", &[(68, 5)]),
        ("a second head", &[(6, 4)]),
        ("a cycle without a head", &[(5, 0), (68, 4)]),
        ("a page in no chain", &[(5, 3), (70, 0)]),
        ("a page in no chain, its link left", &[(5, 3)]),
        ("a chain cut", &[(69, 0)]),
        ("a byte of an empty frame", &[(72, 1)]),
        ("a byte from 67 + F on", &[(75, 1)]),
    ];
    let (mut trial, root) = sharing(8, 3);
    let sixty_seven = trial.fix(root, 5);
    trial.accept(Call::Unfix(sixty_seven));
    assert_eq!(bytes_set(&trial), [(0, 5), (5, 4), (69, 2), (70, 3), (71, 1)]);
    assert_eq!(every_answer(&trial, root), [0; 13]);
    for (what, bytes) in wrong {
        let mut trial = trial.clone();
        for (at, byte) in bytes {
            trial.state.directory[*at] = *byte;
        }
        let mut answers = [2; 13];
        answers[0] = 0;
        assert_eq!(every_answer(&trial, root), answers, "{what}");
        assert_eq!(trial.draw(&mut Generator { number: 1 }), Err(2), "{what}");
    }
}

/// A.3, "with another byte not 0": that of each frame that holds no page, and of all from F on.
#[test]
fn every_other_byte_is_0() {
    for frames in [2, 3, 63, 64] {
        let (mut trial, root) = sharing(frames, 1);
        trial.accept(Call::Show(root));
        for at in 67 + 2..131 {
            trial.state.directory[at] = 1;
            assert_eq!(trial.number(Call::Show(root)), 2, "byte {at}, {frames} frames");
            trial.state.directory[at] = 0;
        }
    }
}

/// A.3, on every byte: each other value of each byte breaks rule 2, by five calls in turn.
#[test]
fn each_byte_counts() {
    let (trial, root) = sharing(8, 5);
    let calls = [Call::Find(0, 5), Call::Peek(0, 273), Call::Unfix(root), Call::Settle, Call::Evict(0, 5)];
    let changes = (0..131).flat_map(|at| (0..=255).map(move |byte| (at, byte)));
    for (number, (at, byte)) in changes.enumerate() {
        let mut trial = trial.clone();
        let kept = trial.state.directory[at] == byte;
        trial.state.directory[at] = byte;
        let call = calls[number % calls.len()].clone();
        assert_eq!(trial.number(call.clone()), if kept { 0 } else { 2 }, "{call:?}, byte {at} is {byte}");
    }
}

/// A.3, "agree with the frames": where a page sits in two frames, find is refused and gives neither.
#[test]
fn a_page_in_two_frames_is_refused() {
    let (mut trial, _) = three_children(5);
    trial.record(3).page = PageNumber(5);
    assert_eq!([0, 5, 6, 7, 8].map(|page| trial.number(Call::Find(0, page))), [2; 5]);
}

/// A.3: a refused find answers its number alone, however many entries there are (`host` asserts the zeros beside the number).
#[test]
fn a_refused_find_has_no_count() {
    let (mut trial, _) = sharing(8, 4);
    assert_eq!(trial.call(Call::Find(0, 300)), Answer::Refused(6));
    trial.record(0).usage = 4;
    assert_eq!([0, 5, 273, 300].map(|page| trial.call(Call::Find(0, page))), [Answer::Refused(2); 4]);
    trial.state.directory.pop();
    assert_eq!([0, 5, 273, 300].map(|page| trial.call(Call::Find(0, page))), [Answer::Refused(1); 4]);
}

/// A.3, "Find and peek use it": peek and evict answer as before, in chains of one and of several.
#[test]
fn peek_and_evict_answer_as_before() {
    let (mut trial, _) = sharing(8, 4);
    trial.accept(Call::Evict(0, 72));
    let peeked = [0, 5, 206, 72, 273, 9].map(|page| trial.call(Call::Peek(0, page)));
    let frames = [0, 1, 4].map(|frame| payload(Buffer::Frames, frame));
    let stored = [72, 273, 9].map(|page| payload(Buffer::Store, page));
    assert_eq!(peeked[..], [frames, stored].concat());
    let evicted = [0, 72, 5, 5, 300].map(|page| trial.number(Call::Evict(0, page)));
    assert_eq!(evicted, [20, 11, 0, 11, 6]);
}

/// A.3: the longest chain that there is, of the 62 pages below 4,096 that share the root's bucket. Page 67·k is named by page
/// 67·(k / 15), in slot k mod 15, and comes into frame k.
#[test]
fn the_longest_chain() {
    let place = |number: usize| (number / 15, number % 15);
    let links: Vec<Link> =
        (1..62).map(|number| (67 * place(number).0, place(number).1, 67 * number as u32)).collect();
    let mut trial = Trial::open(64, 4096, &links);
    let mut handles = vec![trial.root()];
    for number in 1..62 {
        let (above, slot) = place(number);
        handles.push(trial.fix(handles[above], slot));
    }
    let newest: Vec<u8> = (0..62).rev().collect();
    assert_eq!(chain(&trial, 0), newest);
    let found = [0, 67, 4087].map(|page| trial.find(page));
    assert_eq!(found, [(Some(0), 62), (Some(1), 61), (Some(61), 1)]);
    assert_eq!(trial.find(1), (None, 0));
    trial.accept(Call::Unfix(handles[30]));
    trial.accept(Call::Evict(0, 67 * 30));
    assert_eq!([67 * 30, 0].map(|page| trial.find(page)), [(None, 61), (Some(0), 61)]);
}
