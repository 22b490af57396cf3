//! What `./replay` keeps of a recording, against the records of the pool: by it a refused evict, and a load that is denied a frame,
//! are told with what to do.
use pool_tests::calls::{Answer, Call};
use pool_tests::records::{handle, handle_of, FrameIndex, Handle, PageNumber, State, SWIZZLE_BIT};
use pool_tests::steer::Steer;
use pool_tests::trial::Trial;
use random::Random;
use words::known::Known;
use words::listing::Line;
use words::record;

/// The listing's F and N.
const FRAMES: usize = 4;
const PAGES: u16 = 16;

/// The listing's pool, and what is known of it.
#[derive(Clone)]
struct Listed {
    trial: Trial,
    known: Known,
}

impl Listed {
    fn open() -> Listed {
        Listed { trial: Trial::open(FRAMES, PAGES.into(), &[]), known: Known::opened() }
    }

    /// Makes a call, and gives the refusal's number.
    fn call(&mut self, call: &Call) -> u8 {
        let answer = self.trial.call(call.clone());
        if let (true, Some(recorded)) = (answer.accepted(), recorded(call)) {
            self.known.feed(&recorded, line(&answer));
        }
        compare(&self.known, &self.trial.state);
        answer.number()
    }

    /// Evicts a page as it is told: with so many unfixes, and after its children.
    fn evict_as_told(&mut self, page: u16) {
        for _ in 0..self.known.pins(page) {
            assert_eq!(self.call(&Call::Evict(0, page)), 21);
            let frame = self.known.frame(page).expect("a frame");
            assert_eq!(self.call(&Call::Unfix(handle(frame, page))), 0);
        }
        for (_, child) in self.known.children(page) {
            assert_eq!(self.call(&Call::Evict(0, page)), 22);
            self.evict_as_told(child);
        }
        assert_eq!(self.call(&Call::Evict(0, page)), 0);
    }

    /// Makes a fix that is denied a frame as it is told: with all the pins off one of the pages that are named.
    fn fix_as_told(&mut self, fix: &Call, page: u16) {
        let frame = self.known.frame(page).expect("a frame");
        for _ in 0..self.known.pins(page) {
            assert_eq!(self.call(fix), 27);
            assert_eq!(self.call(&Call::Unfix(handle(frame, page))), 0);
        }
        assert_eq!(self.call(fix), 0);
    }
}

/// What evict answers by what is known.
fn foretold(known: &Known, page: u16) -> u8 {
    match known.frame(page) {
        _ if page >= PAGES => 6,
        None => 11,
        Some(_) if page == 0 => 20,
        Some(_) if known.pins(page) > 0 => 21,
        Some(_) if !known.children(page).is_empty() => 22,
        Some(_) => 0,
    }
}

/// Frames, pins and children of every page are those of the pool.
fn compare(known: &Known, state: &State) {
    for page in 0..PAGES {
        let resident = state.occupied().find(|(_, record)| record.page == PageNumber(page));
        assert_eq!(known.frame(page), resident.map(|(frame, _)| frame.0), "page {page}");
        assert_eq!(known.pins(page), resident.map_or(0, |(_, record)| record.pins.into()), "page {page}");
        let words = resident.into_iter().flat_map(|(frame, _)| (0..).zip(state.words(frame)));
        let swizzled = words.filter_map(|(slot, word)| Some((slot, word.checked_sub(SWIZZLE_BIT)?)));
        let children = swizzled.map(|(slot, frame)| (slot, state.pool.records[frame as usize].page.0));
        assert_eq!(known.children(page), children.collect::<Vec<_>>(), "page {page}");
    }
    let childless = |frame| state.words(frame).all(|word| word < SWIZZLE_BIT);
    let leaves = state.occupied().filter(|(frame, _)| *frame != FrameIndex(0) && childless(*frame));
    assert_eq!(known.leaves(), leaves.map(|(_, record)| record.page.0).collect::<Vec<_>>());
}

/// The listing's record of an accepted call, where it has that call.
fn recorded(call: &Call) -> Option<record::Call> {
    let of = |handle: &Handle| record::Handle { frame: handle.frame.0, page: handle.page.0 };
    Some(match call {
        Call::Root(_) => record::Call::Root,
        Call::Fix(handle, slot) => record::Call::Fix { slot: *slot as u8, handle: of(handle) },
        Call::Unfix(handle) => record::Call::Unfix { handle: of(handle) },
        Call::Write(handle, ..) => record::Call::Write { offset: 0, data: vec![], handle: of(handle) },
        Call::Link(handle, slot, page, _) => {
            record::Call::Link { page: *page, slot: *slot as u8, handle: of(handle) }
        }
        Call::Unlink(handle, slot) => record::Call::Unlink { slot: *slot as u8, handle: of(handle) },
        Call::Evict(_, page) => record::Call::Evict { page: *page },
        Call::Settle => record::Call::Settle,
        Call::Find(_, page) => record::Call::Find { page: *page },
        Call::Open(_) | Call::Show(_) | Call::Peek(..) | Call::Word(..) => return None,
    })
}

fn line(answer: &Answer) -> Line {
    let (frame, page) = match answer {
        Answer::Fixed(fixed) => (fixed.handle.frame.0, fixed.handle.page.0),
        _ => (0, 0),
    };
    Line { call: 0, refusal: 0, frame, page }
}

/// Request A.8: "Link takes the mark, in the listing never." Request A.11: "the listing has T 1".
fn as_listed(call: Call) -> Call {
    match call {
        Call::Link(handle, slot, page, _) => Call::Link(handle, slot, page, false),
        Call::Root(_) => Call::Root(0),
        Call::Evict(_, page) => Call::Evict(0, page),
        Call::Find(_, page) => Call::Find(0, page),
        other => other,
    }
}

/// A link or fix below a pinned page, below the root only where no other is pinned, so that other pages become parents; an unfix;
/// or an evict of a resident page.
fn below_others(random: &mut Random, state: &State) -> Call {
    let pinned = state.occupied().filter(|(_, record)| record.pins > 0);
    let handles: Vec<Handle> = pinned.map(|(frame, record)| handle_of(frame, record)).collect();
    let Some(any) = random.choose(handles.iter().copied()) else { return Call::Root(0) };
    let others = handles.into_iter().filter(|handle| handle.frame != FrameIndex(0));
    let (parent, slot) = (random.choose(others).unwrap_or(any), random.below(3));
    match random.below(10) {
        0..4 => Call::Link(parent, slot, random.between(1, 15) as u16, false),
        4..7 => Call::Fix(parent, slot),
        7 => Call::Unfix(any),
        _ => Call::Evict(0, random.choose(state.occupied().map(|(_, record)| record.page.0)).unwrap_or(0)),
    }
}

/// Along random lists, what is known foretells each evict, a page that stays goes as it is told, and so does one come in that is
/// denied a frame.
#[test]
fn a_page_that_stays_goes_as_told() {
    let (mut several_pins, mut several_children, mut swept, mut denied) = (0, 0, 0, 0);
    for number in 0..200 {
        let mut random = Random::new(number);
        let mut listed = Listed::open();
        let mut steer = Steer::new(&mut random, &listed.trial.state);
        for _ in 0..400 {
            let state = &listed.trial.state;
            let call = if random.percent(40) {
                as_listed(steer.next(&mut random, state))
            } else {
                below_others(&mut random, state)
            };
            if matches!(call, Call::Open(_)) {
                continue;
            }
            if let Call::Evict(_, page) = call {
                let told = foretold(&listed.known, page);
                assert_eq!(listed.clone().call(&call), told, "{call:?}");
                if told == 21 || told == 22 {
                    several_pins += usize::from(listed.known.pins(page) > 1);
                    several_children += usize::from(told == 22 && listed.known.children(page).len() > 1);
                    listed.clone().evict_as_told(page);
                }
            }
            let hand = listed.trial.state.pool.hand;
            let number = listed.call(&call);
            assert!(![15, 26].contains(&number), "{call:?}: {number}");
            swept += usize::from(listed.trial.state.pool.hand != hand);
            if let (27, Call::Fix(parent, _)) = (number, &call) {
                let leaves = listed.known.leaves().into_iter().filter(|page| *page != parent.page.0);
                denied += leaves.map(|page| listed.clone().fix_as_told(&call, page)).count();
            }
        }
    }
    let met = [several_pins, several_children, swept, denied];
    assert!(met.iter().all(|times| *times > 50), "several pins, several children, a sweep, denied: {met:?}");
}
