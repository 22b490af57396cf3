//! The baseline answers and leaves exactly what the linked library does, on random calls, refused ones too.
use pagepool::{
    FrameIndex, Generator, Handle, PageNumber, Pool, Refusal, StoreNumber, Stores, BUCKETS, DIRECTORY_SIZE,
    LOCK_BIT, MAX_USAGE, MOST_STORES, PAGE_SIZE, PAYLOAD_SIZE, SLOTS,
};
use pool_bench::baseline;
use pool_bench::shapes::{opened, reverse_chain, sharing, Page, Shape, State};
use random::Random;
use std::collections::BTreeMap;
use std::fmt::Debug;

/// Shapes of every store: each other has the store of one of these.
const STORES: [Shape; 6] =
    [Shape::Full, Shape::Leaves, Shape::Chain, Shape::Marked, Shape::Fours, Shape::OneChain];

/// Four stores, and F.
const FOUR: [(Shape, usize); 3] = [(Shape::Four, 8), (Shape::Four, 16), (Shape::Four, 64)];

/// A call's name and what both answered, 0 for accepted.
type Pair = (&'static str, u8);

/// Makes a call in both, each on its own state, and compares the answers.
macro_rules! same {
    ($a:ident, $b:ident, $name:ident($($argument:expr),*)) => {{
        let library = $a.$name($($argument),*);
        let baseline = baseline::$name(
            &mut $b.records,
            &mut $b.frames,
            &mut $b.store,
            &mut $b.directory
            $(, $argument)*
        );
        agreed(stringify!($name), library, baseline)
    }};
}

/// The same for a call that answers a part of a buffer.
macro_rules! same_part {
    ($a:ident, $b:ident, $name:ident($($argument:expr),*)) => {{
        let library = $a.$name($($argument),*);
        let baseline = baseline::$name(&$b.records, &$b.frames, &$b.store, &$b.directory $(, $argument)*);
        agreed(stringify!($name), library.map(|part| place(part, $a)), baseline.map(|part| place(part, $b)))
    }};
}

/// What both answered, which is the same.
fn agreed<T: PartialEq + Debug>(
    name: &'static str,
    library: Result<T, Refusal>,
    baseline: Result<T, Refusal>,
) -> Pair {
    assert_eq!(library, baseline, "{name}");
    (name, library.err().map_or(0, Refusal::number))
}

/// Whether a part lies in the frames, and where.
fn place(part: &[u8], state: &State) -> (bool, usize, usize) {
    let in_frames = state.frames.as_ptr_range().contains(&part.as_ptr());
    let buffer = if in_frames { &state.frames } else { &state.store };
    (in_frames, part.as_ptr() as usize - buffer.as_ptr() as usize, part.len())
}

struct Trial {
    random: Random,
    /// How often each call was answered how.
    given: BTreeMap<Pair, usize>,
    /// By number of pages: how many calls warmed so many.
    warmed: BTreeMap<usize, usize>,
    /// How many finds compared so many entries, to the page's or not.
    compared: BTreeMap<(bool, u16), usize>,
    /// How many sweeps were made for a store at its ceiling, and took a page of its own.
    taken: BTreeMap<(bool, bool), usize>,
    /// How many records of each call were drawn, with data or not.
    drawn: BTreeMap<(u8, bool), usize>,
    generator: Generator,
}

impl Trial {
    fn new(seed: u64) -> Trial {
        Trial {
            random: Random::new(seed),
            given: BTreeMap::new(),
            warmed: BTreeMap::new(),
            compared: BTreeMap::new(),
            taken: BTreeMap::new(),
            drawn: BTreeMap::new(),
            generator: Generator::seeded(seed as u32),
        }
    }

    /// So many calls from a state on, some of them on a damaged one that is then dropped.
    fn run(&mut self, mut library: State, calls: usize) {
        let mut baseline = library.clone();
        for _ in 0..calls {
            if self.random.percent(20) {
                let mut damaged = library.clone();
                self.damage(&mut damaged);
                self.call(&mut damaged.clone(), &mut damaged);
            } else {
                self.call(&mut library, &mut baseline);
            }
        }
    }

    fn call(&mut self, a: &mut State, b: &mut State) {
        let before = a.records;
        let (name, number) = self.any_call(a, b);
        assert!(a == b, "states differ after {name}, answered {number}");
        *self.given.entry((name, number)).or_default() += 1;
        *self.warmed.entry(warmed(&before, &a.records)).or_default() += 1;
    }

    /// How often a number was given, by whichever call.
    fn given(&self, number: u8) -> usize {
        self.given.iter().filter(|((_, given), _)| *given == number).map(|(_, times)| times).sum()
    }

    /// Each of these answers was given some times.
    fn assert_often(&self, pairs: &[Pair]) {
        let seldom: Vec<&Pair> =
            pairs.iter().filter(|pair| self.given.get(pair).is_none_or(|times| *times < 20)).collect();
        assert!(seldom.is_empty(), "calls seldom answered so: {seldom:?}");
    }

    /// How many calls warmed so many pages or more.
    fn warmed_from(&self, pages: usize) -> usize {
        self.warmed.range(pages..).map(|(_, calls)| calls).sum()
    }

    fn any_call(&mut self, a: &mut State, b: &mut State) -> Pair {
        let (handle, slot, (store, page)) = (self.handle(a), self.slot(), self.page(a));
        match self.random.below(42) {
            0 => self.open(a, b),
            1 | 2 => same!(a, b, root(store)),
            3..=14 => self.fix(a, b, handle, slot),
            15..=22 => same!(a, b, unfix(handle)),
            23 => same_part!(a, b, show(handle)),
            24 => same_part!(a, b, peek(store, page)),
            25 | 26 => same!(a, b, word(handle, slot)),
            27..=29 => self.write(a, b, handle),
            30 | 31 => {
                let locked = self.random.percent(30);
                same!(a, b, link(handle, slot, page, locked))
            }
            32 | 33 => same!(a, b, unlink(handle, slot)),
            34..=36 => same!(a, b, evict(store, page)),
            37 => same!(a, b, settle()),
            38 | 39 => self.find(a, b, (store, page)),
            _ => self.draw(a, b),
        }
    }

    fn fix(&mut self, a: &mut State, b: &mut State, handle: Handle, slot: usize) -> Pair {
        let before = a.records;
        let answer = same!(a, b, fix(handle, slot));
        let mut taken = before
            .records
            .iter()
            .zip(&a.records.records)
            .filter(|(old, new)| old.is_used() && (old.store, old.page) != (new.store, new.page));
        if let Some((old, new)) = taken.next() {
            let own = before.records.iter().filter(|record| record.is_used() && record.store == new.store);
            let at_ceiling = own.count() >= before.ceilings[usize::from(new.store)].into();
            *self.taken.entry((at_ceiling, old.store == new.store)).or_default() += 1;
        }
        answer
    }

    fn find(&mut self, a: &mut State, b: &mut State, (store, page): Page) -> Pair {
        let library = a.find(store, page);
        if let Ok(found) = library {
            *self.compared.entry((found.frame.is_some(), found.compared)).or_default() += 1;
        }
        agreed("find", library, baseline::find(&b.records, &b.frames, &b.store, &b.directory, store, page))
    }

    /// A draw by a generator that goes along.
    fn draw(&mut self, a: &mut State, b: &mut State) -> Pair {
        let mut generator = self.generator;
        let library = a.draw(&mut self.generator);
        let baseline = baseline::draw(&b.records, &b.frames, &b.store, &b.directory, &mut generator);
        assert_eq!(self.generator, generator, "draw");
        if let Ok(entry) = library {
            *self.drawn.entry((entry[0], entry[7..] != [0; 9])).or_default() += 1;
        }
        agreed("draw", library, baseline)
    }

    /// An open, now and then with other figures; accepted, it is undone nine times in ten.
    fn open(&mut self, a: &mut State, b: &mut State) -> Pair {
        let before = a.clone();
        let mut stores = Stores { count: a.records.stores, ceilings: a.records.ceilings };
        if self.random.percent(30) {
            let count = self.random.below(MOST_STORES + 2);
            stores = self.stores(count, a.frames.len() / PAGE_SIZE);
            if self.random.percent(20) {
                stores.ceilings[self.random.below(MOST_STORES)] = self.random.below(70) as u8;
            }
        }
        let answer = same!(a, b, open(stores));
        if answer.1 == 0 && !self.random.percent(10) {
            assert!(a == b, "states differ after open");
            (*a, *b) = (before.clone(), before);
        }
        answer
    }

    /// So many stores over so many frames: all of their ceilings are F, or a part of it, or any.
    fn stores(&mut self, count: usize, frames: usize) -> Stores {
        let kind = self.random.below(4);
        let ceilings = std::array::from_fn(|store| match kind {
            _ if store >= count => 0,
            0 | 1 => frames as u8,
            2 => frames.div_ceil(count) as u8,
            _ => self.random.between(1, frames) as u8,
        });
        Stores { count: count as u8, ceilings }
    }

    /// A pool of so many stores just opened, each with pages of another shape.
    fn opened(&mut self, first: usize, stores: usize, count: usize, pages: usize) -> State {
        let shapes = STORES.iter().cycle().skip(first).take(stores);
        let store = shapes.flat_map(|shape| shape.store(count, pages)).collect();
        opened(count, self.stores(stores, count), store)
    }

    /// Gives each store any ceiling that it keeps to, as often as not the least.
    fn lower_ceilings(&mut self, state: &mut State) {
        let Pool { records, count, stores, ceilings, .. } = &mut state.records;
        for (store, ceiling) in (0..*stores).zip(ceilings) {
            let own = records.iter().filter(|record| record.is_used() && record.store.0 == store);
            let held = own.count();
            *ceiling = self.random.pick(&[held, held, held + 1, usize::from(*count)]) as u8;
        }
    }

    fn write(&mut self, a: &mut State, b: &mut State, handle: Handle) -> Pair {
        let offset = self.random.below(PAYLOAD_SIZE + 8);
        let bytes = vec![self.random.below(256) as u8; self.random.below(20)];
        same!(a, b, write(handle, offset, &bytes))
    }

    /// Pins most pages of a state, and gives each any usage and the hand any place.
    fn held(&mut self, mut state: State) -> State {
        let count = usize::from(state.records.count);
        for record in &mut state.records.records[..count] {
            record.pins = u16::from(self.random.percent(95));
            record.usage = self.random.below(usize::from(MAX_USAGE) + 1) as u8;
        }
        state.records.hand = FrameIndex(self.random.below(count) as u8);
        state
    }

    /// Turns the marks of so many in a hundred words that name something, in the frames and in the store.
    fn mark(&mut self, state: &mut State, turned: usize) {
        for buffer in [&mut state.frames, &mut state.store] {
            for page in buffer.chunks_exact_mut(PAGE_SIZE) {
                for word in page[..4 * SLOTS].chunks_exact_mut(4) {
                    if *word != [0; 4] && self.random.percent(turned) {
                        word[3] ^= (LOCK_BIT >> 24) as u8;
                    }
                }
            }
        }
    }

    /// A state with marks.
    fn marked(&mut self, mut state: State) -> State {
        let turned = [0, 10, 40][self.random.below(3)];
        self.mark(&mut state, turned);
        state
    }

    /// A handle of a pinned page most of the time, or any.
    fn handle(&mut self, state: &State) -> Handle {
        let pinned: Vec<FrameIndex> =
            (0..64).map(FrameIndex).filter(|frame| state.records.record(*frame).pins > 0).collect();
        let frame = match pinned.len() {
            0 => FrameIndex(0),
            most => pinned[self.random.below(most)],
        };
        let (store, page) = page_of(state, frame.into());
        match self.random.below(30) {
            0 => Handle { frame: FrameIndex(self.random.below(256) as u8), store, page },
            1 => Handle { frame, store, page: self.page(state).1 },
            2 | 3 => Handle { frame, store: StoreNumber(self.random.below(MOST_STORES + 2) as u8), page },
            _ => Handle { frame, store, page },
        }
    }

    /// The number of a store most of the time.
    fn store(&mut self, state: &State) -> StoreNumber {
        let below = usize::from(state.records.stores).max(1);
        let store = if self.random.percent(5) { self.random.below(256) } else { self.random.below(below) };
        StoreNumber(store as u8)
    }

    fn slot(&mut self) -> usize {
        self.random.below(SLOTS + 1)
    }

    /// A page number below N most of the time, as often as not of the last page or one that is resident, in its store or another.
    fn page(&mut self, state: &State) -> Page {
        let (store, pages) = (self.store(state), usize::from(state.records.pages));
        match self.random.below(20) {
            0 => (store, PageNumber(self.random.below(65_536) as u16)),
            1..=3 => (store, PageNumber(state.records.pages.wrapping_sub(1))),
            4..=9 => self.resident(state),
            10 => (store, self.resident(state).1),
            11 | 12 => (store, self.sharing(state)),
            _ => (store, PageNumber(self.random.below(pages.max(1)) as u16)),
        }
    }

    /// A page that shares a resident one's chain.
    fn sharing(&mut self, state: &State) -> PageNumber {
        let (pages, resident) = (usize::from(state.records.pages), usize::from(self.resident(state).1));
        let number = resident % BUCKETS + BUCKETS * self.random.below(pages / BUCKETS + 1);
        PageNumber(number as u16)
    }

    /// A resident page, a root where there is none.
    fn resident(&mut self, state: &State) -> Page {
        let frames = (0..64).filter(|frame| state.records.records[*frame].is_used());
        self.random.choose(frames).map_or_else(Page::default, |frame| page_of(state, frame))
    }

    /// Alters a field, a word, a length or who is whose parent.
    fn damage(&mut self, state: &mut State) {
        let (frames, pages) = (state.frames.len() / PAGE_SIZE, state.store.len() / PAGE_SIZE);
        match self.random.below(13) {
            9 => self.mark(state, 5),
            10 => state.directory[self.random.below(DIRECTORY_SIZE)] = self.random.below(70) as u8,
            11 => self.damage_entry(state),
            12 => reverse_chain(state, self.resident(state).1),
            0 => self.damage_sizes(state),
            1..=3 => self.damage_record(state),
            4 => self.damage_parents(state),
            5 | 6 => self.damage_word(state, frames, |state| &mut state.frames),
            _ => {
                for _ in 0..pages {
                    self.damage_word(state, pages, |state| &mut state.store);
                }
            }
        }
    }

    /// Changes the head of a resident page's chain, or the link of any frame.
    fn damage_entry(&mut self, state: &mut State) {
        let (_, page) = self.resident(state);
        let frame = self.random.below(64);
        let at = if self.random.percent(50) { usize::from(page) % BUCKETS } else { BUCKETS + frame };
        state.directory[at] = self.random.below(usize::from(state.records.count) + 2) as u8;
    }

    fn damage_sizes(&mut self, state: &mut State) {
        let store = self.random.below(MOST_STORES);
        match self.random.below(8) {
            5 => state.records.stores = self.random.below(MOST_STORES + 2) as u8,
            6 => state.records.ceilings[store] = self.random.below(70) as u8,
            7 => state.records.ceilings.swap(0, store),
            0 => state.records.count = self.random.below(70) as u16,
            1 => state.records.pages = self.random.below(4200) as u16,
            2 => state.records.hand = FrameIndex(self.random.below(256) as u8),
            3 => state.frames.truncate(PAGE_SIZE * 3 - 1),
            _ => state.store.extend([0; PAGE_SIZE]),
        }
    }

    fn damage_record(&mut self, state: &mut State) {
        let frame = self.random.below(usize::from(state.records.count) + 2).min(63);
        let (small, (_, page)) = (self.random.below(80) as u8, self.page(state));
        let record = &mut state.records.records[frame];
        match self.random.below(8) {
            0 => record.used = small % 3,
            1 => record.dirty = small % 3,
            2 => record.usage = small % 5,
            3 => record.slot = small % 18,
            4 => record.parent = FrameIndex(small),
            5 => record.pins = u16::MAX,
            6 => record.store = StoreNumber(small % (MOST_STORES as u8 + 1)),
            _ => record.page = page,
        }
    }

    /// Makes a resident page the child of another, or of itself: rule 2 is broken by nothing else where they are in a circle.
    fn damage_parents(&mut self, state: &mut State) {
        let first = usize::from(state.records.stores);
        let used: Vec<usize> = (first..64).filter(|frame| state.records.records[*frame].is_used()).collect();
        if used.is_empty() {
            return;
        }
        let [child, parent] = [0; 2].map(|_| used[self.random.below(used.len())]);
        let record = &mut state.records.records[child];
        let (named, slot) = (usize::from(record.parent), usize::from(record.slot));
        (record.parent, record.slot) = (FrameIndex(parent as u8), 15);
        put_word(state, named, slot, 0);
        put_word(state, parent, 15, 1 << 31 | child as u32);
    }

    /// Puts any word into a slot of one of the pages of a buffer.
    fn damage_word(&mut self, state: &mut State, pages: usize, buffer: fn(&mut State) -> &mut Vec<u8>) {
        let word = match self.random.below(3) {
            0 => 1 << 31 | self.random.below(usize::from(state.records.count) + 1) as u32,
            1 => self.random.below(usize::from(state.records.pages) + 2) as u32,
            _ => 0,
        };
        let word = word | if self.random.percent(20) { LOCK_BIT } else { 0 };
        let at = PAGE_SIZE * self.random.below(pages) + 4 * self.random.below(SLOTS);
        buffer(state)[at..at + 4].copy_from_slice(&word.to_le_bytes());
    }
}

fn page_of(state: &State, frame: usize) -> Page {
    (state.records.records[frame].store, state.records.records[frame].page)
}

/// The pages that a call warmed by looks alone: their pins are as they were.
fn warmed(before: &Pool, after: &Pool) -> usize {
    let records = before.records.iter().zip(&after.records);
    records.filter(|(old, new)| new.pins == old.pins && new.pins > 0 && new.usage > old.usage).count()
}

/// Puts a word into a slot of the page in a frame.
fn put_word(state: &mut State, frame: usize, slot: usize, word: u32) {
    let at = PAGE_SIZE * frame + 4 * slot;
    state.frames[at..at + 4].copy_from_slice(&word.to_le_bytes());
}

#[test]
fn small_pools() {
    let mut trial = Trial::new(1);
    for turn in 0..60 {
        let (count, pages) = (2 + turn % 7, 2 + 15 * (turn / STORES.len() % 4));
        let stores = trial.random.between(1, MOST_STORES.min(count - 1));
        let state = trial.opened(turn, stores, count, pages);
        let state = trial.marked(state);
        trial.run(state, 1000);
    }
    println!("{:?}, drawn {:?}", trial.given, trial.drawn);
    let refusals = Refusal::ALL.iter().map(|refusal| refusal.number());
    let never: Vec<u8> = refusals.filter(|number| trial.given(*number) == 0).collect();
    assert!(never.is_empty(), "refusals never given: {never:?}");
    let edits = ["write", "link", "unlink"].map(|edit| (edit, Refusal::IsLocked.number()));
    trial.assert_often(&edits);
    let stores = ["root", "fix", "unfix", "show", "peek", "word", "write", "link", "unlink", "evict", "find"];
    trial.assert_often(&stores.map(|call| (call, Refusal::BadStore.number())));
    let records = (1..=9).map(|call| (call, false)).chain([(5, true)]);
    let seldom: Vec<_> =
        records.filter(|kind| trial.drawn.get(kind).is_none_or(|times| *times < 20)).collect();
    assert!(seldom.is_empty(), "records of a call, with data or not, seldom drawn: {seldom:?}");
}

#[test]
fn large_pools() {
    let mut trial = Trial::new(2);
    for shape in 0..STORES.len() {
        for (stores, count, pages) in [(4, 16, 256), (1, 64, 256), (1, 16, 4096), (3, 64, 1024)] {
            let state = trial.opened(shape, stores, count, pages);
            let state = trial.marked(state);
            trial.run(state, 2000);
        }
    }
    println!("{:?}, compared {:?}", trial.given, trial.compared);
    assert!(trial.given(0) > 1000 && trial.given(2) > 100, "accepted, and records that disagree");
}

/// Short runs from full frames whose pages share chains, in any order.
#[test]
fn shared_chains() {
    let mut trial = Trial::new(5);
    let four = [8, 16, 64].map(|count| (Shape::Four, count, 64));
    for (shape, count, pages) in sharing().chain(four) {
        for _ in 0..40 {
            let state = trial.marked(shape.state(count, pages));
            trial.run(state, 100);
        }
    }
    println!("{:?}, compared {:?}", trial.given, trial.compared);
    assert!(trial.given(0) > 1000 && trial.given(2) > 100, "accepted, and directories that disagree");
    let met = [(true, 1), (true, 2), (true, 3), (false, 0), (false, 1), (false, 4)];
    let seldom: Vec<_> =
        met.into_iter().filter(|met| trial.compared.get(met).is_none_or(|times| *times < 10)).collect();
    assert!(seldom.is_empty(), "entries compared, to the page's or not, seldom: {seldom:?}");
    let far = |found| trial.compared.range((found, 5)..=(found, 64)).map(|(_, finds)| finds).sum::<usize>();
    assert!(far(true).min(far(false)) > 10, "finds that go far along a chain, to its end or not");
}

/// Short runs from frames whose parents lie after them: an open among the calls ends that.
#[test]
fn turned_frames() {
    let mut trial = Trial::new(3);
    for count in [4, 16, 64] {
        for _ in 0..20 {
            let state = trial.marked(Shape::Turned.state(count, 256));
            trial.run(state, 100);
        }
    }
    println!("{:?}", trial.given);
    assert!(trial.given(0) > 1000 && trial.given(2) > 100, "accepted, and records that disagree");
}

/// Short runs from full frames with most pages pinned, so that sweeps warm many, and find none to take.
#[test]
fn held_pages() {
    let mut trial = Trial::new(4);
    for (shape, count) in [4, 16, 64].map(|count| (Shape::Full, count)).into_iter().chain(FOUR) {
        for _ in 0..200 {
            let state = trial.held(shape.state(count, 256));
            let mut state = trial.marked(state);
            trial.lower_ceilings(&mut state);
            trial.run(state, 10);
        }
    }
    println!("{:?}, pages warmed {:?}", trial.given, trial.warmed);
    assert!(trial.warmed_from(2) > 200 && trial.warmed_from(32) > 20, "sweeps that warm pages");
    trial.assert_often(&[
        ("fix", 0),
        ("fix", Refusal::NoFrame.number()),
        ("fix", Refusal::AtCeiling.number()),
    ]);
}

/// Short runs from full frames of four stores, at their ceilings or below.
#[test]
fn ceilings() {
    let mut trial = Trial::new(6);
    for (shape, count) in FOUR {
        for _ in 0..200 {
            let mut state = trial.marked(shape.state(count, 256));
            trial.lower_ceilings(&mut state);
            trial.run(state, 20);
        }
    }
    println!("{:?}, taken {:?}", trial.given, trial.taken);
    let met = [(true, true), (false, true), (false, false)];
    let seldom: Vec<_> =
        met.into_iter().filter(|met| trial.taken.get(met).is_none_or(|times| *times < 20)).collect();
    assert!(
        seldom.is_empty(),
        "sweeps at the ceiling or below, that take an own page or not, seldom: {seldom:?}"
    );
}
