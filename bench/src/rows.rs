//! The rows of the table of the pool's calls, and their figures.
use crate::asked::Asked;
use crate::calls::{
    draw, evict_dirty, evict_parent, find_absent, find_absent_from_chain, find_first, find_last,
    find_last_of_chain, find_middle, fix_at_ceiling, fix_at_ceiling_alone, fix_clean, fix_denied, fix_dirty,
    fix_half_pinned, fix_hit, fix_one_open, link, link_locked, link_marked, link_named, link_taken, open,
    peek, peek_resident, root, settle_dirty, show, unfix, unlink, unlink_locked, word, write, write_locked,
    Variants,
};
use crate::timing::{deeper, Race};
use pool_bench::shapes::{put_records, Shape, State, FOURS, ONE_CHAIN, STORES};

/// A measured row.
pub struct Figure {
    pub label: &'static str,
    pub shape: Shape,
    pub grows: Grows,
    pub count: usize,
    pub pages: usize,
    pub times: Times,
}

/// Nanoseconds a call, what undoes it taken off.
#[derive(Clone, Copy)]
pub struct Times {
    pub library: f64,
    pub baseline: f64,
    pub copy: f64,
}

/// Whether a row is one of a growing F or of a growing N.
#[derive(Clone, Copy, PartialEq)]
pub enum Grows {
    Frames,
    Pages,
}

/// A call with what it meets, and how to make its variants for a state.
type Call = (&'static str, fn(&State) -> (State, Variants));

/// Calls that are made on states of a shape, for each pair of F and N.
pub struct Block {
    shape: Shape,
    grows: Grows,
    sizes: &'static [(usize, usize)],
    calls: &'static [Call],
}

const BY_FRAMES: &[(usize, usize)] = &[(4, 256), (16, 256), (64, 256)];
const BY_PAGES: &[(usize, usize)] = &[(16, 16), (16, 256), (16, 4096)];
const SMALL: &[(usize, usize)] = &[(4, 16), (16, 16)];

const WITH_FULL_FRAMES: &[Call] = &[
    ("fix, hit", fix_hit),
    ("unfix", unfix),
    (SWEEP, fix_clean),
    ("fix, sweep, dirty victim", fix_dirty),
    ("root", root),
    ("find, first frame", find_first),
    ("find, middle frame", find_middle),
    ("find, last frame", find_last),
    ("find, absent", find_absent),
    ("peek", peek),
    ("peek, resident", peek_resident),
    (SHOW, show),
    ("word", word),
    ("write, 8 bytes", write),
    ("unlink", unlink),
    ("evict, dirty", evict_dirty),
    ("settle, all dirty", settle_dirty),
    ("draw", draw),
];

const WITH_OTHER_PINS: &[Call] = &[
    ("fix, sweep, half pinned", fix_half_pinned),
    ("fix, sweep, one open", fix_one_open),
    ("evict, parent", evict_parent),
];

/// With every word marked: the rows of `WITH_FULL_FRAMES` that read or carry marks, or whose pages pass rule 2 with them, and edits
/// of a locked page.
const WITH_MARKS: &[Call] = &[
    ("fix, hit", fix_hit),
    (SWEEP, fix_clean),
    ("fix, sweep, dirty victim", fix_dirty),
    ("root", root),
    ("word", word),
    ("evict, dirty", evict_dirty),
    ("settle, all dirty", settle_dirty),
    ("write, locked page", write_locked),
    ("link, locked page", link_locked),
    ("unlink, locked page", unlink_locked),
];

/// Where pages share chains: calls that go along one, and what rule 2 takes of it.
const WITH_CHAINS: &[Call] = &[
    ("root", root),
    ("fix, hit", fix_hit),
    (SWEEP, fix_clean),
    ("find, first frame", find_first),
    ("find, last frame", find_last),
    ("find, last of a chain", find_last_of_chain),
    ("find, absent from a chain", find_absent_from_chain),
    ("find, absent", find_absent),
    ("peek", peek),
    ("peek, resident", peek_resident),
    (SHOW, show),
    ("evict, dirty", evict_dirty),
];

const ON_THE_ROOT: &[Call] = &[
    ("root", root),
    ("fix, empty frame", fix_clean),
    ("unfix", unfix),
    ("find, first frame", find_first),
    ("find, absent", find_absent),
    ("peek", peek),
    (SHOW, show),
    ("word", word),
    ("write, 8 bytes", write),
    ("link", link),
    ("unlink", unlink),
    ("settle, all dirty", settle_dirty),
    ("draw", draw),
];

const OF_EVERY_USER: &[Call] = &[
    ("root", root),
    ("fix, hit", fix_hit),
    ("unfix", unfix),
    ("find, last frame", find_last),
    (SHOW, show),
    ("word", word),
    ("write, 8 bytes", write),
    ("draw", draw),
];

/// A call that does next to nothing but rules 1 and 2.
pub const SHOW: &str = "show";

/// What a row takes more than another on the same state: by name, that row and the other.
pub const DIFFERENCES: [(&str, &str, &str); 5] = [
    ("find past rule 2, last frame", "find, last frame", SHOW),
    ("find past rule 2, last of a chain", "find, last of a chain", SHOW),
    ("find past rule 2, absent", "find, absent", SHOW),
    ("find past rule 2, absent from a chain", "find, absent from a chain", SHOW),
    ("peek past rule 2, resident", "peek, resident", SHOW),
];

/// A load in full frames.
const SWEEP: &str = "fix, sweep, clean victim";

/// A call whose pass over the store ends before the store does.
const NAMED_PAGE: &str = "link, named page";

const OVER_THE_STORE: &[Call] =
    &[("link", link), ("link, slot taken", link_taken), (NAMED_PAGE, link_named), ("open", open)];

const OVER_MARKS: &[Call] = &[
    ("link, with the mark", link_marked),
    ("link, slot taken", link_taken),
    (NAMED_PAGE, link_named),
    ("open", open),
];

const fn by_frames(shape: Shape, calls: &'static [Call]) -> Block {
    Block { shape, grows: Grows::Frames, sizes: BY_FRAMES, calls }
}

const fn by_pages(shape: Shape, calls: &'static [Call]) -> Block {
    Block { shape, grows: Grows::Pages, sizes: BY_PAGES, calls }
}

/// Of one store, whose ceiling is F.
pub static OF_ONE_STORE: [Block; 12] = [
    by_frames(Shape::Full, WITH_FULL_FRAMES),
    by_frames(Shape::Full, WITH_OTHER_PINS),
    by_pages(Shape::Full, OVER_THE_STORE),
    by_frames(Shape::Leaves, WITH_FULL_FRAMES),
    by_frames(Shape::Opened, ON_THE_ROOT),
    Block { shape: Shape::Few, grows: Grows::Frames, sizes: SMALL, calls: OF_EVERY_USER },
    by_pages(Shape::Chain, &[("open", open)]),
    by_frames(Shape::Turned, &[("root", root)]),
    by_frames(Shape::Marked, WITH_MARKS),
    by_pages(Shape::Marked, OVER_MARKS),
    Block { shape: Shape::Fours, grows: Grows::Frames, sizes: &FOURS, calls: WITH_CHAINS },
    Block { shape: Shape::OneChain, grows: Grows::Frames, sizes: &ONE_CHAIN, calls: WITH_CHAINS },
];

/// The loads of four stores in full frames: of one below its ceiling, whose sweep takes a neighbour's page, and of one at its ceiling,
/// where the neighbours' frames are full or empty.
const NEIGHBOUR: &str = "fix, sweep, neighbour's page";
const AT_CEILING: &str = "fix, sweep, at the ceiling";
const AT_CEILING_ALONE: &str = "fix, sweep, at the ceiling, empty frames";

const DENIED: &str = "fix, denied at the ceiling";

const WITH_FOUR_STORES: &[Call] = &[
    (SHOW, show),
    ("word", word),
    ("find, last frame", find_last),
    ("find, last of a chain", find_last_of_chain),
    ("find, absent", find_absent),
    ("peek", peek),
    ("root", root),
    ("fix, hit", fix_hit),
    (NEIGHBOUR, fix_clean),
    (AT_CEILING, fix_at_ceiling),
    (AT_CEILING_ALONE, fix_at_ceiling_alone),
    (DENIED, fix_denied),
    ("write, 8 bytes", write),
    ("link", link),
    ("evict, dirty", evict_dirty),
    ("settle, all dirty", settle_dirty),
];

const WITH_ONE_STORE: &[Call] = &[
    (SHOW, show),
    ("word", word),
    ("find, last frame", find_last),
    ("find, last of a chain", find_last_of_chain),
    ("find, absent", find_absent),
    ("peek", peek),
    ("root", root),
    ("fix, hit", fix_hit),
    (SWEEP, fix_clean),
    (DENIED, fix_denied),
    ("write, 8 bytes", write),
    ("link", link),
    ("evict, dirty", evict_dirty),
    ("settle, all dirty", settle_dirty),
];

/// F and N of four stores, and of one with as many pages.
const FOUR_BY_FRAMES: &[(usize, usize)] = &[(8, 1024), (16, 1024), (64, 1024)];
const ONE_BY_FRAMES: &[(usize, usize)] = &[(8, 4096), (16, 4096), (64, 4096)];
const FOUR_BY_PAGES: &[(usize, usize)] = &[(16, 64), (16, 256), (16, 1024)];
const ONE_BY_PAGES: &[(usize, usize)] = &[(16, 256), (16, 1024), (16, 4096)];

const JUST_OPENED: &[Call] = &[("fix, empty frame", fix_clean)];
const OPENING: &[Call] = &[("open", open)];

/// Of four stores, and of one beside them.
pub static OF_SEVERAL_STORES: [Block; 6] = [
    Block { shape: Shape::Four, grows: Grows::Frames, sizes: FOUR_BY_FRAMES, calls: WITH_FOUR_STORES },
    Block { shape: Shape::FourOpened, grows: Grows::Frames, sizes: FOUR_BY_FRAMES, calls: JUST_OPENED },
    Block { shape: Shape::Four, grows: Grows::Pages, sizes: FOUR_BY_PAGES, calls: OPENING },
    Block { shape: Shape::One, grows: Grows::Frames, sizes: ONE_BY_FRAMES, calls: WITH_ONE_STORE },
    Block { shape: Shape::OneOpened, grows: Grows::Frames, sizes: ONE_BY_FRAMES, calls: JUST_OPENED },
    Block { shape: Shape::One, grows: Grows::Pages, sizes: ONE_BY_PAGES, calls: OPENING },
];

/// The row of one store that is looked at beside one of four, on as many resident pages.
pub fn beside(label: &str) -> Option<&str> {
    match label {
        NEIGHBOUR | AT_CEILING => Some(SWEEP),
        AT_CEILING_ALONE => None,
        _ => Some(label),
    }
}

impl Figure {
    pub fn ratio(&self) -> f64 {
        self.times.library / self.times.baseline
    }

    /// The ratio once the copy of the records is taken off.
    pub fn ratio_without_copy(&self) -> f64 {
        (self.times.library - self.times.copy) / self.times.baseline
    }

    /// The call's name, without what it meets.
    pub fn call(&self) -> &str {
        call_of(self.label)
    }

    /// Whether the checks of a whole store dominate the row.
    pub fn whole_store(&self) -> bool {
        self.grows == Grows::Pages && self.pages > self.count && self.label != NAMED_PAGE
    }

    /// F or N, whichever the row is there to show.
    pub fn size(&self) -> usize {
        match self.grows {
            Grows::Frames => self.count,
            Grows::Pages => self.pages,
        }
    }
}

fn call_of(label: &str) -> &str {
    label.split(',').next().unwrap_or(label)
}

/// How the rows begin: with the names of the calls, and what they meet.
pub fn labels(blocks: &'static [Block]) -> impl Iterator<Item = &'static str> {
    blocks.iter().flat_map(|block| block.calls).map(|(label, _)| *label)
}

/// The rows that are asked for and that the library can be timed on, in so many passes.
pub fn measured(blocks: &'static [Block], asked: &Asked, passes: u32) -> Vec<Figure> {
    let timed = blocks.iter().filter(|block| block.shape.stores() <= STORES);
    let mut rows: Vec<Row> = timed.flat_map(|block| block.rows(asked)).collect();
    for pass in 0..passes {
        deeper(pass, &mut || rows.iter_mut().for_each(|row| row.race.pass()));
    }
    rows.iter().map(Row::figure).collect()
}

/// A row being timed.
struct Row {
    block: &'static Block,
    label: &'static str,
    count: usize,
    pages: usize,
    race: Race<State, 4>,
}

impl Block {
    /// The rows that are asked for: the sizes of a call one after the other.
    fn rows(&'static self, asked: &Asked) -> Vec<Row> {
        let calls = self.calls.iter().filter(|(label, _)| asked.has(label));
        let sized =
            calls.flat_map(|call| self.sizes.iter().map(move |(count, pages)| (call, *count, *pages)));
        sized
            .map(|((label, make), count, pages)| {
                let (mut state, Variants { library, baseline, copy, undo }) =
                    make(&self.shape.state(count, pages));
                let records = state.records;
                put_records(&mut state, &records);
                let restore = move |now: &mut State| put_records(now, &records);
                let race = Race::new(state, restore, [library, baseline, copy, undo]);
                Row { block: self, label, count, pages, race }
            })
            .collect()
    }
}

impl Row {
    fn figure(&self) -> Figure {
        let [library, baseline, copy, undo] = self.race.times();
        let times =
            Times { library: library - undo, baseline: baseline - undo, copy: (copy - undo).max(0.0) };
        let Block { shape, grows, .. } = *self.block;
        Figure { label: self.label, shape, grows, count: self.count, pages: self.pages, times }
    }
}
