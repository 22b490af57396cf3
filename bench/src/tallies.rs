//! The rows of the table of a tally's calls, and their figures.
use crate::asked::Asked;
use crate::calls::accept;
use crate::timing::{deeper, repeat, Race, Variant};
use pagepool::{tally_add, tally_report, tally_share, Refusal, TallyHead, DEPTHS, MOST_REFERENCES};
use pool_bench::baseline::tally as baseline;
use pool_bench::recordings::Recording;

/// What an add is timed on: a recording of so many references, the same one in each call or each time another.
#[derive(Clone, Copy)]
pub struct Added {
    pub recording: Recording,
    pub length: usize,
    pub others: bool,
}

/// So many recordings are added one after the other, where each time another is: a prime, so that every variant comes to all of
/// them.
const OTHERS: u64 = 61;

impl Added {
    pub fn name(self) -> String {
        let others = if self.others { ", each time others" } else { "" };
        format!("{}{others}", self.recording.name())
    }

    pub fn recordings(self) -> Vec<Vec<u16>> {
        let seeds = if self.others { 0..OTHERS } else { 0..1 };
        seeds.map(|seed| self.recording.pages(self.length, seed)).collect()
    }
}

/// The rows of add: every recording at its lengths, and some of those that are drawn, each time anew.
pub fn added() -> Vec<Added> {
    let mut rows = Vec::new();
    for recording in Recording::ALL {
        rows.extend(recording.lengths().iter().map(|length| Added {
            recording,
            length: *length,
            others: false,
        }));
    }
    let drawn = [Recording::AnyOfEighth, Recording::Walks];
    rows.extend(drawn.map(|recording| Added { recording, length: MOST_REFERENCES, others: true }));
    rows
}

/// A measured row.
pub struct Figure {
    pub label: &'static str,
    /// What is added.
    pub added: Option<Added>,
    /// Nanoseconds a call.
    pub library: f64,
    pub baseline: f64,
}

impl Figure {
    pub fn ratio(&self) -> f64 {
        self.library / self.baseline
    }

    /// The call's name, without what it meets.
    pub fn call(&self) -> &str {
        self.label.split(',').next().unwrap_or(self.label)
    }
}

/// What a host has, and the recordings that it adds, of which one is the next.
#[derive(Clone)]
pub struct State {
    pub head: TallyHead,
    pub counts: Vec<u32>,
    pub hits: Vec<u64>,
    recordings: Vec<Vec<u16>>,
    next: usize,
}

impl State {
    pub fn new(recordings: Vec<Vec<u16>>) -> State {
        let (counts, hits) = (vec![0; DEPTHS], vec![0; DEPTHS]);
        State { head: TallyHead::default(), counts, hits, recordings, next: 0 }
    }

    /// Adds the next recording by a call.
    pub fn add(&mut self, call: impl Fn(&mut TallyHead, &mut [u32], &[u16]) -> Result<(), Refusal>) {
        accept(call(&mut self.head, &mut self.counts, &self.recordings[self.next]));
        self.next = (self.next + 1) % self.recordings.len();
    }
}

pub const ADD: &str = "add";

/// The library's call and the baseline's.
type Sides = [Variant<State>; 2];

fn add() -> Sides {
    [repeat(|s: &mut State| s.add(tally_add)), repeat(|s: &mut State| s.add(baseline::add))]
}

fn share(size: u64) -> Sides {
    [
        repeat(move |s: &mut State| accept(tally_share(s.head, &s.counts, size))),
        repeat(move |s: &mut State| accept(baseline::share(s.head, &s.counts, size))),
    ]
}

fn report() -> Sides {
    [
        repeat(|s: &mut State| accept(tally_report(&s.counts, &mut s.hits))),
        repeat(|s: &mut State| accept(baseline::report(&s.counts, &mut s.hits))),
    ]
}

type Make = fn() -> Sides;

/// The rows of calls that add nothing.
const READING: [(&str, Make); 4] = [
    ("share, 64 pages", || share(64)),
    ("share, 1,024 pages", || share(1024)),
    ("share, every depth", || share(DEPTHS as u64)),
    ("report", report),
];

/// How the rows begin.
pub fn labels() -> impl Iterator<Item = &'static str> {
    [ADD].into_iter().chain(READING.iter().map(|(label, _)| *label))
}

/// A row being timed.
struct Row {
    label: &'static str,
    added: Option<Added>,
    race: Race<State, 2>,
}

impl Row {
    fn new(label: &'static str, added: Option<Added>, state: State, sides: Sides) -> Row {
        let (head, counts) = (state.head, state.counts.clone());
        let restore = move |now: &mut State| {
            now.head = head;
            now.counts.copy_from_slice(&counts);
        };
        Row { label, added, race: Race::new(state, restore, sides) }
    }

    fn figure(&self) -> Figure {
        let [library, baseline] = self.race.times();
        Figure { label: self.label, added: self.added, library, baseline }
    }
}

/// A tally with every row's recordings.
pub fn of_all_recordings() -> State {
    let mut state = State::new(added().into_iter().flat_map(Added::recordings).collect());
    (0..state.recordings.len()).for_each(|_| state.add(baseline::add));
    state
}

fn rows(asked: &Asked) -> Vec<Row> {
    let adding = added().into_iter().filter(|_| asked.has(ADD));
    let adding = adding.map(|added| Row::new(ADD, Some(added), State::new(added.recordings()), add()));
    let reading = READING.iter().filter(|(label, _)| asked.has(label));
    adding.chain(reading.map(|(label, make)| Row::new(label, None, of_all_recordings(), make()))).collect()
}

/// The rows that are asked for, timed in so many passes.
pub fn measured(asked: &Asked, passes: u32) -> Vec<Figure> {
    let mut rows = rows(asked);
    for pass in 0..passes {
        deeper(pass, &mut || rows.iter_mut().for_each(|row| row.race.pass()));
    }
    rows.iter().map(Row::figure).collect()
}
