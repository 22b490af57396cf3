//! What calls on a tally met: how often each gave each answer, why an add was refused, and what an added recording is.
use super::lockstep::{Answer, Call, NAMES};
use super::model::{causes, Cause, DEPTHS, LAST_PAGE, MOST_RECORDINGS, MOST_REFERENCES};
use super::recordings::SLOTS;
use super::Tally;
use crate::pool::Refusal;
use crate::runs::Tells;
use std::collections::{BTreeMap, BTreeSet, HashSet};
use std::fmt;

/// How far a number is from the one that it should be.
#[derive(Clone, Copy, Debug, PartialEq, Eq, PartialOrd, Ord)]
pub enum Off {
    /// It is 0.
    None,
    OneFewer,
    OneMore,
    Farther,
}

impl Off {
    pub const ALL: [Off; 4] = [Off::None, Off::OneFewer, Off::OneMore, Off::Farther];

    /// None where it is as it should be.
    fn by(number: u64, right: u64) -> Option<Off> {
        match number {
            _ if number == right => None,
            0 => Some(Off::None),
            _ if number + 1 == right => Some(Off::OneFewer),
            _ if number == right + 1 => Some(Off::OneMore),
            _ => Some(Off::Farther),
        }
    }
}

/// What a call met, or what its recording is.
#[derive(Clone, Copy, Debug, PartialEq, Eq, PartialOrd, Ord)]
pub enum Kind {
    /// Refused: a call, by its name, with another number of counters than there are depths, or a report with such a one of hits.
    Counters(&'static str, Off),
    Hits(Off),
    /// An add for which this is the only cause.
    Alone(Cause),
    /// An add for which these stand, of two rules: the first one's number is given.
    Both(Cause, Cause),
    /// An add of no page, of one too many, or of more.
    Length(Off),
    /// An add to a tally with one reference more than 4,096 for each recording, or with more; one of no recordings too.
    References(Off),
    ReferenceOfNone,
    /// An add to a tally with one reference fewer than its depths count, or with fewer; with a count past 32 bits too.
    Depths(Off),
    DepthsPast32Bits,
    /// An add with a page above 4,095 first, last, between, or twice; with the least such page, and with the greatest.
    HighFirst,
    HighLast,
    HighBetween,
    HighTwice,
    LeastHigh,
    MostHigh,

    /// Added: a recording of this length, from a list.
    Long(usize),
    /// To a tally of none, and as the last one that there can be.
    ToNone,
    LastOfAll,
    /// To a tally with exactly 4,096 references for each recording, and with exactly as many as its depths count.
    MostReferences,
    OnlyDepths,
    /// To a tally that no recordings make: with fewer first references than recordings.
    MadeByNone,
    /// A recording by its pages, where it isn't short.
    AllDifferent,
    OnePage,
    Cyclic,
    UpThenDown,
    FewPages,
    ManyPages,
    Walks,
    /// With the first page of all, and with the last.
    FirstPage,
    LastPage,
    /// With a reference of a depth, from a list.
    Depth(usize),

    /// A share at a size, from a list, and of a tally that an add would refuse by 2; with references past 32 bits.
    Size(u64),
    SharedThough2,
    SharedPast32Bits,
    /// The same of a report.
    ReportedThough2,
    ReportedPast32Bits,
}

/// Lengths about those at which a table of marks in words of 64 bits, or of all references, ends.
pub const LENGTHS: [usize; 11] = [1, 2, 63, 64, 65, 127, 128, 129, 4032, 4095, 4096];
/// The least depths, about the same places, and the greatest.
const SOME_DEPTHS: [usize; 10] = [1, 2, 3, 63, 64, 65, 128, 4000, 4094, 4095];
/// A recording up to this length can be of a kind by chance.
const SHORT: usize = 50;
pub const SIZES: [u64; 9] = [0, 1, 2, 4094, 4095, 4096, 4_294_967_296, 4_294_967_297, u64::MAX];

impl Kind {
    /// All that calls can meet.
    pub fn all() -> Vec<Kind> {
        let mut all = Vec::from(Kind::SINGLE);
        all.extend(NAMES.iter().flat_map(|name| Off::ALL.map(|off| Kind::Counters(name, off))));
        all.extend(Off::ALL.map(Kind::Hits));
        all.extend(Cause::ALL.map(Kind::Alone));
        for (place, first) in Cause::ALL.into_iter().enumerate() {
            let later = Cause::ALL[place + 1..].iter().filter(|cause| cause.number() != first.number());
            all.extend(later.map(|second| Kind::Both(first, *second)));
        }
        all.extend([Off::None, Off::OneMore, Off::Farther].map(Kind::Length));
        all.extend([Off::OneMore, Off::Farther].map(Kind::References));
        all.extend([Off::None, Off::OneFewer, Off::Farther].map(Kind::Depths));
        all.extend(LENGTHS.map(Kind::Long));
        all.extend(SOME_DEPTHS.map(Kind::Depth));
        all.extend(SIZES.map(Kind::Size));
        all
    }

    const SINGLE: [Kind; 26] = [
        Kind::ReferenceOfNone,
        Kind::DepthsPast32Bits,
        Kind::HighFirst,
        Kind::HighLast,
        Kind::HighBetween,
        Kind::HighTwice,
        Kind::LeastHigh,
        Kind::MostHigh,
        Kind::ToNone,
        Kind::LastOfAll,
        Kind::MostReferences,
        Kind::OnlyDepths,
        Kind::MadeByNone,
        Kind::AllDifferent,
        Kind::OnePage,
        Kind::Cyclic,
        Kind::UpThenDown,
        Kind::FewPages,
        Kind::ManyPages,
        Kind::Walks,
        Kind::FirstPage,
        Kind::LastPage,
        Kind::SharedThough2,
        Kind::SharedPast32Bits,
        Kind::ReportedThough2,
        Kind::ReportedPast32Bits,
    ];
}

/// The kinds that are marked as met.
fn those<const N: usize>(marked: [(Kind, bool); N]) -> impl Iterator<Item = Kind> {
    marked.into_iter().filter(|(_, met)| *met).map(|(kind, _)| kind)
}

/// What a call on a tally met, and what its recording is, by the tally that it left.
pub fn shown((tally, after): (&Tally, &Tally), call: &Call, answer: &Answer) -> BTreeSet<Kind> {
    let mut shown = BTreeSet::new();
    let counters = Off::by(tally.counts.len() as u64, DEPTHS as u64);
    shown.extend(counters.map(|off| Kind::Counters(NAMES[call.index()], off)));
    let breaks_2 = causes(tally, &[0]).iter().any(|cause| cause.number() == 2);
    let past_32_bits = |number: u64| number > u32::MAX.into();
    match (call, answer) {
        (Call::Add(pages), Answer::Refused(_)) => refused(tally, pages, &mut shown),
        (Call::Add(pages), _) => {
            added_to(tally, &mut shown);
            recording(pages, &mut shown);
            let met = |depth: &usize| after.counts[depth - 1] > tally.counts[depth - 1];
            shown.extend(SOME_DEPTHS.into_iter().filter(met).map(Kind::Depth));
        }
        (Call::Share(size), Answer::Share(share)) => {
            shown.extend(SIZES.contains(size).then_some(Kind::Size(*size)));
            shown.extend(those([
                (Kind::SharedThough2, breaks_2),
                (Kind::SharedPast32Bits, past_32_bits(share.within)),
            ]));
        }
        (Call::Report(_), Answer::Hits(hits)) => shown.extend(those([
            (Kind::ReportedThough2, breaks_2),
            (Kind::ReportedPast32Bits, hits.last().copied().is_some_and(past_32_bits)),
        ])),
        (Call::Report(length), _) if counters.is_none() => {
            shown.extend(Off::by(*length as u64, DEPTHS as u64).map(Kind::Hits));
        }
        _ => (),
    }
    shown
}

/// Why an add was refused.
fn refused(tally: &Tally, pages: &[u16], shown: &mut BTreeSet<Kind>) {
    let causes = causes(tally, pages);
    if let [first, others @ ..] = &causes[..] {
        let later = others.iter().filter(|cause| cause.number() != first.number());
        shown.extend(later.map(|second| Kind::Both(*first, *second)));
    }
    if let [cause] = causes[..] {
        shown.insert(Kind::Alone(cause));
        alone(cause, tally, pages, shown);
    }
}

/// What was refused for one cause alone.
fn alone(cause: Cause, tally: &Tally, pages: &[u16], shown: &mut BTreeSet<Kind>) {
    let references = u64::from(tally.head.references);
    match cause {
        Cause::Length => shown.extend(Off::by(pages.len() as u64, MOST_REFERENCES as u64).map(Kind::Length)),
        Cause::References => {
            let most = 4096 * u64::from(tally.head.recordings);
            shown.extend(Off::by(references, most).map(Kind::References));
            shown.extend((tally.head.recordings == 0).then_some(Kind::ReferenceOfNone));
        }
        Cause::Depths => {
            shown.extend(Off::by(references, tally.counted()).map(Kind::Depths));
            shown.extend((tally.counted() > u32::MAX.into()).then_some(Kind::DepthsPast32Bits));
        }
        Cause::Page => shown.extend(high_pages(pages)),
        Cause::Counters | Cause::TooMany => (),
    }
}

/// Where the pages above 4,095 stand, and which they are.
fn high_pages(pages: &[u16]) -> impl Iterator<Item = Kind> {
    let high: Vec<usize> = (0..pages.len()).filter(|at| pages[*at] > LAST_PAGE).collect();
    let only = |at| high == [at] && pages.len() > 2;
    those([
        (Kind::HighFirst, only(0)),
        (Kind::HighLast, only(pages.len() - 1)),
        (Kind::HighBetween, high.len() == 1 && !only(0) && !only(pages.len() - 1)),
        (Kind::HighTwice, high.len() > 1),
        (Kind::LeastHigh, high.iter().all(|at| pages[*at] == LAST_PAGE + 1)),
        (Kind::MostHigh, high.iter().all(|at| pages[*at] == u16::MAX)),
    ])
}

/// The tally that a recording was added to.
fn added_to(tally: &Tally, shown: &mut BTreeSet<Kind>) {
    let (recordings, references) = (u64::from(tally.head.recordings), u64::from(tally.head.references));
    let some = recordings > 0 && references > 0;
    shown.extend(those([
        (Kind::ToNone, recordings == 0),
        (Kind::LastOfAll, tally.head.recordings == MOST_RECORDINGS - 1),
        (Kind::MostReferences, some && references == 4096 * recordings),
        (Kind::OnlyDepths, some && references == tally.counted()),
        (Kind::MadeByNone, references < tally.counted() + recordings),
    ]));
}

/// The kinds of a recording.
fn recording(pages: &[u16], shown: &mut BTreeSet<Kind>) {
    let different = pages.iter().collect::<HashSet<_>>().len();
    let long = pages.len() > SHORT;
    let repeated = long && different > 1 && different < pages.len();
    shown.extend(LENGTHS.contains(&pages.len()).then_some(Kind::Long(pages.len())));
    shown.extend(those([
        (Kind::AllDifferent, long && different == pages.len()),
        (Kind::OnePage, long && different == 1),
        (Kind::Cyclic, repeated && (different..pages.len()).all(|at| pages[at] == pages[at - different])),
        (Kind::UpThenDown, repeated && pages.iter().eq(pages.iter().rev())),
        (Kind::FewPages, repeated && different <= 16),
        (Kind::ManyPages, repeated && different > 1000),
        (Kind::Walks, repeated && walks(pages)),
        (Kind::FirstPage, pages.contains(&0)),
        (Kind::LastPage, pages.contains(&LAST_PAGE)),
    ]));
}

/// Each page is the root of a tree, or a child of the page before it, two levels below the root and more among them.
fn walks(pages: &[u16]) -> bool {
    let is_child = |pair: &[u16]| pair[1] == 0 || (pair[1] - 1) / SLOTS == pair[0];
    pages[0] == 0 && pages.windows(2).all(is_child) && pages.iter().any(|page| *page > SLOTS)
}

/// How often each call gave each answer, and each kind was met.
#[derive(Clone, Default)]
pub struct Met {
    answers: BTreeMap<(&'static str, Refusal), u64>,
    kinds: BTreeMap<Kind, u64>,
}

impl Met {
    pub fn count(&mut self, call: &'static str, number: Refusal, kinds: BTreeSet<Kind>) {
        *self.answers.entry((call, number)).or_default() += 1;
        for kind in kinds {
            *self.kinds.entry(kind).or_default() += 1;
        }
    }

    /// Both together.
    pub fn and(mut self, other: Met) -> Met {
        other.answers.into_iter().for_each(|(pair, times)| *self.answers.entry(pair).or_default() += times);
        other.kinds.into_iter().for_each(|(kind, times)| *self.kinds.entry(kind).or_default() += times);
        self
    }

    /// The pairs of call and answer that occurred.
    pub fn answers(&self) -> BTreeSet<(&'static str, Refusal)> {
        self.answers.keys().copied().collect()
    }

    /// The kinds that no call met.
    pub fn missing(&self) -> Vec<Kind> {
        Kind::all().into_iter().filter(|kind| !self.kinds.contains_key(kind)).collect()
    }
}

impl Tells for Met {
    fn calls(&self) -> u64 {
        self.answers.values().sum()
    }
}

/// A line for each call: how often it was accepted, and refused by which number.
impl fmt::Display for Met {
    fn fmt(&self, f: &mut fmt::Formatter) -> fmt::Result {
        for name in NAMES {
            write!(f, "{name:<7}")?;
            for ((_, number), count) in self.answers.range((name, 0)..=(name, u8::MAX)) {
                write!(f, " {number}:{count}")?;
            }
            writeln!(f)?;
        }
        write!(f, "calls, by what they met:")?;
        for (kind, count) in &self.kinds {
            write!(f, " {kind:?}:{count}")?;
        }
        write!(f, "\n{} calls, {} kinds", self.calls(), self.kinds.len())
    }
}
