//! How often each call met each answer, a link into a taken slot each namer of its page, an evict each reason to stay, a fix what
//! it can do to usages, a find what it can meet in a chain, a draw what it can show, and any call what it can do to chains, and
//! what it can meet of marks and locked pages, of several stores, and of T and ceilings.
use crate::calls::{Answer, Call, DRAW, NAMES};
use crate::model::chains::Turn;
use crate::model::drawing::Drawing;
use crate::model::figures::Figure;
use crate::model::locks::Lock;
use crate::model::search::Met;
use crate::model::sharing::Sharing;
use crate::model::stays::Stay;
use crate::model::taken::Namer;
use crate::model::warmth::Warmth;
use crate::pool::Refusal;
use crate::runs::Tells;
use std::collections::{BTreeMap, BTreeSet};
use std::fmt;
use words::rules::Table;

/// A call's name and what it answered, 0 for accepted.
pub type Pair = (&'static str, u8);

#[derive(Clone, Default)]
pub struct Coverage {
    counts: BTreeMap<Pair, u64>,
    namers: BTreeMap<Namer, u64>,
    stays: BTreeMap<Stay, u64>,
    warmths: BTreeMap<Warmth, u64>,
    mets: BTreeMap<Met, u64>,
    turns: BTreeMap<Turn, u64>,
    drawings: BTreeMap<Drawing, u64>,
    locks: BTreeMap<Lock, u64>,
    sharings: BTreeMap<Sharing, u64>,
    figures: BTreeMap<Figure, u64>,
    sweeps: u64,
    most_looks: u16,
}

impl Coverage {
    pub fn count(&mut self, call: &Call, answer: &Answer) {
        *self.counts.entry((NAMES[call.index()], answer.number())).or_default() += 1;
        if let Answer::Fixed(fixed) = answer {
            self.sweeps += u64::from(fixed.looks > 0);
            self.most_looks = self.most_looks.max(fixed.looks);
        }
    }

    /// Counts a link: what names its page where the slot is taken.
    pub fn count_namer(&mut self, namer: Option<Namer>) {
        if let Some(namer) = namer {
            *self.namers.entry(namer).or_default() += 1;
        }
    }

    /// Counts an evict: why its page stays.
    pub fn count_stay(&mut self, stay: Option<Stay>) {
        if let Some(stay) = stay {
            *self.stays.entry(stay).or_default() += 1;
        }
    }

    /// Counts a fix: what it did to usages.
    pub fn count_warmths(&mut self, warmths: BTreeSet<Warmth>) {
        for warmth in warmths {
            *self.warmths.entry(warmth).or_default() += 1;
        }
    }

    /// Counts a find: what it met in the page's chain.
    pub fn count_met(&mut self, met: Option<Met>) {
        if let Some(met) = met {
            *self.mets.entry(met).or_default() += 1;
        }
    }

    /// Counts what a call did to the directory's chains.
    pub fn count_turns(&mut self, turns: BTreeSet<Turn>) {
        for turn in turns {
            *self.turns.entry(turn).or_default() += 1;
        }
    }

    /// Counts a draw: its refusal's number, 0 if accepted, and what it showed.
    pub fn count_draw(&mut self, number: Refusal, drawings: BTreeSet<Drawing>) {
        *self.counts.entry((DRAW, number)).or_default() += 1;
        for drawing in drawings {
            *self.drawings.entry(drawing).or_default() += 1;
        }
    }

    /// Counts what a call met of marks and of locked pages.
    pub fn count_locks(&mut self, locks: impl IntoIterator<Item = Lock>) {
        for lock in locks {
            *self.locks.entry(lock).or_default() += 1;
        }
    }

    /// Counts what a call met of several stores.
    pub fn count_sharings(&mut self, sharings: BTreeSet<Sharing>) {
        for sharing in sharings {
            *self.sharings.entry(sharing).or_default() += 1;
        }
    }

    /// Counts what a call met of T, of ceilings and of the stores of records.
    pub fn count_figures(&mut self, figures: BTreeSet<Figure>) {
        for figure in figures {
            *self.figures.entry(figure).or_default() += 1;
        }
    }

    /// The pairs of the table that have a wanted answer and did not occur.
    pub fn missing(&self, table: &Table, wanted: &[u8]) -> Vec<Pair> {
        let possible = table.rules.iter().flat_map(|rule| rule.calls.iter().map(|call| (*call, rule.number)));
        possible.filter(|pair| wanted.contains(&pair.1) && !self.counts.contains_key(pair)).collect()
    }

    /// The namers that no link into a taken slot met.
    pub fn missing_namers(&self) -> Vec<Namer> {
        Namer::ALL.into_iter().filter(|namer| !self.namers.contains_key(namer)).collect()
    }

    /// The reasons to stay that no evict met.
    pub fn missing_stays(&self) -> Vec<Stay> {
        Stay::ALL.into_iter().filter(|stay| !self.stays.contains_key(stay)).collect()
    }

    /// What no fix did to usages.
    pub fn missing_warmths(&self) -> Vec<Warmth> {
        Warmth::ALL.into_iter().filter(|warmth| !self.warmths.contains_key(warmth)).collect()
    }

    /// What no find met in a chain.
    pub fn missing_mets(&self) -> Vec<Met> {
        Met::ALL.into_iter().filter(|met| !self.mets.contains_key(met)).collect()
    }

    /// Those of the wanted ones that no call did to a chain.
    pub fn missing_turns(&self, wanted: &[Turn]) -> Vec<Turn> {
        wanted.iter().copied().filter(|turn| !self.turns.contains_key(turn)).collect()
    }

    /// Those of the wanted ones that no draw showed.
    pub fn missing_drawings(&self, wanted: &[Drawing]) -> Vec<Drawing> {
        wanted.iter().copied().filter(|drawing| !self.drawings.contains_key(drawing)).collect()
    }

    /// Those of the wanted ones that no call met of marks and of locked pages.
    pub fn missing_locks(&self, wanted: &[Lock]) -> Vec<Lock> {
        wanted.iter().copied().filter(|lock| !self.locks.contains_key(lock)).collect()
    }

    /// What no call met of several stores.
    pub fn missing_sharings(&self) -> Vec<Sharing> {
        Sharing::ALL.into_iter().filter(|sharing| !self.sharings.contains_key(sharing)).collect()
    }

    /// Those of the wanted ones that no call met of T, of ceilings and of the stores of records.
    pub fn missing_figures(&self, wanted: &[Figure]) -> Vec<Figure> {
        wanted.iter().copied().filter(|figure| !self.figures.contains_key(figure)).collect()
    }

    /// The pairs that occurred and are not in the table.
    pub fn impossible(&self, table: &Table) -> Vec<Pair> {
        let possible = |(call, number): &Pair| table.answers(call).any(|answer| answer == *number);
        self.counts.keys().filter(|pair| !possible(pair)).copied().collect()
    }
}

impl Tells for Coverage {
    fn calls(&self) -> u64 {
        self.counts.values().sum()
    }
}

/// A line for each call: how often it was accepted, and refused by which number.
impl fmt::Display for Coverage {
    fn fmt(&self, f: &mut fmt::Formatter) -> fmt::Result {
        for name in NAMES.into_iter().chain([DRAW]) {
            write!(f, "{name:<7}")?;
            for ((_, number), count) in self.counts.range((name, 0)..=(name, u8::MAX)) {
                write!(f, " {number}:{count}")?;
            }
            writeln!(f)?;
        }
        write!(f, "links into a taken slot, by what names the page:")?;
        for (namer, count) in &self.namers {
            write!(f, " {namer:?}:{count}")?;
        }
        write!(f, "\nevicts of a page that stays:")?;
        for (stay, count) in &self.stays {
            write!(f, " {stay:?}:{count}")?;
        }
        write!(f, "\nfixes, by what they did to usages:")?;
        for (warmth, count) in &self.warmths {
            write!(f, " {warmth:?}:{count}")?;
        }
        write!(f, "\nfinds, by what they met in the page's chain:")?;
        for (met, count) in &self.mets {
            write!(f, " {met:?}:{count}")?;
        }
        write!(f, "\nwhat came of the directory's chains:")?;
        for (turn, count) in &self.turns {
            write!(f, " {turn:?}:{count}")?;
        }
        write!(f, "\ndraws, by what they showed:")?;
        for (drawing, count) in &self.drawings {
            write!(f, " {drawing:?}:{count}")?;
        }
        write!(f, "\nmarks and locked pages:")?;
        for (lock, count) in &self.locks {
            write!(f, " {lock:?}:{count}")?;
        }
        write!(f, "\nseveral stores:")?;
        for (sharing, count) in &self.sharings {
            write!(f, " {sharing:?}:{count}")?;
        }
        write!(f, "\nT, ceilings and the stores of records:")?;
        for (figure, count) in &self.figures {
            write!(f, " {figure:?}:{count}")?;
        }
        writeln!(f, "\n{} calls, {} pairs of call and answer", self.calls(), self.counts.len())?;
        write!(f, "{} sweeps took a frame, in up to {} looks", self.sweeps, self.most_looks)
    }
}
