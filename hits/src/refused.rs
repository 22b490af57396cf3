//! What is wrong with a recording that a rule refuses.
use crate::figures::grouped;
use pagepool::{Refusal, MOST_PAGES, MOST_RECORDINGS, MOST_REFERENCES};

/// A recording of so many things, `[one, several]` in words, which a tally refuses by another rule than for its pages.
pub fn length(rule: Refusal, count: usize, [one, several]: [&str; 2]) -> String {
    let most = grouped(MOST_REFERENCES as u64);
    let why = match (rule, count) {
        (Refusal::WrongLength, 0) => format!("no {one}; a recording has 1 to {most}"),
        (Refusal::WrongLength, count) if count > MOST_REFERENCES => {
            format!("{} {several}; a recording has 1 to {most}", grouped(count as u64))
        }
        (Refusal::WrongLength, _) => {
            format!("one recording too many; a tally takes {}", grouped(MOST_RECORDINGS))
        }
        (rule, _) => rule.sentence().to_string(),
    };
    said(rule, &why)
}

/// A page that is too large: its place, and how it is written.
pub fn page(place: usize, word: &str) -> String {
    let last = grouped(MOST_PAGES as u64 - 1);
    said(Refusal::BadPage, &format!("place {place} has page {word}; pages go up to {last}"))
}

/// The place of the first page that is too large, from 1 on.
pub fn place(pages: &[u16]) -> usize {
    pages.iter().take_while(|page| usize::from(**page) < MOST_PAGES).count() + 1
}

fn said(rule: Refusal, why: &str) -> String {
    format!("refused by rule {}: {why}", rule.number())
}
