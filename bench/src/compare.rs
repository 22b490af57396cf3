//! Two programs, each linked to an archive of its own, timed in turn. A busy moment of the machine falls on a round or two:
//! the least times of all rounds and the middle one of the rounds' ratios both have to tell before a row counts as slower.
use crate::report::under;
use crate::rows::{self, DIFFERENCES, SHOW};
use crate::tallies;
use std::io;
use std::process::Command;

/// Runs of each program.
const ROUNDS: usize = 10;
/// What a row may lose before it counts as slower.
const MOST: f64 = 1.03;

const HEAD: &str = "\
| call | shape or recording | F | N | A, ns | B, ns | A to baseline | B to baseline | B to A | middle of the rounds |
|---|---|--:|--:|--:|--:|--:|--:|--:|--:|
";

/// A row's times in one round of a program.
struct Round {
    row: String,
    library: f64,
    baseline: f64,
}

/// What a round of a comparison reads.
pub fn lines(of_pool: &[rows::Figure], of_tally: &[tallies::Figure]) -> String {
    let line = |figure: &rows::Figure| {
        let rows::Figure { label, shape, count, pages, times, .. } = figure;
        format!("{label} | {} | {count} | {pages}\t{}\t{}\n", shape.name(), times.library, times.baseline)
    };
    let tally_line = |figure: &tallies::Figure| {
        let tallies::Figure { label, added, library, baseline } = figure;
        let added = added.map(|added| format!("{}, {} references", added.name(), added.length));
        format!("{label} | {} | | \t{library}\t{baseline}\n", added.unwrap_or_default())
    };
    of_pool.iter().map(line).chain(of_tally.iter().map(tally_line)).collect()
}

/// The table of two programs.
pub fn text(programs: [&str; 2], calls: &[&str]) -> io::Result<String> {
    let mut rounds = [Vec::new(), Vec::new()];
    for round in 0..ROUNDS {
        for side in [round % 2, 1 - round % 2] {
            rounds[side].push(run(programs[side], calls)?);
        }
    }
    Ok(table(&rounds) + &parts(&rounds))
}

fn run(program: &str, calls: &[&str]) -> io::Result<Vec<Round>> {
    let output = Command::new(program).arg("--figures").args(calls).output()?;
    if !output.status.success() {
        return Err(io::Error::other(String::from_utf8_lossy(&output.stderr)));
    }
    String::from_utf8_lossy(&output.stdout).lines().map(read).collect()
}

fn read(line: &str) -> io::Result<Round> {
    let mut fields = line.split('\t');
    let mut field = || fields.next().ok_or_else(|| io::Error::other(format!("no row: {line}")));
    let row = field()?.to_string();
    let mut time = || field()?.parse().map_err(io::Error::other);
    Ok(Round { row, library: time()?, baseline: time()? })
}

/// A row's rounds of a program, none where it has no such row.
fn of_row<'a>(rounds: &'a [Vec<Round>], row: &str) -> Vec<&'a Round> {
    rounds.iter().flatten().filter(|round| round.row == row).collect()
}

const PARTS_HEAD: &str = "\
| part of a call | shape | F | N | A, ns | B, ns | B less A, ns |
|---|---|--:|--:|--:|--:|--:|
";

/// What rows take more than others on the same state, and what a call takes that does little but rules 1 and 2. None where a program
/// has no such row.
fn parts(rounds: &[Vec<Vec<Round>>; 2]) -> String {
    let time = |side: usize, label: &str, state: &str| {
        let times = of_row(&rounds[side], &format!("{label} | {state}"));
        (!times.is_empty()).then(|| least(times.iter().map(|round| round.library)))
    };
    let mut text = String::new();
    for Round { row, .. } in &rounds[0][0] {
        let Some((label, state)) = row.split_once(" | ") else { continue };
        if label == SHOW {
            text += &part("rules 1 and 2, by show", state, [0, 1].map(|side| time(side, label, state)));
        }
        for (name, _, other) in DIFFERENCES.iter().filter(|(_, row, _)| *row == label) {
            let more = |side| Some(time(side, label, state)? - time(side, other, state)?);
            text += &part(name, state, [0, 1].map(more));
        }
    }
    under(PARTS_HEAD, text)
}

/// A line of a part's times in both programs.
fn part(name: &str, state: &str, [a, b]: [Option<f64>; 2]) -> String {
    if a.or(b).is_none() {
        return String::new();
    }
    let cell = |time: Option<f64>| time.map_or("none".into(), |time| format!("{time:.1}"));
    let more = a.zip(b).map_or("none".into(), |(a, b)| format!("{:+.1}", b - a));
    format!("| {name} | {state} | {} | {} | {more} |\n", cell(a), cell(b))
}

/// The rows that both programs have, and how many one of them has alone.
fn table(rounds: &[Vec<Vec<Round>>; 2]) -> String {
    let (mut text, mut slower, mut rows) = (HEAD.to_string(), 0, 0);
    for Round { row, .. } in &rounds[0][0] {
        let [a, b] = [0, 1].map(|side| of_row(&rounds[side], row));
        if b.is_empty() {
            continue;
        }
        rows += 1;
        let baseline = least(a.iter().chain(&b).map(|round| round.baseline));
        let [least_a, least_b] = [&a, &b].map(|side| least(side.iter().map(|round| round.library)));
        let (by_least, by_middle) = (least_b / least_a, middle_ratio(&b) / middle_ratio(&a));
        let is_slower = by_least > MOST && by_middle > MOST;
        slower += usize::from(is_slower);
        text += &format!(
            "| {} | {least_a:.1} | {least_b:.1} | {:.3} | {:.3} | {by_least:.3} | {by_middle:.3}{} |\n",
            a[0].row,
            least_a / baseline,
            least_b / baseline,
            if is_slower { ", slower" } else { "" }
        );
    }
    text += &format!("\n{slower} of {rows} rows are slower in B by more than 3 %.\n");
    match rounds.iter().map(|side| side[0].len() - rows).sum() {
        0usize => text,
        alone => text + &format!("{alone} rows are left out: one of the two can't be timed on them.\n"),
    }
}

fn least(times: impl Iterator<Item = f64>) -> f64 {
    times.fold(f64::MAX, f64::min)
}

/// The middle one of the rounds' ratios to the baseline.
fn middle_ratio(rounds: &[&Round]) -> f64 {
    let mut ratios: Vec<f64> = rounds.iter().map(|round| round.library / round.baseline).collect();
    ratios.sort_by(f64::total_cmp);
    (ratios[(ratios.len() - 1) / 2] + ratios[ratios.len() / 2]) / 2.0
}
