//! The figures of a tally's calls.
use super::{machine, nanoseconds, stack_of, MET, MOST, MOST_STACK};
use crate::stack::{Depth, MARGIN};
use crate::tallies::Figure;

const HEAD: &str = "\
| call | recording | references | library, ns | baseline, ns | ratio | library, ns a reference | stack, bytes | goal |
|---|---|--:|--:|--:|--:|--:|--:|---|
";

pub fn text(figures: &[Figure], depths: &[Depth]) -> String {
    let rows: Vec<(&Figure, usize)> =
        figures.iter().map(|figure| (figure, stack_of(figure.call(), depths))).collect();
    let missed = rows.iter().filter(|(figure, stack)| goal(figure, *stack) != MET).count();
    let lines: String = rows.iter().map(|(figure, stack)| line(figure, *stack)).collect();
    format!("{}\n\n{HEAD}{lines}\n{missed} of {} rows miss the goal.\n", machine(), rows.len())
}

fn line(figure: &Figure, stack: usize) -> String {
    let (recording, references, each) = match figure.added {
        Some(added) => {
            let each = figure.library / added.length as f64;
            (added.name(), added.length.to_string(), format!("{each:.2}"))
        }
        None => Default::default(),
    };
    format!(
        "| {} | {recording} | {references} | {} | {} | {:.2} | {each} | {}{stack} | {} |\n",
        figure.label,
        nanoseconds(figure.library),
        nanoseconds(figure.baseline),
        figure.ratio(),
        if stack == MARGIN { "up to " } else { "" },
        goal(figure, stack),
    )
}

/// What of the goal a row misses, or that it is met.
fn goal(figure: &Figure, stack: usize) -> String {
    let tests = [(figure.ratio() <= MOST, "1.10"), (stack < MOST_STACK, "stack")];
    let misses: Vec<&str> = tests.iter().filter(|(met, _)| !met).map(|(_, name)| *name).collect();
    if misses.is_empty() {
        MET.into()
    } else {
        format!("misses {}", misses.join(", "))
    }
}
