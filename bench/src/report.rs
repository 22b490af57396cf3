//! The figures as text: a line about the machine, the table, and the rows that miss the goal. Here those of the pool's calls.
pub mod forms;
pub mod stores;
pub mod tally;

use crate::rows::{Figure, Grows, Times, DIFFERENCES};
use crate::stack::Depth;
use pool_bench::shapes::Shape;
use std::fmt::Write;
use std::fs;

/// The largest ratio that the goal allows, and the one for rows that the checks of whole buffers dominate.
const MOST: f64 = 1.10;
const MOST_WHOLE_BUFFER: f64 = 1.00;
const MOST_STACK: usize = 32 * 1024;

const MET: &str = "met";

/// A part of the page that is made of figures.
#[derive(Clone, Copy, Debug, PartialEq)]
pub enum Part {
    Pool,
    Stores,
    Tally,
    Forms,
}

impl Part {
    pub const ALL: [Part; 4] = [Part::Pool, Part::Stores, Part::Tally, Part::Forms];

    pub fn name(self) -> &'static str {
        match self {
            Part::Pool => "pool",
            Part::Stores => "stores",
            Part::Tally => "tally",
            Part::Forms => "forms",
        }
    }

    /// The lines before it and after it.
    fn marks(self) -> [String; 2] {
        let name = self.name();
        [format!("<!-- {name}: bench/run --write -->\n"), format!("<!-- end of {name} -->\n")]
    }

    /// A page with this part replaced.
    pub fn filled(self, page: &str, text: &str) -> String {
        let [begin, end] = self.marks();
        let (before, rest) = page.split_once(&begin).unwrap_or_else(|| panic!("no line '{begin}'"));
        let (_, after) = rest.split_once(&end).unwrap_or_else(|| panic!("no line '{end}'"));
        format!("{before}{begin}{text}{end}{after}")
    }
}

const HEAD: &str = "\
| call | shape | F | N | library, ns | baseline, ns | ratio | records' copy, ns | ratio without it | stack, bytes | goal |
|---|---|--:|--:|--:|--:|--:|--:|--:|--:|---|
";

pub fn text(figures: &[Figure], depths: &[Depth]) -> String {
    table(figures, depths) + &slopes(figures) + &differences(figures)
}

/// The rows, with what they miss of the goal.
fn table(figures: &[Figure], depths: &[Depth]) -> String {
    let mut text = format!("{}\n\n{HEAD}", machine());
    let mut missed = Vec::new();
    for figure in figures {
        let stack = stack_of(figure.call(), depths);
        let goal = goal(figure, stack, figures);
        text += &line(figure, stack, &goal);
        if goal != MET {
            missed.push(figure.shape);
        }
    }
    let _ = write!(text, "\n{} of {} rows miss the goal", missed.len(), figures.len());
    for (place, (shape, rows)) in shapes(figures).into_iter().enumerate() {
        let missed = missed.iter().filter(|missed| **missed == shape).count();
        let _ = write!(text, "{} {} {missed} of {rows}", if place == 0 { ":" } else { "," }, shape.name());
    }
    text + ".\n"
}

/// Lines under the head of their table, or nothing where there are none.
pub fn under(head: &str, lines: String) -> String {
    if lines.is_empty() {
        lines
    } else {
        format!("\n{head}{lines}")
    }
}

/// A table of what rows take more than others on the same state, as far as there are rows for it.
fn differences(figures: &[Figure]) -> String {
    let mut text = String::new();
    for (name, label, other) in DIFFERENCES {
        for row in figures.iter().filter(|row| row.label == label && row.grows == Grows::Frames) {
            let state = |row: &Figure| (row.shape, row.count, row.pages);
            let less = figures.iter().find(|less| less.label == other && state(less) == state(row));
            if let Some(less) = less {
                let library = row.times.library - less.times.library;
                let baseline = row.times.baseline - less.times.baseline;
                let (shape, count, pages) = (row.shape.name(), row.count, row.pages);
                let _ =
                    writeln!(text, "| {name} | {shape} | {count} | {pages} | {library:.1} | {baseline:.1} |");
            }
        }
    }
    under(
        "| part of a call | shape | F | N | library, ns | baseline, ns |\n|---|---|--:|--:|--:|--:|\n",
        text,
    )
}

/// What one thing more costs: between two sizes of a call on a shape.
const SLOPES: [(&str, &str, Shape, usize, usize); 6] = [
    ("an empty frame", "root", Shape::Opened, 4, 64),
    ("a frame with a page that names none", "root", Shape::Leaves, 4, 16),
    ("a frame with a page of 15 words", "root", Shape::Full, 4, 16),
    ("a frame with a page of 15 marked words", "root", Shape::Marked, 4, 16),
    ("a stored page in link", "link", Shape::Full, 256, 4096),
    ("a stored page of one word in open", "open", Shape::Chain, 256, 4096),
];

/// A table of what one thing more costs, as far as there are rows for it.
fn slopes(figures: &[Figure]) -> String {
    let find = |label, shape, size| {
        let is_it = |row: &&Figure| row.label == label && row.shape == shape && row.size() == size;
        figures.iter().find(is_it).map(|row| row.times)
    };
    let mut text = String::new();
    for (thing, label, shape, from, to) in SLOPES {
        if let (Some(first), Some(last)) = (find(label, shape, from), find(label, shape, to)) {
            let each = |first: f64, last: f64| (last - first) / (to - from) as f64;
            let (library, baseline) =
                (each(first.library, last.library), each(first.baseline, last.baseline));
            let rows = format!("{label}, {}, {from} to {to}", shape.name());
            let _ = writeln!(text, "| {thing} | {library:.2} | {baseline:.2} | {rows} |");
        }
    }
    under("| one more | library, ns | baseline, ns | by the rows |\n|---|--:|--:|---|\n", text)
}

/// The shapes that there are rows of, and how many.
fn shapes(figures: &[Figure]) -> Vec<(Shape, usize)> {
    let rows = |shape| figures.iter().filter(|figure| figure.shape == shape).count();
    Shape::ALL.into_iter().map(|shape| (shape, rows(shape))).filter(|(_, rows)| *rows > 0).collect()
}

fn line(figure: &Figure, stack: usize, goal: &str) -> String {
    let times = figure.times;
    format!(
        "| {} | {} | {} | {} | {} | {} | {:.2} | {} | {:.2} | {stack} | {goal} |\n",
        figure.label,
        figure.shape.name(),
        figure.count,
        figure.pages,
        nanoseconds(times.library),
        nanoseconds(times.baseline),
        figure.ratio(),
        nanoseconds(times.copy),
        figure.ratio_without_copy(),
    )
}

fn nanoseconds(time: f64) -> String {
    format!("{time:.*}", usize::from(time < 100.0))
}

/// The stack that a call takes.
fn stack_of(call: &str, depths: &[Depth]) -> usize {
    depths.iter().find(|depth| depth.call == call).map_or(0, |depth| depth.bytes)
}

/// What of the goal a row misses and why, or that it is met.
fn goal(figure: &Figure, stack: usize, figures: &[Figure]) -> String {
    let tests = [
        (figure.ratio_without_copy() <= MOST, "1.10 without the copy"),
        (figure.count < 64 || figure.ratio() <= MOST, "1.10 at F = 64"),
        (!figure.whole_store() || figure.ratio() <= MOST_WHOLE_BUFFER, "1.00 for a whole buffer"),
        (stack < MOST_STACK, "stack"),
    ];
    let misses: Vec<&str> = tests.iter().filter(|(met, _)| !met).map(|(_, name)| *name).collect();
    if misses.is_empty() {
        MET.into()
    } else {
        format!("misses {}: {}", misses.join(", "), reason(figure, figures))
    }
}

/// Why a row misses: the copy and the call's fixed cost alone, without which it would keep to 1.10, or what else.
fn reason(figure: &Figure, figures: &[Figure]) -> &'static str {
    let Times { library, baseline, copy } = figure.times;
    match figure.grows {
        _ if library - copy - fixed_cost(figure.label, figures) <= MOST * baseline => "fixed cost",
        Grows::Frames => "pass over the frames",
        Grows::Pages => "pass over the store",
    }
}

/// What a call costs more than the baseline whatever the state, the copy apart: by the row with the fewest frames in which the
/// baseline has least to do.
fn fixed_cost(label: &str, figures: &[Figure]) -> f64 {
    let rows = figures.iter().filter(|figure| figure.label == label);
    let least = rows.min_by(|a, b| a.count.cmp(&b.count).then(a.times.baseline.total_cmp(&b.times.baseline)));
    least.map_or(0.0, |figure| figure.times.library - figure.times.copy - figure.times.baseline)
}

/// The machine's kind and load, as Linux tells them.
fn machine() -> String {
    let info = fs::read_to_string("/proc/cpuinfo").unwrap_or_default();
    let field = |name: &str| {
        let line = info.lines().find(|line| line.split(':').next().is_some_and(|key| key.trim() == name));
        line.and_then(|line| line.split(':').nth(1)).map_or("unknown", str::trim).to_string()
    };
    let cores = std::thread::available_parallelism().map_or(1, usize::from);
    let load = fs::read_to_string("/proc/loadavg").unwrap_or_default();
    format!(
        "{}, family {}, model {}, {cores} cores; load over the last minute {}.",
        field("model name"),
        field("cpu family"),
        field("model"),
        load.split(' ').next().unwrap_or("unknown")
    )
}
