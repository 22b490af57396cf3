//! The figures of four stores, and beside them those of one with as many pages.
use super::{nanoseconds, table, under};
use crate::asked::once;
use crate::rows::{beside, Figure, Grows};
use crate::stack::Depth;

pub fn text(figures: Vec<Figure>, depths: &[Depth]) -> String {
    let (one, four): (Vec<Figure>, Vec<Figure>) =
        figures.into_iter().partition(|figure| figure.shape.stores() == 1);
    let pairs: Vec<Pair> = four.iter().filter_map(|four| Pair::of(four, &one)).collect();
    table(&four, depths) + &costs(&pairs, Grows::Frames) + &costs(&pairs, Grows::Pages)
}

/// A row of four stores, and that of one store with as many pages.
struct Pair<'a> {
    four: &'a Figure,
    one: &'a Figure,
}

impl Pair<'_> {
    fn of<'a>(four: &'a Figure, one: &'a [Figure]) -> Option<Pair<'a>> {
        let (label, pages) = (beside(four.label)?, four.shape.stores() * four.pages);
        let is_it = |one: &&Figure| {
            (one.label, one.grows, one.count, one.pages) == (label, four.grows, four.count, pages)
        };
        one.iter().find(is_it).map(|one| Pair { four, one })
    }

    /// F, or the pages in all, whichever grows.
    fn size(&self) -> usize {
        self.one.size()
    }

    fn ratios(&self) -> [f64; 2] {
        let [one, four] = [self.one.times, self.four.times];
        [four.library / one.library, four.baseline / one.baseline]
    }
}

/// A table of what four stores take beside one: a line for a call, and the sizes side by side.
fn costs(pairs: &[Pair], grows: Grows) -> String {
    let pairs: Vec<&Pair> = pairs.iter().filter(|pair| pair.four.grows == grows).collect();
    let mut sizes: Vec<usize> = pairs.iter().map(|pair| pair.size()).collect();
    sizes.sort_unstable();
    sizes.dedup();
    let size = match grows {
        Grows::Frames => "F",
        Grows::Pages => "pages",
    };
    let names = sizes.iter().map(|at| format!(" one, {size} = {at} | four | ratio | baseline's |"));
    let head =
        format!("| library, ns |{}\n|---|{}\n", names.collect::<String>(), "--:|".repeat(4 * sizes.len()));
    let labels = once(pairs.iter().map(|pair| pair.four.label));
    let line = |label| {
        let cells = sizes.iter().map(|size| {
            let mut here = pairs.iter().filter(|pair| pair.four.label == label);
            cells(here.find(|pair| pair.size() == *size))
        });
        format!("| {label} |{}\n", cells.collect::<String>())
    };
    under(&head, labels.into_iter().map(line).collect())
}

fn cells(pair: Option<&&Pair>) -> String {
    let Some(pair) = pair else { return " | | | |".into() };
    let [one, four] = [pair.one, pair.four].map(|row| nanoseconds(row.times.library));
    let [library, baseline] = pair.ratios();
    format!(" {one} | {four} | {library:.2} | {baseline:.2} |")
}
