//! Cost against F and against N, and that of a recording against its length, as SVGs of small panels: one for a call and what it
//! meets, with a colour for each shape, or for a recording. Both axes are logarithmic, and the same in all panels of a kind: a
//! distance upwards is a ratio.
use crate::asked::once;
use crate::rows::{Figure, Grows};
use crate::tallies;
use pool_bench::recordings::Recording;
use pool_bench::shapes::Shape;
use std::fmt::Write;

const COLUMNS: usize = 4;
/// A panel with its margins, and the part that is drawn on.
const CELL: (f64, f64) = (250.0, 205.0);
const DRAWN: (f64, f64) = (174.0, 120.0);
/// Where that part begins in its cell.
const INSET: (f64, f64) = (62.0, 34.0);
/// What is above the panels: so many rows of the legend.
const HEAD_ROW: f64 = 22.0;
/// The colours of a row there.
const COLOURS: usize = 7;

fn colour(shape: Shape) -> &'static str {
    match shape {
        Shape::Full => "#1f5fa8",
        Shape::Leaves => "#2b8a3e",
        Shape::Opened => "#d9700b",
        Shape::Few => "#8e44ad",
        Shape::Chain => "#c2255c",
        Shape::Turned => "#495057",
        Shape::Marked => "#0c8599",
        Shape::Fours => "#b08900",
        Shape::OneChain => "#7a5c3e",
        Shape::Four | Shape::FourOpened => "#1f5fa8",
        Shape::One | Shape::OneOpened => "#d9700b",
    }
}

/// What a panel shows in one colour: at each size, nanoseconds a call of the library and of the baseline.
struct Curve {
    label: &'static str,
    colour: &'static str,
    points: Vec<(usize, [f64; 2])>,
}

/// The pool's calls.
pub fn of_pool(figures: &[Figure]) -> String {
    let kinds = [(Grows::Frames, "F, frames"), (Grows::Pages, "N, pages")];
    let scales = kinds.map(|(grows, axis)| {
        let figures: Vec<&Figure> = figures.iter().filter(|figure| figure.grows == grows).collect();
        let labels = once(figures.iter().map(|figure| figure.label));
        let each = labels.into_iter().flat_map(|label| Shape::ALL.map(|shape| (label, shape)));
        let curves = each.map(|(label, shape)| {
            let of_it = figures.iter().filter(|figure| figure.label == label && figure.shape == shape);
            let point = |figure: &&Figure| (figure.size(), [figure.times.library, figure.times.baseline]);
            Curve { label, colour: colour(shape), points: of_it.map(point).collect() }
        });
        Scale::new(axis, curves.collect())
    });
    let drawn = Shape::ALL.into_iter().filter(|shape| figures.iter().any(|figure| figure.shape == *shape));
    let shapes: Vec<(&str, &str)> = drawn.map(|shape| (shape.name(), colour(shape))).collect();
    svg(&scales, &shapes, "N = 256 where F grows, 16 with few pages; F = 16 where N grows")
}

/// A tally's add, by recording.
pub fn of_tally(figures: &[tallies::Figure]) -> String {
    let growing = Recording::ALL.into_iter().filter(|recording| recording.grows());
    let curves = growing.map(|recording| {
        let points = figures.iter().filter_map(|figure| match figure.added {
            Some(added) if added.recording == recording && !added.others => {
                Some((added.length, [figure.library, figure.baseline]))
            }
            _ => None,
        });
        Curve { label: recording.name(), colour: colour(Shape::Full), points: points.collect() }
    });
    svg(&[Scale::new("references", curves.collect())], &[], "add of one recording")
}

/// The panels under the legend: what the colours stand for, and what else is to be said.
fn svg(scales: &[Scale], colours: &[(&str, &str)], note: &str) -> String {
    let (mut panels, mut cell) = (String::new(), 0);
    let rows = 1 + colours.len().div_ceil(COLOURS);
    let (head, legend) = (22.0 + HEAD_ROW * rows as f64, legend(colours, note));
    for scale in scales {
        for label in once(scale.curves.iter().map(|curve| curve.label)) {
            let corner = (CELL.0 * (cell % COLUMNS) as f64, head + CELL.1 * (cell / COLUMNS) as f64);
            panels += &Panel { corner, label, scale }.drawn();
            cell += 1;
        }
        cell = cell.next_multiple_of(COLUMNS);
    }
    let (width, height) = (CELL.0 * COLUMNS as f64, head + CELL.1 * (cell / COLUMNS) as f64);
    format!(
        "<svg xmlns=\"http://www.w3.org/2000/svg\" viewBox=\"0 0 {width} {height}\" font-family=\"sans-serif\" \
         font-size=\"11\">\n<rect width=\"100%\" height=\"100%\" fill=\"white\"/>\n{legend}{panels}</svg>\n"
    )
}

/// What the colours and the lines stand for, and what else is to be said.
fn legend(colours: &[(&str, &str)], note: &str) -> String {
    let mut out = String::new();
    for (place, (name, colour)) in colours.iter().enumerate() {
        let x = 62.0 + 130.0 * (place % COLOURS) as f64;
        let y = 20.0 + HEAD_ROW * (place / COLOURS) as f64;
        let _ = writeln!(out, "<circle cx=\"{x}\" cy=\"{y}\" r=\"4\" fill=\"{colour}\"/>");
        let _ = writeln!(out, "<text x=\"{}\" y=\"{}\" font-size=\"12\">{name}</text>", x + 10.0, y + 4.0);
    }
    let y = 20.0 + HEAD_ROW * colours.len().div_ceil(COLOURS) as f64;
    for (x, name, dash) in [(62.0, "library", ""), (192.0, "baseline", DASH)] {
        let _ = writeln!(out, "<path d=\"M{x} {y}h34\" stroke=\"black\" stroke-width=\"1.5\"{dash}/>");
        let _ = writeln!(out, "<text x=\"{}\" y=\"{}\" font-size=\"12\">{name}</text>", x + 42.0, y + 4.0);
    }
    let _ = writeln!(out, "<text x=\"322\" y=\"{}\" font-size=\"12\" fill=\"#555\">{note}</text>", y + 4.0);
    out
}

const DASH: &str = " stroke-dasharray=\"3 2.5\"";

/// The axes that panels of a kind share, and what is drawn on them.
struct Scale {
    axis: &'static str,
    curves: Vec<Curve>,
    sizes: Vec<usize>,
    costs: (f64, f64),
}

impl Scale {
    fn new(axis: &'static str, mut curves: Vec<Curve>) -> Scale {
        curves.retain(|curve| !curve.points.is_empty());
        let points = || curves.iter().flat_map(|curve| &curve.points);
        let mut sizes: Vec<usize> = points().map(|(size, _)| *size).collect();
        sizes.sort_unstable();
        sizes.dedup();
        let (least, most) = points()
            .flat_map(|(_, costs)| costs)
            .fold((f64::MAX, 1.0), |(least, most): (f64, f64), cost| (cost.min(least), cost.max(most)));
        Scale { axis, sizes, costs: (least.max(1.0) * 0.85, most * 1.15), curves }
    }

    /// Costs that are marked: 1, 2 and 5 times each power of ten, or only the powers where that is too many.
    fn marks(&self) -> Vec<f64> {
        let digits: &[f64] = if self.costs.1 / self.costs.0 < 100.0 { &[1.0, 2.0, 5.0] } else { &[1.0] };
        let marks = (0..7).flat_map(|power| digits.iter().map(move |digit| digit * 10f64.powi(power)));
        marks.filter(|cost| (self.costs.0..=self.costs.1).contains(cost)).collect()
    }
}

struct Panel<'a> {
    corner: (f64, f64),
    label: &'static str,
    scale: &'a Scale,
}

impl Panel<'_> {
    fn drawn(&self) -> String {
        let mut out = self.axes();
        for curve in self.scale.curves.iter().filter(|curve| curve.label == self.label) {
            out += &self.line(curve, DASH, |[_, baseline]| baseline);
            out += &self.line(curve, "", |[library, _]| library);
        }
        out
    }

    fn line(&self, curve: &Curve, dash: &str, cost: fn([f64; 2]) -> f64) -> String {
        let Curve { colour, points, .. } = curve;
        let (mut path, mut dots) = (String::new(), String::new());
        for (size, costs) in points {
            let (x, y) = (self.x(*size), self.y(cost(*costs)));
            let _ = write!(path, "{x:.1},{y:.1} ");
            let fill = if dash.is_empty() { colour } else { "white" };
            let _ = writeln!(
                dots,
                "<circle cx=\"{x:.1}\" cy=\"{y:.1}\" r=\"2.2\" fill=\"{fill}\" stroke=\"{colour}\"/>"
            );
        }
        format!(
            "<polyline points=\"{path}\" fill=\"none\" stroke=\"{colour}\" stroke-width=\"1.4\"{dash}/>\n{dots}"
        )
    }

    /// The title, and the axes with their names and marks.
    fn axes(&self) -> String {
        let (left, top) = (self.corner.0 + INSET.0, self.corner.1 + INSET.1);
        let (right, bottom) = (left + DRAWN.0, top + DRAWN.1);
        let mut out = format!(
            "<text x=\"{left}\" y=\"{}\" font-size=\"12.5\" font-weight=\"bold\">{}</text>\n",
            top - 10.0,
            self.label
        );
        for cost in self.scale.marks() {
            let y = self.y(cost);
            let _ = writeln!(out, "<path d=\"M{left} {y:.1}H{right}\" stroke=\"#e3e3e3\"/>");
            let _ = writeln!(
                out,
                "<text x=\"{}\" y=\"{:.1}\" text-anchor=\"end\">{}</text>",
                left - 6.0,
                y + 4.0,
                grouped(cost)
            );
        }
        for size in &self.scale.sizes {
            let x = self.x(*size);
            let _ = writeln!(out, "<path d=\"M{x:.1} {bottom}v4\" stroke=\"black\"/>");
            let _ = writeln!(
                out,
                "<text x=\"{x:.1}\" y=\"{}\" text-anchor=\"middle\">{}</text>",
                bottom + 16.0,
                grouped(*size as f64)
            );
        }
        let _ = writeln!(out, "<path d=\"M{left} {top}V{bottom}H{right}\" fill=\"none\" stroke=\"black\"/>");
        let (middle, below) = ((left + right) / 2.0, bottom + 31.0);
        let _ = writeln!(
            out,
            "<text x=\"{middle}\" y=\"{below}\" text-anchor=\"middle\" fill=\"#555\">{}</text>",
            self.scale.axis
        );
        let (x, y) = (self.corner.0 + 16.0, (top + bottom) / 2.0);
        let _ = writeln!(
            out,
            "<text x=\"{x}\" y=\"{y}\" text-anchor=\"middle\" fill=\"#555\" transform=\"rotate(-90 {x} {y})\">ns a call</text>"
        );
        out
    }

    fn x(&self, size: usize) -> f64 {
        let (least, most) = (self.scale.sizes[0] as f64, self.scale.sizes[self.scale.sizes.len() - 1] as f64);
        // Some room on both sides, so that no point lies on the axis.
        self.corner.0 + INSET.0 + DRAWN.0 * (0.06 + 0.88 * share((least, most), size as f64))
    }

    fn y(&self, cost: f64) -> f64 {
        self.corner.1 + INSET.1 + DRAWN.1 * (1.0 - share(self.scale.costs, cost))
    }
}

/// How far a value lies along a logarithmic range.
fn share((least, most): (f64, f64), value: f64) -> f64 {
    (value.max(least) / least).ln() / (most / least).ln()
}

/// A whole number with its thousands apart.
fn grouped(number: f64) -> String {
    match number as u64 {
        number if number < 1000 => number.to_string(),
        number => format!("{},{:03}", number / 1000, number % 1000),
    }
}
