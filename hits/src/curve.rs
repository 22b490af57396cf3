//! The curve of hits against frames, as a picture for a slide.
use crate::axis::{Axis, Scale, LONGEST};
use crate::figures::{grouped, per_cent, several};
use crate::report;
use crate::svg::{dot, group, line, text};
use pagepool::{Share, Tally, DEPTHS};
use std::cmp::Reverse;
use std::fmt::Write;

/// The most sizes that can be marked: each has a row beside the curve.
pub const MOST_MARKED: usize = 12;

const TITLE: &str = "Hits by number of frames";
const CACHE: &str =
    "A flat cache without pins, replacing the least recently used page, empty at each recording's start";

const WIDTH: f64 = 960.0;
const HEIGHT: f64 = 540.0;
/// The sides of the part that is drawn on; the right one where rows stand beside it, and where none do.
const LEFT: f64 = 92.0;
const TOP: f64 = 112.0;
const BOTTOM: f64 = 438.0;
const RIGHT: [f64; 2] = [744.0, 928.0];
/// Where the columns of the rows end, frames and hits; how far a row is from the next, and how wide a sign in it may be; and the
/// width in which a line bends to its row.
const COLUMNS: [f64; 2] = [852.0, 932.0];
const ROW: f64 = 20.0;
const SIGN: f64 = 10.0;
const BEND: f64 = 14.0;

/// Attributes of words, lines and dots.
const HEAD: &str = "font-size=\"26\" font-weight=\"bold\"";
const PALE: &str = "fill=\"#495057\"";
const SOURCE: &str = "font-size=\"13\" fill=\"#495057\"";
const AXIS_NAME: &str = "font-size=\"15\" text-anchor=\"middle\"";
const GRID: &str = "stroke=\"#e3e6e8\"";
const AXIS: &str = "stroke=\"#212529\" stroke-width=\"1.2\"";
const LEVEL: &str = "stroke=\"#2b8a3e\" stroke-width=\"1.4\" stroke-dasharray=\"7 4\"";
const LEVEL_NAME: &str = "fill=\"#226e31\" stroke=\"white\" stroke-width=\"4\" paint-order=\"stroke\"";
const CURVE: &str = "class=\"curve\" stroke=\"#1f5fa8\" stroke-width=\"3\" stroke-linejoin=\"round\"";
const GUIDE: &str = "stroke=\"#868e96\" stroke-dasharray=\"2 3\"";
const DOT: &str = "fill=\"#c2410c\" stroke=\"white\" stroke-width=\"1.5\"";

/// The sizes that are marked where these are asked for: each once, falling. One above the longest axis stands for all that are.
pub fn marked(sizes: &[u64]) -> Vec<u64> {
    let mut sizes: Vec<u64> = sizes.iter().map(|size| *size.min(&(LONGEST + 1))).collect();
    sizes.sort_unstable_by_key(|size| Reverse(*size));
    sizes.dedup();
    sizes
}

/// The curve of a tally, with the sizes marked.
pub fn drawn(tally: &Tally, sizes: &[u64]) -> String {
    let curve = Curve::new(tally, sizes);
    let parts = [
        curve.words(),
        curve.hits_axis(),
        curve.frames_axis(),
        curve.guides(),
        curve.level(),
        curve.line(),
        curve.marks(),
    ];
    format!(
        "<svg xmlns=\"http://www.w3.org/2000/svg\" viewBox=\"0 0 {WIDTH} {HEIGHT}\" width=\"{WIDTH}\" height=\"{HEIGHT}\" \
         role=\"img\" aria-labelledby=\"hits-title hits-description\" font-family=\"Helvetica, Arial, sans-serif\" font-size=\"14\" \
         fill=\"#212529\">\n{}</svg>\n",
        parts.concat()
    )
}

struct Curve<'a> {
    tally: &'a Tally,
    axis: Axis,
    right: f64,
    marks: Vec<Mark>,
}

/// A size that is marked.
struct Mark {
    size: u64,
    share: Share,
    /// Where it stands on the curve.
    place: (f64, f64),
    /// The height of its row.
    row: f64,
}

impl<'a> Curve<'a> {
    fn new(tally: &'a Tally, sizes: &[u64]) -> Curve<'a> {
        let sizes = marked(sizes);
        let axis = Axis::past(sizes.iter().copied().fold(report::level(tally).into(), u64::max));
        let right = RIGHT[usize::from(sizes.is_empty())];
        let mut curve = Curve { tally, axis, right, marks: Vec::new() };
        curve.marks = sizes.into_iter().map(|size| curve.mark(size)).collect();
        spread(&mut curve.marks);
        curve
    }

    /// The mark of a size, its row beside it.
    fn mark(&self, size: u64) -> Mark {
        let share = self.tally.share(size);
        let place = (self.x(size), self.height(share));
        Mark { size, share, place, row: place.1 }
    }

    fn x(&self, frames: u64) -> f64 {
        LEFT + (self.right - LEFT) * self.axis.place(frames)
    }

    /// The height of a share, from 0 to 1.
    fn y(&self, share: f64) -> f64 {
        BOTTOM - (BOTTOM - TOP) * share
    }

    /// The height of a cache's hits.
    fn height(&self, Share { within, all }: Share) -> f64 {
        self.y(within as f64 / all.max(1) as f64)
    }

    /// The title, what is drawn, and where it comes from.
    fn words(&self) -> String {
        let [read, level] = report::summary(self.tally);
        let mark = |mark: &Mark| format!(" {}: {}.", frames(mark.size), shown(mark.share));
        let marks: String = self.marks.iter().rev().map(mark).collect();
        let description = format!("{CACHE}. {read}; {level}.{marks}");
        [
            format!("<title id=\"hits-title\">{TITLE}</title>\n<desc id=\"hits-description\">{description}</desc>\n"),
            "<rect width=\"100%\" height=\"100%\" fill=\"white\"/>\n".to_string(),
            text((LEFT, 44.0), HEAD, TITLE),
            text((LEFT, 70.0), PALE, CACHE),
            text((LEFT, HEIGHT - 20.0), SOURCE, &read),
        ]
        .concat()
    }

    fn hits_axis(&self) -> String {
        let ticks = (0..=5).flat_map(|fifth| {
            let y = self.y(f64::from(fifth) / 5.0);
            [
                line(&format!("M{LEFT} {y:.3}H{}", self.right), GRID),
                text((LEFT - 10.0, y + 5.0), "text-anchor=\"end\"", &format!("{}%", 20 * fifth)),
            ]
        });
        let (x, y) = (30.0, (TOP + BOTTOM) / 2.0);
        let turned = format!("{AXIS_NAME} transform=\"rotate(-90 {x} {y})\"");
        group("hits", ticks.chain([text((x, y), &turned, "references that hit, per cent of all")]))
    }

    fn frames_axis(&self) -> String {
        let ticks = self.axis.ticks().into_iter().flat_map(|tick| {
            let x = self.x(tick);
            [
                line(&format!("M{x:.3} {BOTTOM}v6"), AXIS),
                text((x, BOTTOM + 23.0), "text-anchor=\"middle\"", &grouped(tick)),
            ]
        });
        let name = match self.axis.scale() {
            Scale::Linear { .. } => "frames",
            Scale::Logarithmic => "frames (logarithmic scale)",
        };
        let axes = line(&format!("M{LEFT} {TOP}V{BOTTOM}H{}", self.right), AXIS);
        let named = text(((LEFT + self.right) / 2.0, BOTTOM + 48.0), AXIS_NAME, name);
        group("frames", ticks.chain([axes, named]))
    }

    /// Where the curve is level, since a first reference never hits.
    fn level(&self) -> String {
        let most = self.tally.share(DEPTHS as u64);
        let y = self.height(most);
        let name = match report::level(self.tally) {
            0 => "no cache hits: no page comes twice in its recording".to_string(),
            frames => format!(
                "level at {}, from {} on: first references never hit",
                shown(most),
                several(frames, "frame")
            ),
        };
        group(
            "level",
            [
                line(&format!("M{LEFT} {y:.3}H{}", self.right), LEVEL),
                text((LEFT + 10.0, y - 8.0), LEVEL_NAME, &name),
            ],
        )
    }

    /// A step up wherever a frame more hits more.
    fn line(&self) -> String {
        let mut path = format!("M{LEFT} {BOTTOM}");
        for row in self.tally.report().iter().filter(|row| row.references > 0) {
            let share = Share { within: row.hits, all: self.tally.references().into() };
            let _ = write!(path, "H{:.3}V{:.3}", self.x(row.depth.into()), self.height(share));
        }
        line(&format!("{path}H{}", self.right), CURVE)
    }

    /// A line from each marked size up to the curve, and on to its row.
    fn guides(&self) -> String {
        let bent = self.right + BEND;
        let guide = |mark: &Mark| {
            let ((x, y), row) = (mark.place, mark.row);
            let end = bent.max(COLUMNS[0] - SIGN * named(mark.size).len() as f64 - 4.0);
            line(&format!("M{x:.3} {BOTTOM}V{y:.3}H{}L{bent} {row:.3}H{end}", self.right), GUIDE)
        };
        group("guides", self.marks.iter().map(guide))
    }

    /// A dot on the curve for each marked size, and its share in a row.
    fn marks(&self) -> String {
        let at_end = |extra: &str| format!("text-anchor=\"end\" {extra}");
        let mark = |mark: &Mark| {
            let y = mark.row + 5.0;
            [
                dot(mark.place, 5.5, DOT),
                text((COLUMNS[0], y), &at_end(""), &named(mark.size)),
                text((COLUMNS[1], y), &at_end("font-weight=\"bold\""), &shown(mark.share)),
            ]
        };
        let heads = COLUMNS.into_iter().zip(["frames", "hits"]).filter(|_| !self.marks.is_empty());
        let heads = heads.map(|(x, head)| text((x, TOP - 20.0), &at_end(PALE), head));
        group("marks", self.marks.iter().flat_map(mark).chain(heads))
    }
}

/// Moves rows apart that would overlap: down as far as there is room, and then up. They come from the top on.
fn spread(marks: &mut [Mark]) {
    let mut least = TOP;
    for mark in marks.iter_mut() {
        mark.row = mark.row.max(least);
        least = mark.row + ROW;
    }
    let mut most = BOTTOM;
    for mark in marks.iter_mut().rev() {
        mark.row = mark.row.min(most);
        most = mark.row - ROW;
    }
}

/// A size as a row names it.
fn named(size: u64) -> String {
    match size {
        size if size > LONGEST => format!("over {}", grouped(LONGEST)),
        size => grouped(size),
    }
}

fn frames(size: u64) -> String {
    let noun = if size == 1 { "frame" } else { "frames" };
    format!("{} {noun}", named(size))
}

fn shown(Share { within, all }: Share) -> String {
    per_cent(within, all)
}
