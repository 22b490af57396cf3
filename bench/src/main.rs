//! Times each call of the proved library and of the baseline, or one of them, and measures the library's stack; and times the forms
//! of counting depths and of the directory's test. `--write` puts the figures into docs/PERFORMANCE.md and the plots beside it.
mod asked;
mod boundary;
mod calls;
mod compare;
mod contest;
mod plot;
mod report;
mod rows;
mod stack;
mod tallies;
mod timing;

use asked::{once, Asked};
use pool_bench::shapes::Shape;
use report::Part;
use rows::{OF_ONE_STORE, OF_SEVERAL_STORES};
use std::path::Path;
use std::process::ExitCode;
use std::{env, fs, io};

/// Passes over all rows, so that a busy moment of the machine falls on a few batches of each; fewer in a round of a comparison.
const PASSES: u32 = 12;
const PASSES_OF_A_ROUND: u32 = 5;

const DOCS: &str = concat!(env!("CARGO_MANIFEST_DIR"), "/../docs");

const USAGE: &str = "\
usage: pool-bench [CALL]                   print the tables, or the rows of one call
       pool-bench --forms                  print the forms of counting depths, and of the directory's test, side by side
       pool-bench --write [PART]           put them into docs/, or one part: pool, stores, tally or forms
       pool-bench --check FOLDER           put them into another folder, after one pass, and print nothing
       pool-bench --figures [CALL]..       print a round of a comparison
       pool-bench --compare A B [CALL]..   print the table of two programs; -CALL leaves rows out
";

fn main() -> io::Result<ExitCode> {
    let words: Vec<String> = env::args().skip(1).collect();
    let words: Vec<&str> = words.iter().map(String::as_str).collect();
    let asked = match &words[..] {
        ["--figures", calls @ ..] | ["--compare", _, _, calls @ ..] => Asked(calls),
        ["--forms"] | ["--write"] | ["--check", _] => Asked::ALL,
        ["--write", part] if part_of(part).is_some() => Asked::ALL,
        calls @ ([] | [_]) if !calls.iter().any(|call| call.starts_with('-')) => Asked(calls),
        _ => return Ok(refused(USAGE)),
    };
    if !labels().any(|label| asked.has(label)) {
        let calls = once(labels().filter_map(|label| label.split(',').next())).join(", ");
        return Ok(refused(&format!("no row for '{}'; the calls are {calls}\n", asked.0.join(" "))));
    }
    match words[..] {
        ["--forms"] => print!("{}", Part::Forms.measured(&asked, PASSES).text),
        ["--write"] => print!("{}", write(Path::new(DOCS), &Part::ALL, PASSES)?),
        ["--write", part] => {
            let parts: Vec<Part> = part_of(part).into_iter().collect();
            print!("{}", write(Path::new(DOCS), &parts, PASSES)?);
        }
        ["--check", folder] => check(Path::new(folder))?,
        ["--figures", ..] => print!("{}", round(&asked)),
        ["--compare", a, b, ..] => print!("{}", compare::text([a, b], asked.0)?),
        _ => print!("{}", tables(&asked)),
    }
    Ok(ExitCode::SUCCESS)
}

fn refused(why: &str) -> ExitCode {
    eprint!("{why}");
    ExitCode::from(2)
}

fn part_of(name: &str) -> Option<Part> {
    Part::ALL.into_iter().find(|part| part.name() == name)
}

/// How rows begin, all of them.
fn labels() -> impl Iterator<Item = &'static str> {
    let pool = [&OF_ONE_STORE[..], &OF_SEVERAL_STORES].into_iter().flat_map(rows::labels);
    pool.chain(tallies::labels())
}

/// What is printed of a part, and its plot, by the file's name.
struct Measured {
    text: String,
    plot: Option<(&'static str, String)>,
}

impl Part {
    fn measured(self, asked: &Asked, passes: u32) -> Measured {
        match self {
            Part::Pool => {
                let figures = rows::measured(&OF_ONE_STORE, asked, passes);
                let text = report::text(&figures, &stack::measured(Shape::Full));
                Measured { text, plot: Some(("performance.svg", plot::of_pool(&figures))) }
            }
            Part::Stores => {
                let figures = rows::measured(&OF_SEVERAL_STORES, asked, passes);
                Measured { text: report::stores::text(figures, &stack::measured(Shape::Four)), plot: None }
            }
            Part::Tally => {
                let figures = tallies::measured(asked, passes);
                let text = report::tally::text(&figures, &stack::measured_on_a_tally());
                Measured { text, plot: Some(("performance-tally.svg", plot::of_tally(&figures))) }
            }
            Part::Forms => {
                let depths = report::forms::text(&contest::measured(passes));
                let text = depths + &report::forms::chains_text(&contest::tested(passes));
                Measured { text, plot: None }
            }
        }
    }
}

/// The tables that have rows which are asked for.
fn tables(asked: &Asked) -> String {
    let mut parts = Vec::new();
    let mut add = |part, has: bool| parts.extend(has.then_some(part));
    add(Part::Pool, rows::labels(&OF_ONE_STORE).any(|label| asked.has(label)));
    add(Part::Stores, rows::labels(&OF_SEVERAL_STORES).any(|label| asked.has(label)));
    add(Part::Tally, tallies::labels().any(|label| asked.has(label)));
    let texts: Vec<String> = parts.into_iter().map(|part| part.measured(asked, PASSES).text).collect();
    texts.join("\n")
}

fn round(asked: &Asked) -> String {
    let mut of_pool = rows::measured(&OF_ONE_STORE, asked, PASSES_OF_A_ROUND);
    of_pool.extend(rows::measured(&OF_SEVERAL_STORES, asked, PASSES_OF_A_ROUND));
    compare::lines(&of_pool, &tallies::measured(asked, PASSES_OF_A_ROUND))
}

/// Puts the figures of so many passes into a folder's page and plots. Gives the tables.
fn write(folder: &Path, parts: &[Part], passes: u32) -> io::Result<String> {
    let (page, mut texts) = (folder.join("PERFORMANCE.md"), Vec::new());
    for part in parts {
        let Measured { text, plot } = part.measured(&Asked::ALL, passes);
        fs::write(&page, part.filled(&fs::read_to_string(&page)?, &text))?;
        if let Some((name, drawn)) = plot {
            fs::write(folder.join(name), drawn)?;
        }
        texts.push(text);
    }
    Ok(texts.join("\n"))
}

/// All that `--write` does, in one pass and on a copy of the page: the figures aren't worth anything.
fn check(folder: &Path) -> io::Result<()> {
    fs::create_dir_all(folder)?;
    fs::copy(Path::new(DOCS).join("PERFORMANCE.md"), folder.join("PERFORMANCE.md"))?;
    write(folder, &Part::ALL, 1).map(|_| ())
}
