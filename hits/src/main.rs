//! The command ./sizing. Ends with 1 where output was lost, with 2 where nothing was reported.
use hits::arguments::Arguments;
use hits::{curve, report, sources};
use pagepool::Tally;
use std::fs::{self, File};
use std::io::{self, Write};
use std::os::fd::AsFd;
use std::os::unix::fs::MetadataExt;
use std::process::ExitCode;

/// Why nothing was reported, or which output was lost.
enum Fault {
    Bad(Vec<String>),
    Lost(Vec<String>),
}

fn main() -> ExitCode {
    let (said, status) = match run() {
        Ok(summary) => (summary, 0),
        Err(Fault::Lost(why)) => (why, 1),
        Err(Fault::Bad(why)) => (why, 2),
    };
    for line in said {
        // where that can't be written, the status still tells
        let _ = writeln!(io::stderr(), "sizing: {line}");
    }
    ExitCode::from(status)
}

/// Reads, prints and draws; what is left to say is a summary.
fn run() -> Result<Vec<String>, Fault> {
    let words = std::env::args_os().skip(1).map(|word| word.into_string());
    let words: Vec<String> = words
        .collect::<Result<_, _>>()
        .map_err(|word| bad(format!("'{}' is no text in UTF-8", word.display())))?;
    let [listing, words @ ..] = &words[..] else {
        return Err(bad("the command that lists calls has to come first: run ./sizing"));
    };
    let asked = Arguments::read(words).map_err(bad)?;
    if let Some(file) =
        asked.curve.iter().find(|file| asked.sources.iter().any(|source| is_same(file, &source.file)))
    {
        return Err(bad(format!("{file} is a recording, and --svg would write over it")));
    }
    let tally = sources::tally(&asked.sources, listing).map_err(Fault::Bad)?;
    let lost = [print(&tally, &asked), draw(&tally, &asked)].into_iter().filter_map(Result::err);
    match lost.collect::<Vec<_>>() {
        lost if lost.is_empty() => Ok(report::summary(&tally).to_vec()),
        lost => Err(Fault::Lost(lost)),
    }
}

/// Whether the curve would be written over a recording, by whatever names.
fn is_same(curve: &str, recording: &str) -> bool {
    place(curve).is_some_and(|curve| place(recording) == Some(curve))
}

/// The device and the number of a file, `-` for standard input; none for what is no file, as a terminal or a pipe.
fn place(name: &str) -> Option<(u64, u64)> {
    let known = match name {
        "-" => File::from(io::stdin().as_fd().try_clone_to_owned().ok()?).metadata(),
        _ => fs::metadata(name),
    };
    known.ok().filter(|known| known.is_file()).map(|known| (known.dev(), known.ino()))
}

fn bad(why: impl Into<String>) -> Fault {
    Fault::Bad(vec![why.into()])
}

/// Prints the depths and the shares.
fn print(tally: &Tally, asked: &Arguments) -> Result<(), String> {
    let depths = if asked.depths { report::depths(tally) } else { String::new() };
    let lines = depths + &report::shares(tally, &asked.sizes);
    let mut out = io::stdout().lock();
    let written = out.write_all(lines.as_bytes()).and_then(|()| out.flush());
    written.map_err(|error| format!("output was lost: {error}"))
}

/// Draws the curve, where one is asked for.
fn draw(tally: &Tally, asked: &Arguments) -> Result<(), String> {
    let Some(file) = &asked.curve else { return Ok(()) };
    let written = fs::write(file, curve::drawn(tally, &asked.sizes));
    written.map_err(|error| format!("the curve was lost: {file}: {error}"))
}
