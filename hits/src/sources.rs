//! The recordings of files, added to a tally, and what is wrong with those that it doesn't take.
use crate::arguments::{Form, Source};
use crate::calls::{self, Fault};
use crate::pages::{Line, Lines};
use crate::refused;
use pagepool::{Refusal, Tally};
use std::fs::File;
use std::io::{self, BufRead, BufReader, Read};
use words::recording;

/// The most faults that are named.
pub const MOST_NAMED: usize = 10;

/// What a text is, for a file that is none.
const HINT: &str = "a text has a recording a line: page numbers with blanks between them. # starts a comment, and a line with a \
                    comment alone is no recording; an empty line is one without pages: take it out. The text is ASCII or UTF-8. \
                    Recordings of calls stand behind --calls";

/// What helps where it stands behind --calls.
const CALLS_HINT: &str = "texts of page numbers stand in front of --calls";

/// The bytes that are read at a time.
const BLOCK: usize = 1 << 17;

/// The tally of all recordings in the sources; `listing` is the command that lists calls. The error names the faults, by file and
/// line: then nothing counts, since figures that leave a recording out aren't those of the files.
pub fn tally(sources: &[Source], listing: &str) -> Result<Tally, Vec<String>> {
    let mut adding =
        Adding { tally: Tally::new(), faults: Vec::new(), is_odd: false, has_other_lines: false };
    for source in sources {
        if !adding.is_cut() {
            adding.source(source, listing);
        }
    }
    match adding.faults[..] {
        [] => Ok(adding.tally),
        _ => Err(adding.told()),
    }
}

struct Adding {
    tally: Tally,
    faults: Vec<String>,
    /// Whether a line is empty or has other words: then the file may be something else.
    is_odd: bool,
    /// Whether a recording of calls has a line that is none: then the file may be a text.
    has_other_lines: bool,
}

impl Adding {
    fn is_cut(&self) -> bool {
        self.faults.len() >= MOST_NAMED
    }

    fn source(&mut self, source: &Source, listing: &str) {
        let name = if source.file == "-" { "standard input" } else { &source.file };
        let added = opened(&source.file).and_then(|input| match source.form {
            Form::Pages => self.lines(name, input),
            Form::Calls => self.calls(name, input, listing),
        });
        self.faults.extend(added.err().map(|error| format!("{name}: {error}")));
    }

    /// A text, a recording a line.
    fn lines(&mut self, name: &str, input: impl BufRead) -> io::Result<()> {
        let before = (self.tally.recordings(), self.faults.len());
        let mut lines = Lines::new(input);
        while !self.is_cut() {
            let why = match lines.read()? {
                None => break,
                Some(Line::Comment) => continue,
                Some(Line::Other(why)) => {
                    self.is_odd = true;
                    why
                }
                Some(Line::Recording(pages)) => match self.tally.add(pages) {
                    Ok(()) => continue,
                    Err(Refusal::BadPage) => {
                        let place = refused::place(pages);
                        refused::page(place, &lines.word(place))
                    }
                    Err(rule) => {
                        self.is_odd |= pages.is_empty();
                        refused::length(rule, pages.len(), ["page", "pages"])
                    }
                },
            };
            self.faults.push(format!("{name}, line {}: {why}", lines.number()));
        }
        if before == (self.tally.recordings(), self.faults.len()) {
            self.faults.push(format!("{name}: no recording"));
        }
        Ok(())
    }

    /// A recording of calls.
    fn calls(&mut self, name: &str, mut input: impl Read, listing: &str) -> io::Result<()> {
        let mut bytes = Vec::new();
        input.read_to_end(&mut bytes)?;
        match calls::pages(listing, &bytes) {
            Ok(pages) => self.fixes(name, &pages),
            Err(Fault::Whole(why)) => self.faults.push(format!("{name}: {why}")),
            Err(Fault::Lines(why)) => {
                self.has_other_lines = true;
                self.name(name, why);
            }
            Err(Fault::Calls(why)) => self.name(name, why),
        }
        Ok(())
    }

    /// The pages of its accepted fixes.
    fn fixes(&mut self, name: &str, pages: &[u16]) {
        if let Err(rule) = self.tally.add(pages) {
            let why = refused::length(rule, pages.len(), ["accepted fix", "accepted fixes"]);
            let hint = if pages.is_empty() { " (./replay tells each call)" } else { "" };
            self.faults.push(format!("{name}: {why}{hint}"));
        }
    }

    /// Names the faults of places in a file, as many as are named.
    fn name(&mut self, name: &str, faults: Vec<String>) {
        let named = faults.into_iter().take(MOST_NAMED - self.faults.len());
        self.faults.extend(named.map(|why| format!("{name}, {why}")));
    }

    /// The faults, and what helps.
    fn told(self) -> Vec<String> {
        let cut = format!("these are the first {MOST_NAMED} faults; there may be more");
        let more = [
            self.is_cut().then_some(cut),
            self.is_odd.then(|| HINT.to_string()),
            self.has_other_lines.then(recording::hint),
            self.has_other_lines.then(|| CALLS_HINT.to_string()),
            Some(
                "nothing is reported: figures that leave a recording out aren't those of the files"
                    .to_string(),
            ),
        ];
        self.faults.into_iter().chain(more.into_iter().flatten()).collect()
    }
}

fn opened(file: &str) -> io::Result<Box<dyn BufRead>> {
    Ok(match file {
        "-" => Box::new(BufReader::with_capacity(BLOCK, io::stdin())),
        _ => Box::new(BufReader::with_capacity(BLOCK, File::open(file)?)),
    })
}
