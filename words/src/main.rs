//! Calls in words, at the command line. Ends with 1 where output was lost, with 2 where the input or the command is bad.
use std::fs;
use std::io::{self, BufRead, Read, Write};
use std::process::ExitCode;
use words::record::{records_of, SIZE};
use words::replay::Replay;
use words::rules::Table;
use words::{line, listing, recording, refusal};

const USAGE: &str = "\
usage: words replay LISTING FILE   each call of a recording in words, its answer, and where it was refused the rule and what helps;
                                   LISTING is the command that lists it, ./listing; FILE has words or records, - is standard input
       words records               lines of words to the listing's records
       words lines                 records to lines of words
       words explain               the lines of a listing, with the rule behind each refusal
       words rule N                what rule N is
       words forms                 what a recording is
All but replay go from standard input to standard output.";

enum Fault {
    /// Output that nobody got.
    Lost(String),
    /// Input or a command that makes no sense.
    Bad(String),
}

type Outcome = Result<(), Fault>;

fn main() -> ExitCode {
    let arguments: Vec<String> = std::env::args().skip(1).collect();
    let words: Vec<&str> = arguments.iter().map(String::as_str).collect();
    let table = Table::standing();
    let done = match words[..] {
        ["replay", listing, file] => replay(table, listing, file),
        ["records"] => records(),
        ["lines"] => lines(),
        ["explain"] => explain(&table),
        ["rule", number] => refusal::meaning(&table, number)
            .map_err(Fault::Bad)
            .and_then(|rule| print(&format!("{number}: {rule}\n{}", refusal::of_tally(&table, number)))),
        ["forms"] => print(&(recording::hint() + "\n")),
        ["--help" | "-h" | "help"] => print(&format!("{USAGE}\n\n{}\n", recording::hint())),
        _ => Err(Fault::Bad(USAGE.to_string())),
    };
    let (why, status) = match done {
        Ok(()) => return ExitCode::SUCCESS,
        Err(Fault::Lost(why)) => (why, 1),
        Err(Fault::Bad(why)) => (why, 2),
    };
    say(&why);
    ExitCode::from(status)
}

/// Says something on standard error. Where that can't be written, the status still tells.
fn say(words: &str) {
    let _ = writeln!(io::stderr(), "{words}");
}

fn bad(error: impl ToString) -> Fault {
    Fault::Bad(error.to_string())
}

fn write(bytes: &[u8]) -> Outcome {
    let mut out = io::stdout().lock();
    out.write_all(bytes)
        .and_then(|()| out.flush())
        .map_err(|error| Fault::Lost(format!("output was lost: {error}")))
}

fn print(text: &str) -> Outcome {
    write(text.as_bytes())
}

fn standard_input() -> Result<Vec<u8>, Fault> {
    let mut bytes = Vec::new();
    io::stdin().lock().read_to_end(&mut bytes).map_err(bad)?;
    Ok(bytes)
}

/// Tells each call of a recording: its number, the call and its answer.
fn replay(table: Table, listing: &str, file: &str) -> Outcome {
    let bytes = match file {
        "-" => standard_input()?,
        _ => fs::read(file).map_err(|error| bad(format!("{file}: {error}")))?,
    };
    let records = match recording::text(&bytes) {
        Some(text) => recording::parse(text).map_err(bad)?,
        None => {
            let rest = bytes.len() % SIZE;
            if rest != 0 {
                say(&format!("a part record of {rest} bytes at the end is left out"));
            }
            records_of(&bytes)
        }
    };
    if recording::is_doubtful(&records) {
        say(&format!("this hardly is a recording: {}", recording::hint()));
    }
    let lines = listing::list(listing, &records).map_err(Fault::Lost)?;
    let mut replay = Replay::new(table);
    let mut told = String::new();
    for (index, (record, line)) in records.iter().zip(lines).enumerate() {
        told += &format!("{}  {}\n", index + 1, replay.tell(record, line).map_err(bad)?);
    }
    print(&told)
}

/// Writes the records of the lines, or nothing where a line is bad.
fn records() -> Outcome {
    let text = String::from_utf8(standard_input()?)
        .map_err(|_| bad(format!("these are no words: {}", recording::hint())))?;
    write(&recording::parse(&text).map_err(bad)?.concat())
}

fn lines() -> Outcome {
    let lines =
        records_of(&standard_input()?).iter().map(|record| line::format(record) + "\n").collect::<String>();
    print(&lines)
}

/// Writes each line of a listing as soon as it is there, with its rule.
fn explain(table: &Table) -> Outcome {
    for (index, line) in io::stdin().lock().lines().enumerate() {
        let line = line.map_err(|error| error.to_string()).and_then(|line| refusal::explain(table, &line));
        print(&(line.map_err(|why| bad(format!("line {}: {why}", index + 1)))? + "\n"))?;
    }
    Ok(())
}
