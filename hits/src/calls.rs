//! A recording of calls, as `./replay` takes it: the pages that its accepted fixes answered.
use words::listing::{self, Line};
use words::record::{records_of, Record, SIZE};
use words::recording;
use words::rules::Table;

/// The call fix, by its number.
const FIX: u8 = 2;
/// The rule of a record that makes no call.
const NO_CALL: u8 = 17;

/// Why a recording isn't taken.
pub enum Fault {
    /// Something about the file as a whole.
    Whole(String),
    /// Lines that are no calls, each with its place.
    Lines(Vec<String>),
    /// Records that make no call, each with its place.
    Calls(Vec<String>),
}

/// The pages of a recording that `listing`, the command, lists; a root counts nothing, nor does a refused fix.
pub fn pages(listing: &str, bytes: &[u8]) -> Result<Vec<u16>, Fault> {
    let (unit, numbered) = match recording::text(bytes) {
        Some(text) => ("line", recording::numbered(text).map_err(Fault::Lines)?),
        None => ("call", (1..).zip(whole_records(bytes)?).collect()),
    };
    let (numbers, records): (Vec<usize>, Vec<Record>) = numbered.into_iter().unzip();
    let lines = listing::list(listing, &records).map_err(Fault::Whole)?;
    let refused = numbers.iter().zip(&lines).filter(|(_, line)| line.refusal == NO_CALL);
    match refused.map(|(number, _)| format!("{unit} {number}")).collect::<Vec<_>>() {
        none if none.is_empty() => Ok(lines.iter().filter_map(fixed).collect()),
        refused => {
            let why = no_call();
            Err(Fault::Calls(refused.iter().map(|place| format!("{place}: {why}")).collect()))
        }
    }
}

/// The records of some bytes, with nothing behind them.
fn whole_records(bytes: &[u8]) -> Result<Vec<Record>, Fault> {
    match bytes.len() % SIZE {
        0 => Ok(records_of(bytes)),
        rest => Err(Fault::Whole(format!("a part record of {rest} bytes at the end"))),
    }
}

/// The page of an accepted fix.
fn fixed(line: &Line) -> Option<u16> {
    (line.call == FIX && line.refusal == 0).then_some(line.page)
}

fn no_call() -> String {
    let table = Table::standing();
    format!("refused by rule {NO_CALL}: {}", table.sentence(NO_CALL).expect("a rule of the table"))
}
