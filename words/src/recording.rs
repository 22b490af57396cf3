//! A recording, in words or as the listing's records.
use crate::line::{self, FORMS};
use crate::record::{call_of, Record, SIZE};

/// What the programs of some systems put in front of a text.
const MARK: char = '\u{feff}';

/// What a recording is, for a file that is none.
pub fn hint() -> String {
    format!(
        "a recording is records of {SIZE} bytes with no header, or lines of these forms, # starting a comment:\n    {}\n\
         FRAME and PAGE behind 'of' and 'unfix' are a handle, as root and fix answer it.",
        FORMS.join("\n    ")
    )
}

/// The text of a recording in words; none for one of records, which has bytes that no text has.
pub fn text(bytes: &[u8]) -> Option<&str> {
    let text = std::str::from_utf8(bytes).ok()?;
    let is_text = !text.contains(|sign: char| sign.is_control() && !sign.is_whitespace());
    is_text.then_some(text)
}

/// The records of lines of words. The error names every line that is no call.
pub fn parse(text: &str) -> Result<Vec<Record>, String> {
    let numbered = numbered(text).map_err(|bad| format!("{}\n{}", bad.join("\n"), hint()))?;
    Ok(numbered.into_iter().map(|(_, record)| record).collect())
}

/// The same, each record with its line's number; the error has a text for each line that is no call.
pub fn numbered(text: &str) -> Result<Vec<(usize, Record)>, Vec<String>> {
    let (mut records, mut bad) = (Vec::new(), Vec::new());
    for (number, line) in (1..).zip(text.strip_prefix(MARK).unwrap_or(text).lines()) {
        match line::parse(line) {
            Ok(record) => records.extend(record.map(|record| (number, record))),
            Err(why) => bad.push(format!("line {number}: {why}")),
        }
    }
    match bad[..] {
        [] => Ok(records),
        _ => Err(bad),
    }
}

/// Whether there is no record, or most make no call: then the file may be something else.
pub fn is_doubtful(records: &[Record]) -> bool {
    let calls = records.iter().filter(|record| call_of(record).is_some()).count();
    calls == 0 || 2 * calls < records.len()
}
