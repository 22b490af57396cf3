//! The listing's own command, run on records.
use crate::record::Record;
use std::io::Write;
use std::process::{Command, Stdio};
use std::thread;

/// The four numbers of a line: "call, 0 or the refusal, frame, page".
#[derive(Clone, Copy, Debug, PartialEq, Eq)]
pub struct Line {
    pub call: u8,
    pub refusal: u8,
    pub frame: u8,
    pub page: u16,
}

impl Line {
    /// The line of a listing; none for any other text.
    pub fn read(text: &str) -> Option<Line> {
        let words: Vec<&str> = text.split(' ').collect();
        let [call, refusal, frame, page] = words[..] else { return None };
        Some(Line {
            call: call.parse().ok()?,
            refusal: refusal.parse().ok()?,
            frame: frame.parse().ok()?,
            page: page.parse().ok()?,
        })
    }
}

/// What the command `COMMAND -` prints for the records. The error says what it lost.
pub fn list(command: &str, records: &[Record]) -> Result<Vec<Line>, String> {
    let spawned = Command::new(command).arg("-").stdin(Stdio::piped()).stdout(Stdio::piped()).spawn();
    let mut run = spawned.map_err(|error| format!("{command} can't be run: {error}"))?;
    let mut input = run.stdin.take().expect("a pipe");
    let bytes = records.concat();
    // a thread of its own, since the command may print before it has read all; what it doesn't read, it doesn't list
    let writer = thread::spawn(move || input.write_all(&bytes));
    let output = run.wait_with_output().map_err(|error| format!("{command}: {error}"))?;
    let _ = writer.join();
    if !output.status.success() {
        return Err(format!("{command} failed: {}", output.status));
    }
    let text = String::from_utf8_lossy(&output.stdout);
    let lines =
        text.lines().map(|line| Line::read(line).ok_or_else(|| format!("{command} printed '{line}'")));
    let lines: Vec<Line> = lines.collect::<Result<_, _>>()?;
    let mut pairs = lines.iter().zip(records);
    if lines.len() != records.len() || pairs.any(|(line, record)| line.call != record[0]) {
        return Err(format!(
            "{command} printed {} lines that are not those of {} records",
            lines.len(),
            records.len()
        ));
    }
    Ok(lines)
}
