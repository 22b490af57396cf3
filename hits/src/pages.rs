//! Recordings as text, one a line: its page numbers in decimal, with blanks between them. From `#` on a line is a comment.
use crate::figures::grouped;
use std::io::{self, BufRead, Read};

/// The most bytes of a line. The pages of a recording take some 20,000.
pub const LINE_MOST: usize = 1 << 20;

/// What the programs of some systems put in front of a text.
const MARK: &[u8] = b"\xef\xbb\xbf";

/// What stands in a line.
#[derive(Debug, PartialEq, Eq)]
pub enum Line<'a> {
    /// The pages of a recording, none where the line is empty. A number above 65,535 stands here as that one.
    Recording(&'a [u16]),
    /// A comment alone, which is no recording.
    Comment,
    /// Something else: what, in words.
    Other(String),
}

/// The lines of a text, one after the other, in memory for one line.
pub struct Lines<R> {
    input: R,
    line: Vec<u8>,
    pages: Vec<u16>,
    number: u64,
}

impl<R: BufRead> Lines<R> {
    pub fn new(input: R) -> Lines<R> {
        Lines { input, line: Vec::new(), pages: Vec::new(), number: 0 }
    }

    /// The next line; none at the end.
    pub fn read(&mut self) -> io::Result<Option<Line<'_>>> {
        self.line.clear();
        if self.input.by_ref().take(LINE_MOST as u64 + 1).read_until(b'\n', &mut self.line)? == 0 {
            return Ok(None);
        }
        self.number += 1;
        if self.line.last() == Some(&b'\n') {
            self.line.pop();
        } else if self.line.len() > LINE_MOST {
            self.input.skip_until(b'\n')?;
            let why =
                format!("more than {} bytes: a recording ends with its line", grouped(LINE_MOST as u64));
            return Ok(Some(Line::Other(why)));
        }
        if self.line.last() == Some(&b'\r') {
            self.line.pop();
        }
        if self.number == 1 && self.line.starts_with(MARK) {
            self.line.drain(..MARK.len());
        }
        let is_comment = match read_pages(&self.line, &mut self.pages) {
            Ok(is_comment) => is_comment,
            Err(place) => {
                let why = format!("place {place} has '{}', which is no page number", self.word(place));
                return Ok(Some(Line::Other(why)));
            }
        };
        // what stands behind it may be lines of another system, which are no comment
        if self.line.contains(&b'\r') {
            let why = "a carriage return in the comment: a line ends with a line feed".to_string();
            return Ok(Some(Line::Other(why)));
        }
        Ok(Some(if is_comment { Line::Comment } else { Line::Recording(&self.pages) }))
    }

    /// The number of the line that was read last, from 1 on.
    pub fn number(&self) -> u64 {
        self.number
    }

    /// The word of that line in a place, from 1 on, as far as it fits into a message.
    pub fn word(&self, place: usize) -> String {
        let end = self.line.iter().position(|byte| *byte == b'#').unwrap_or(self.line.len());
        let mut words = self.line[..end].split(|byte| is_blank(*byte)).filter(|word| !word.is_empty());
        let word = String::from_utf8_lossy(words.nth(place - 1).unwrap_or_default()).into_owned();
        let shown: String = word.chars().take(WORD_MOST).flat_map(char::escape_debug).collect();
        shown + if word.chars().nth(WORD_MOST).is_some() { ".." } else { "" }
    }
}

/// The most signs of a word that a message shows.
const WORD_MOST: usize = 20;

/// Reads the pages of a line, and says whether it is a comment alone. The error is the place of a word that is no number.
fn read_pages(line: &[u8], pages: &mut Vec<u16>) -> Result<bool, usize> {
    pages.clear();
    let mut at = 0;
    while at < line.len() {
        match line[at] {
            b'#' => return Ok(pages.is_empty()),
            byte if is_blank(byte) => at += 1,
            _ => {
                let (start, mut page) = (at, 0);
                while at < line.len() && line[at].is_ascii_digit() {
                    page = u32::from(u16::MAX).min(10 * page + u32::from(line[at] - b'0'));
                    at += 1;
                }
                let is_whole = at == line.len() || is_blank(line[at]) || line[at] == b'#';
                if at == start || !is_whole {
                    return Err(pages.len() + 1);
                }
                pages.push(page as u16);
            }
        }
    }
    Ok(false)
}

/// A carriage return is none: it is part of a line's end, or out of place.
fn is_blank(byte: u8) -> bool {
    matches!(byte, b' ' | b'\t')
}
