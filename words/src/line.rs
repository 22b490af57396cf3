//! A call as a line of words, and back.
use crate::record::{decode, encode, Call, Handle, Record, DATA_MOST, SIZE};
use std::fmt::Write;

/// What each kind of line looks like.
pub const FORMS: [&str; 10] = [
    "root",
    "fix SLOT of FRAME PAGE",
    "unfix FRAME PAGE",
    "write OFFSET HEX of FRAME PAGE",
    "link PAGE SLOT of FRAME PAGE",
    "unlink SLOT of FRAME PAGE",
    "evict PAGE",
    "settle",
    "find PAGE",
    "record 32-HEX-DIGITS",
];

/// The record of a line; none for an empty line or a comment (`#`). The error says what was expected.
pub fn parse(line: &str) -> Result<Option<Record>, String> {
    let text = line.split('#').next().unwrap_or("");
    let words: Vec<&str> = text.split_whitespace().collect();
    let call = match words[..] {
        [] => return Ok(None),
        ["record", hex] => return raw(hex).map(Some),
        ["root"] => Call::Root,
        ["settle"] => Call::Settle,
        ["fix", slot, "of", frame, page] => {
            Call::Fix { slot: byte("a slot", slot)?, handle: handle(frame, page)? }
        }
        ["unfix", frame, page] => Call::Unfix { handle: handle(frame, page)? },
        ["write", offset, hex, "of", frame, page] => {
            Call::Write { offset: byte("an offset", offset)?, data: data(hex)?, handle: handle(frame, page)? }
        }
        ["link", child, slot, "of", frame, page] => Call::Link {
            page: number("a page", child)?,
            slot: byte("a slot", slot)?,
            handle: handle(frame, page)?,
        },
        ["unlink", slot, "of", frame, page] => {
            Call::Unlink { slot: byte("a slot", slot)?, handle: handle(frame, page)? }
        }
        ["evict", page] => Call::Evict { page: number("a page", page)? },
        ["find", page] => Call::Find { page: number("a page", page)? },
        [first, ..] => return Err(expected(first)),
    };
    Ok(Some(encode(&call)))
}

/// The line of a record. A record that no call's line makes is shown by its bytes.
pub fn format(bytes: &Record) -> String {
    match decode(bytes) {
        None => format!("record {}", hex(bytes)),
        Some(Call::Root) => "root".to_string(),
        Some(Call::Settle) => "settle".to_string(),
        Some(Call::Fix { slot, handle }) => format!("fix {slot} of {}", of(handle)),
        Some(Call::Unfix { handle }) => format!("unfix {}", of(handle)),
        Some(Call::Write { offset, data, handle }) => {
            let bytes = if data.is_empty() { "-".to_string() } else { hex(&data) };
            format!("write {offset} {bytes} of {}", of(handle))
        }
        Some(Call::Link { page, slot, handle }) => format!("link {page} {slot} of {}", of(handle)),
        Some(Call::Unlink { slot, handle }) => format!("unlink {slot} of {}", of(handle)),
        Some(Call::Evict { page }) => format!("evict {page}"),
        Some(Call::Find { page }) => format!("find {page}"),
    }
}

/// The form of a line that starts with a word.
fn expected(first: &str) -> String {
    let form = FORMS.iter().find(|form| form.split(' ').next() == Some(first));
    form.map_or_else(|| format!("expected a call, found '{first}'"), |form| format!("expected {form}"))
}

fn of(handle: Handle) -> String {
    format!("{} {}", handle.frame, handle.page)
}

pub(crate) fn hex(bytes: &[u8]) -> String {
    bytes.iter().fold(String::new(), |mut text, byte| {
        let _ = write!(text, "{byte:02x}");
        text
    })
}

fn byte(what: &str, word: &str) -> Result<u8, String> {
    word.parse().map_err(|_| format!("expected {what} from 0 to 255, found '{word}'"))
}

fn number(what: &str, word: &str) -> Result<u16, String> {
    word.parse().map_err(|_| format!("expected {what} from 0 to 65535, found '{word}'"))
}

fn handle(frame: &str, page: &str) -> Result<Handle, String> {
    Ok(Handle { frame: byte("a frame", frame)?, page: number("a page", page)? })
}

/// Bytes in hexadecimal, two digits each; `-` for none.
fn bytes_of(word: &str) -> Option<Vec<u8>> {
    if word == "-" {
        return Some(Vec::new());
    }
    if !word.len().is_multiple_of(2) || !word.is_ascii() {
        return None;
    }
    (0..word.len()).step_by(2).map(|at| u8::from_str_radix(&word[at..at + 2], 16).ok()).collect()
}

fn data(word: &str) -> Result<Vec<u8>, String> {
    let expected =
        || format!("expected up to {DATA_MOST} bytes in hexadecimal, or - for none, found '{word}'");
    bytes_of(word).filter(|bytes| bytes.len() <= DATA_MOST).ok_or_else(expected)
}

fn raw(word: &str) -> Result<Record, String> {
    let expected = || format!("expected {} hexadecimal digits, found '{word}'", 2 * SIZE);
    bytes_of(word).and_then(|bytes| bytes.try_into().ok()).ok_or_else(expected)
}
