//! Document 01's call listing: the call that a record makes, and the record's line.
use crate::calls::{Answer, Call};
use crate::pool::Found;
use crate::records::{handle, Entry, Handle};
use words::record;

/// The calls that a record can make, by their numbers from 1 on.
pub const CALLS: [&str; 9] = ["root", "fix", "unfix", "write", "link", "unlink", "evict", "settle", "find"];

fn held(given: record::Handle) -> Handle {
    handle(given.frame, given.page)
}

/// The call that a record makes, in the listing's one store; none for one that rule 17 refuses.
pub fn call_of(entry: &Entry) -> Option<Call> {
    Some(match record::call_of(entry)? {
        record::Call::Root => Call::Root(0),
        record::Call::Fix { slot, handle } => Call::Fix(held(handle), slot.into()),
        record::Call::Unfix { handle } => Call::Unfix(held(handle)),
        record::Call::Write { offset, data, handle } => Call::Write(held(handle), offset.into(), data),
        // Request A.8: "Link takes the mark, in the listing never."
        record::Call::Link { page, slot, handle } => Call::Link(held(handle), slot.into(), page, false),
        record::Call::Unlink { slot, handle } => Call::Unlink(held(handle), slot.into()),
        record::Call::Evict { page } => Call::Evict(0, page),
        record::Call::Settle => Call::Settle,
        record::Call::Find { page } => Call::Find(0, page),
    })
}

/// "call, 0 or the refusal, frame, page, with 0 0 where no handle or frame is given (find prints its page too, or 0 0 for
/// 'absent')"
pub fn line(entry: &Entry, call: &Call, answer: &Answer) -> String {
    let (frame, page) = match (call, answer) {
        (_, Answer::Fixed(fixed)) => (fixed.handle.frame.0, fixed.handle.page.0),
        (Call::Find(_, page), Answer::Found(Found { frame: Some(frame), .. })) => (frame.0, *page),
        _ => (0, 0),
    };
    format!("{} {} {frame} {page}\n", entry[0], answer.number())
}
