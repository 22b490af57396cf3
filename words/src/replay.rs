//! Each call of a recording in words, with its answer, and where it was refused the rule and what helps.
use crate::known::Known;
use crate::line::hex;
use crate::listing::Line;
use crate::record::{call_of, Call, Handle, Record};
use crate::rules::Table;

/// Tells a recording from its start, on the listing's pool of zero pages.
pub struct Replay {
    table: Table,
    known: Known,
}

impl Replay {
    pub fn new(table: Table) -> Replay {
        Replay { table, known: Known::opened() }
    }

    /// The next record and its answer.
    pub fn tell(&mut self, record: &Record, line: Line) -> Result<String, String> {
        let call = call_of(record);
        let said = call.as_ref().map_or_else(|| format!("record {}", hex(record)), |call| self.say(call));
        let answer = match (line.refusal, call) {
            (0, Some(call)) => {
                self.known.feed(&call, line);
                accepted(&call, line)
            }
            (0, None) => return Err(format!("{said} makes no call, and was accepted")),
            (number, call) => self.refused(number, call.as_ref())?,
        };
        Ok(format!("{said}: {answer}"))
    }

    fn refused(&self, number: u8, call: Option<&Call>) -> Result<String, String> {
        let sentence = self.table.sentence(number);
        let sentence = sentence.ok_or_else(|| format!("refused by {number}, which rules.txt has not"))?;
        Ok(format!("refused by rule {number}: {sentence}{}", self.hint(number, call)))
    }

    /// What helps with a refused link, evict or fix, with the numbers of the case.
    fn hint(&self, number: u8, call: Option<&Call>) -> String {
        match (number, call) {
            (8, Some(Call::Link { .. })) => " An empty slot takes it.".to_string(),
            (9, Some(Call::Link { page, .. })) => self.namer(*page),
            (21, Some(Call::Evict { page })) => self.pins("It", *page),
            (22, Some(Call::Evict { page })) => self.children(*page),
            (27, Some(Call::Fix { handle, .. })) => self.leaves(handle.page),
            _ => String::new(),
        }
    }

    /// Which slot names a page.
    fn namer(&self, page: u16) -> String {
        let namer = self.known.namer(page);
        namer.map_or(String::new(), |(parent, slot)| format!(" Slot {slot} of page {parent} names it."))
    }

    /// How often a page has to be unfixed, and in which frame.
    fn pins(&self, said: &str, page: u16) -> String {
        match (self.known.pins(page), self.known.frame(page)) {
            (1, Some(frame)) => format!(" {said} has 1 pin in frame {frame}."),
            (pins, Some(frame)) => format!(" {said} has {pins} pins in frame {frame}."),
            (_, None) => String::new(),
        }
    }

    /// Which pages could be unfixed, so that a sweep takes one: not the one whose child is to come in.
    fn leaves(&self, parent: u16) -> String {
        let leaves = self.known.leaves().into_iter().filter(|page| *page != parent);
        leaves.map(|page| self.pins(&format!("Page {page}"), page)).collect()
    }

    /// Which pages have to be evicted before their parent.
    fn children(&self, page: u16) -> String {
        let told = |(slot, child)| format!(" Its slot {slot} names page {child}.");
        self.known.children(page).into_iter().map(told).collect()
    }

    /// The call with each number named, and the page that its slot names.
    fn say(&self, call: &Call) -> String {
        match call {
            Call::Root => "root".to_string(),
            Call::Settle => "settle".to_string(),
            Call::Fix { slot, handle } => format!("fix {}", self.slot(*slot, *handle)),
            Call::Unfix { handle } => format!("unfix {}", held(*handle)),
            Call::Write { offset, data, handle } => {
                let bytes = if data.is_empty() { "nothing".to_string() } else { hex(data) };
                format!("write {bytes} at {offset} of {}", held(*handle))
            }
            Call::Link { page, slot, handle } => format!("link page {page} at {}", self.slot(*slot, *handle)),
            Call::Unlink { slot, handle } => format!("unlink {}", self.slot(*slot, *handle)),
            Call::Evict { page } => format!("evict page {page}"),
            Call::Find { page } => format!("find page {page}"),
        }
    }

    fn slot(&self, slot: u8, handle: Handle) -> String {
        let named =
            self.known.named(handle.page, slot).map_or(String::new(), |page| format!(" (page {page})"));
        format!("slot {slot}{named} of {}", held(handle))
    }
}

fn held(handle: Handle) -> String {
    format!("page {} in frame {}", handle.page, handle.frame)
}

fn accepted(call: &Call, line: Line) -> String {
    match call {
        Call::Root | Call::Fix { .. } => format!("page {} in frame {}", line.page, line.frame),
        // page 0 is always resident, and 'absent' prints its numbers too
        Call::Find { page } if *page == line.page => format!("in frame {}", line.frame),
        Call::Find { .. } => "absent".to_string(),
        _ => "done".to_string(),
    }
}
