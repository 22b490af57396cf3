//! Request A.11, of every fix: "a neighbour's page may be evicted, though its map, pins and shown bytes are the same after it".
use super::{Check, Plain};
use crate::calls::Call;
use crate::ensure;
use crate::pool::Machine;
use crate::records::{handle_of, Handle, Page, State};

impl Plain {
    /// The resident pages of other stores than a fix's, with their frames.
    pub fn neighbours(&self, state: &State, call: &Call) -> Vec<Handle> {
        let Call::Fix(handle, _) = call else { return Vec::new() };
        let others = state.occupied().filter(|(_, record)| record.store != handle.store);
        others.map(|(frame, record)| handle_of(frame, record)).collect()
    }

    /// After the fix each of them is peeked as the map says, and each that is pinned is shown so by the handle that it had.
    pub fn check_neighbours(&self, machine: &impl Machine, state: &State, neighbours: &[Handle]) -> Check {
        for handle in neighbours {
            let page = Page::from(*handle);
            let place =
                machine.peek(state, page).map_err(|number| format!("peek of {page} gives {number}"))?;
            self.check_payload(state, page, &place)?;
            if self.pinned(page) {
                let shown = machine.show(state, *handle);
                ensure!(shown == Ok(place), "show of {handle:?} gives {shown:?}, and peek {place:?}");
            }
        }
        Ok(())
    }
}
