//! Request A.3, of every list: "Find and peek use it and agree with the frames after every accepted call." Residency is find's
//! frame, whatever its count; here the records say who is where, and the bytes of a chain what is compared.
use super::{Check, Plain};
use crate::calls::Answer;
use crate::model::search;
use crate::pool::Machine;
use crate::records::{page, Page, State, BUCKETS};

impl Plain {
    /// After an accepted call find and peek agree with the frames: for one page and another that shares its bucket, and where the
    /// directory is another than before, for each resident page.
    pub fn check_directory(
        &self,
        machine: &impl Machine,
        state: &State,
        before: &[u8],
        accepted: bool,
    ) -> Check {
        if !accepted {
            return Ok(());
        }
        let balances = self.maps.iter().flat_map(|map| &map.balance);
        let fixes = balances.map(|balance| balance.fixes).sum::<u64>() as usize;
        let (store, number) = (fixes % self.maps.len(), fixes % self.pages());
        for number in [number, (number + BUCKETS) % self.pages()] {
            self.check_found(machine, state, page(store as u8, number as u16))?;
        }
        if state.directory == before {
            return Ok(());
        }
        let mut resident = state.occupied().map(|(_, record)| Page::from(record));
        resident.try_for_each(|page| self.check_found(machine, state, page))
    }

    pub(super) fn check_found(&self, machine: &impl Machine, state: &State, page: Page) -> Check {
        let found = machine.find(state, page).map_err(|number| format!("find of {page} gives {number}"))?;
        search::check(state, page, found)?;
        let place = machine.peek(state, page).map_err(|number| format!("peek of {page} gives {number}"))?;
        search::compare_peek(state, page, &Answer::Place(place))?;
        self.check_payload(state, page, &place)
    }
}
