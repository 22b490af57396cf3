//! An unaltered list of calls from an accepted open, beside the model and the plain map.
use crate::calls::{Answer, Call};
use crate::coverage::Coverage;
use crate::ensure;
use crate::lockstep::step;
use crate::plain::{Check, Plain};
use crate::pool::Machine;
use crate::records::{Pool, State, Stores};

#[derive(Clone)]
pub struct History<'a, M> {
    machine: &'a M,
    pub state: State,
    plain: Plain,
}

impl<'a, M: Machine> History<'a, M> {
    pub fn open(
        machine: &'a M,
        (frames, store, directory): (Vec<u8>, Vec<u8>, Vec<u8>),
        stores: Stores,
        coverage: &mut Coverage,
    ) -> Result<Self, String> {
        let mut plain = Plain::open(&store, stores);
        plain.follow_locks(false);
        let pool = Pool::ZERO;
        let mut state = State { pool, frames, store, directory };
        let answer = step(machine, &mut state, &Call::Open(stores), coverage)?;
        ensure!(answer.accepted(), "open gives {answer:?}");
        Ok(History { machine, state, plain })
    }

    /// Makes a call, and compares its answer with the map.
    pub fn call(&mut self, call: &Call, coverage: &mut Coverage) -> Result<Answer, String> {
        let denied = self.plain.foretell_denial(self.machine, &self.state, call)?;
        let locked = self.plain.foretell_lock(self.machine, &self.state, call);
        let directory = self.state.directory.clone();
        let neighbours = self.plain.neighbours(&self.state, call);
        let answer = step(self.machine, &mut self.state, call, coverage)?;
        let given = Some(answer.number()).filter(|number| [15, 27].contains(number));
        ensure!(given == denied.flatten(), "{call:?}: {answer:?}, and by the maps {denied:?}");
        ensure!(denied != Some(None) || answer.accepted(), "{call:?}, with room: {answer:?}");
        let checked = self.plain.check_edit(call, locked, &answer);
        checked.map_err(|fault| format!("{call:?}: {fault}"))?;
        let opened = match call {
            Call::Open(stores) => answer.accepted().then_some(*stores),
            _ => None,
        };
        match opened {
            Some(stores) => self.plain.reopen(&self.state.store, stores),
            None => {
                self.plain.feed(call, answer.accepted());
                self.plain.count(call, &answer);
            }
        }
        let followed = self.plain.check_kept();
        if answer == Answer::Done {
            coverage.count_locks(self.plain.follow_locks(opened.is_some()));
        }
        let checked = followed
            .and_then(|()| self.plain.check_locked(&self.state))
            .and_then(|()| self.plain.check_answer(self.machine, &self.state, call, &answer))
            .and_then(|()| self.plain.check_neighbours(self.machine, &self.state, &neighbours))
            .and_then(|()| {
                self.plain.check_directory(self.machine, &self.state, &directory, answer.accepted())
            });
        checked.map_err(|fault| format!("{call:?}: {fault}"))?;
        Ok(answer)
    }

    /// Everything that demand 3 says of this point.
    pub fn check(&self) -> Check {
        self.plain.check_point(self.machine, &self.state)
    }
}
