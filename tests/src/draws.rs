//! Records drawn along a list of calls.
use crate::coverage::Coverage;
use crate::lockstep::draw;
use crate::model::workload::seeded;
use crate::pool::UnderTest;
use crate::records::{Generator, State};
use random::Random;

/// A generator that goes along with a list. Its random numbers are its own: the list makes the same calls without it.
pub struct Draws {
    random: Random,
    generator: Generator,
}

impl Draws {
    pub fn beside(list: &Random) -> Draws {
        let mut random = Random::new(list.clone().draw());
        let generator = seeded(random.draw() as u32);
        Draws { random, generator }
    }

    /// Draws a record of a state, at two points in five or so, at times by another number.
    pub fn at(&mut self, state: &State, coverage: &mut Coverage) -> Result<(), String> {
        match self.random.below(10) {
            0..3 => self.generator = drawn(self.generator, state, coverage)?,
            3 => {
                let any = self.random.draw() as u32;
                let number = self.random.pick(&[0, 1, 1 << 31, u32::MAX, any]);
                drawn(Generator { number }, state, coverage)?;
            }
            _ => (),
        }
        Ok(())
    }
}

/// Draws a record of a state, and gives the generator after it.
fn drawn(mut generator: Generator, state: &State, coverage: &mut Coverage) -> Result<Generator, String> {
    draw(&UnderTest, state, &mut generator, coverage).map(|_| generator)
}
