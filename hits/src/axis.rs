//! The axis of frames: how far it goes, its scale, and the numbers along it.
use pagepool::MOST_REFERENCES;

/// The end of the longest axis: no reference has a depth of so many frames.
pub const LONGEST: u64 = MOST_REFERENCES as u64;
/// An axis that goes past more frames than these is logarithmic.
const LINEAR_MOST: u64 = 128;
/// Every axis goes past so many frames, so that some numbers stand along it.
const PAST_LEAST: u64 = 7;
/// The most steps of a linear axis.
const STEPS_MOST: u64 = 10;

/// Numbers of frames from 0 to an end.
#[derive(Clone, Copy, Debug, PartialEq, Eq)]
pub struct Axis {
    end: u64,
    scale: Scale,
}

#[derive(Clone, Copy, Debug, PartialEq, Eq)]
pub enum Scale {
    /// A number stands at each step.
    Linear { step: u64 },
    /// By the logarithm of one frame more, so that 0 has a place. A number stands at each power of two.
    Logarithmic,
}

impl Axis {
    /// An axis that goes past so many frames, or to the longest end.
    pub fn past(frames: u64) -> Axis {
        let frames = frames.max(PAST_LEAST);
        if frames > LINEAR_MOST {
            let end = if frames < LONGEST { (frames + 1).next_power_of_two() } else { LONGEST };
            return Axis { end, scale: Scale::Logarithmic };
        }
        let steps = (0..).flat_map(|power| [1, 2, 5].map(|digit| digit * 10u64.pow(power)));
        let step =
            steps.into_iter().find(|step| frames / step < STEPS_MOST).expect("a step that is large enough");
        Axis { end: (frames / step + 1) * step, scale: Scale::Linear { step } }
    }

    pub fn end(self) -> u64 {
        self.end
    }

    pub fn scale(self) -> Scale {
        self.scale
    }

    /// How far along a number of frames lies, from 0 to 1.
    pub fn place(self, frames: u64) -> f64 {
        let along = |frames: u64| match self.scale {
            Scale::Linear { .. } => frames as f64,
            Scale::Logarithmic => (frames as f64).ln_1p(),
        };
        along(frames.min(self.end)) / along(self.end)
    }

    /// The numbers along the axis.
    pub fn ticks(self) -> Vec<u64> {
        let ticks: Box<dyn Iterator<Item = u64>> = match self.scale {
            Scale::Linear { step } => Box::new((0..).map(move |at| at * step)),
            Scale::Logarithmic => Box::new(std::iter::once(0).chain((0..).map(|power| 1 << power))),
        };
        ticks.take_while(|tick| *tick <= self.end).collect()
    }
}
