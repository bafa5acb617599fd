//! What a run of the comparison is to do.

use std::time::Duration;

use super::script::Script;
use crate::range::Range;

/// The seed of a run that is not given one.
pub const DEFAULT_SEED: u64 = 2_011;
/// The lines and the longest time in seconds of a run that is not told how many and how long.
const DEFAULT_LIMITS: (usize, u32) = (20_000, 20);
/// The same of a run with frames.
const DEFAULT_FRAME_LIMITS: (usize, u32) = (1_000_000, 80);

/// What a run is to do.
#[derive(Debug, PartialEq, Eq)]
pub struct Plan {
    /// The program to be compared.
    pub program: String,
    pub seed: u64,
    /// The calls that are made.
    pub range: Range,
    /// How many lines to make at most.
    pub lines: usize,
    /// How long the whole run may last; lines are made for three quarters of it.
    pub seconds: u32,
}

impl Plan {
    /// The plan that the words of a command line give, if they can be read.
    pub fn of(program: &str, options: &[&str]) -> Option<Plan> {
        let (mut seed, mut range, mut lines, mut seconds) =
            (DEFAULT_SEED, Range::default(), None, None);
        for option in options.chunks(2) {
            match *option {
                ["--seed", value] => seed = value.parse().ok()?,
                ["--calls", name] => range = Range::of(name)?,
                ["--lines", value] => lines = Some(value.parse().ok()?),
                ["--seconds", value] => seconds = Some(value.parse().ok()?),
                _ => return None,
            }
        }
        let limits = if range.has_frames() { DEFAULT_FRAME_LIMITS } else { DEFAULT_LIMITS };
        let (lines, seconds) = (lines.unwrap_or(limits.0), seconds.unwrap_or(limits.1));
        Some(Plan { program: program.to_string(), seed, range, lines, seconds })
    }

    /// How long the whole run may last.
    pub fn time(&self) -> Duration {
        Duration::from_secs(u64::from(self.seconds))
    }

    /// The lines of the run.
    pub fn script(&self) -> Script {
        Script::new(self.seed, self.range)
    }
}

#[cfg(test)]
mod tests {
    use super::*;

    #[test]
    fn options_change_the_plan() {
        let options = ["--seed", "7", "--lines", "9", "--seconds", "3", "--calls", "seven"];
        let plan = Plan::of("bench", &options).unwrap();
        assert_eq!((plan.seed, plan.lines, plan.seconds, plan.range), (7, 9, 3, Range::Seven));
    }

    #[test]
    fn a_run_with_frames_is_longer() {
        let limits = |options: &[&str]| {
            let plan = Plan::of("bench", options).unwrap();
            (plan.lines, plan.seconds)
        };
        assert_eq!(limits(&["--calls", "ten"]), DEFAULT_LIMITS);
        assert_eq!(limits(&["--calls", "all"]), DEFAULT_FRAME_LIMITS);
        assert_eq!(limits(&["--lines", "5", "--calls", "all"]), (5, DEFAULT_FRAME_LIMITS.1));
    }

    #[test]
    fn options_that_cannot_be_read_are_refused() {
        assert_eq!(Plan::of("bench", &["--seed"]), None);
        assert_eq!(Plan::of("bench", &["--seed", "x"]), None);
        assert_eq!(Plan::of("bench", &["--sed", "1"]), None);
        assert_eq!(Plan::of("bench", &["--calls", "some"]), None);
    }
}
