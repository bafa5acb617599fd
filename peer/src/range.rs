//! Which of the protocol's calls a program knows. To it all others are unreadable.

use crate::protocol::Call;

/// The stages that a program knows which knows the fewest.
pub const SEVEN_STAGES: [&str; 7] =
    ["check", "scramble", "unpack-bits", "fill", "repeat", "map", "difference"];

/// The ten plain stages.
pub const TEN_STAGES: [&str; 10] = [
    "check",
    "scramble",
    "rs",
    "unpack-bits",
    "convolution",
    "fill",
    "repeat",
    "interleave",
    "map",
    "difference",
];

/// The calls that a program knows.
#[derive(Clone, Copy, Debug, Default, PartialEq, Eq)]
pub enum Range {
    /// Sizes, and the calls of seven stages.
    Seven,
    /// Sizes, and the calls of the ten stages.
    Ten,
    /// All calls.
    #[default]
    All,
}

impl Range {
    /// The range of this name.
    pub fn of(name: &str) -> Option<Range> {
        match name {
            "seven" => Some(Range::Seven),
            "ten" => Some(Range::Ten),
            "all" => Some(Range::All),
            _ => None,
        }
    }

    /// Whether frames, their headers and their chains are known.
    pub fn has_frames(self) -> bool {
        self == Range::All
    }

    /// The plain stages that are known.
    pub fn stages(self) -> &'static [&'static str] {
        match self {
            Range::Seven => &SEVEN_STAGES,
            Range::Ten | Range::All => &TEN_STAGES,
        }
    }

    /// Whether the call is known.
    pub fn has(self, call: &Call) -> bool {
        match call {
            Call::Size(_) => true,
            Call::Code(given) | Call::Decode(given) => {
                self.has_frames() || self.stages().contains(&given.settings.name())
            }
            _ => self.has_frames(),
        }
    }
}

#[cfg(test)]
mod tests {
    use super::*;
    use crate::protocol::read;

    fn knows(range: Range, line: &str) -> bool {
        range.has(&read(line.as_bytes()).expect("a call"))
    }

    #[test]
    fn each_range_has_the_calls_of_the_one_before_and_more() {
        let lines = ["size 0 1 2 63 0", "code rs 4 01 9 9", "unpack 00423f0780"];
        let known = |range| lines.map(|line| knows(range, line));
        assert_eq!(known(Range::Seven), [true, false, false]);
        assert_eq!(known(Range::Ten), [true, true, false]);
        assert_eq!(known(Range::All), [true, true, true]);
    }
}
