//! The lines of a run, one after the other, with the answers that are expected to them.

use std::collections::VecDeque;

use super::random::Random;
use super::{lines, odd, receiving, sending, single};
use crate::protocol::{without_end, Call};
use crate::range::Range;
use crate::session::Session;

/// The label of lines that are broken or skipped.
pub const ODD: &str = "odd lines";

/// The last line of every run; it has no end.
const LAST: &[u8] = b"size 0 1 2 63 0";

/// No line longer than this is broken: short ones show as much.
const LONGEST_BROKEN: usize = 1_000;

/// A line that is asked, and the answer that is expected to it.
pub struct Asked {
    /// What the line is counted under.
    pub label: String,
    /// The line with its end.
    pub line: Vec<u8>,
    pub expected: Option<String>,
}

/// What makes the lines. The same seed gives the same lines.
pub struct Script {
    random: Random,
    /// The calls that are made.
    range: Range,
    /// The calls that are still to come of a frame in hand.
    sending: VecDeque<Call>,
    receiving: VecDeque<Call>,
    session: Session,
}

impl Script {
    /// The lines of this seed, with these calls.
    pub fn new(seed: u64, range: Range) -> Script {
        // A new run has no frame to take or to finish, and no receiver that listens.
        let receiving = [Call::Take(255), Call::Feed(vec![0; 36]), Call::Take(0)].into();
        let sending = [Call::Finish(vec![0])].into();
        let session = Session::knowing(range);
        Script { random: Random::new(seed), range, sending, receiving, session }
    }

    /// The next line: a call, or a broken line, or one that is skipped.
    pub fn next_line(&mut self) -> Asked {
        let (label, mut line) = match self.random.below(100) {
            0..7 => (ODD.to_string(), self.broken()),
            7..8 => (ODD.to_string(), odd::skipped(&mut self.random)),
            _ => {
                let call = self.call();
                let words = lines::words(&mut self.random, &call);
                (lines::label(&call), lines::separated(&mut self.random, &words))
            }
        };
        line.extend_from_slice(if self.random.chance(10) { b"\r\n" } else { b"\n" });
        self.asked(label, line)
    }

    /// The line that ends a run.
    pub fn last(&mut self) -> Asked {
        self.asked("size".to_string(), LAST.to_vec())
    }

    fn asked(&mut self, label: String, line: Vec<u8>) -> Asked {
        let expected = self.session.answer(without_end(&line));
        Asked { label, line, expected }
    }

    fn call(&mut self) -> Call {
        if !self.range.has_frames() {
            return single::call(&mut self.random, self.range);
        }
        match self.random.below(100) {
            0..62 => next_of(&mut self.receiving, || receiving::reception(&mut self.random)),
            62..72 => next_of(&mut self.sending, || sending::transmission(&mut self.random)),
            72..74 => self.stray(),
            _ => single::call(&mut self.random, self.range),
        }
    }

    /// A call of a frame that does not belong to those in hand.
    fn stray(&mut self) -> Call {
        match self.random.below(10) {
            0..6 => receiving::stray(&mut self.random),
            _ => sending::stray(&mut self.random),
        }
    }

    fn broken(&mut self) -> Vec<u8> {
        loop {
            let call = match self.range.has_frames() && self.random.chance(30) {
                true => self.stray(),
                false => single::call(&mut self.random, self.range),
            };
            let words = lines::words(&mut self.random, &call);
            if words.iter().map(String::len).sum::<usize>() <= LONGEST_BROKEN {
                return odd::broken(&mut self.random, &words);
            }
        }
    }
}

/// The next of the calls; behind the last of them new ones are made.
fn next_of(calls: &mut VecDeque<Call>, mut make: impl FnMut() -> Vec<Call>) -> Call {
    loop {
        match calls.pop_front() {
            Some(call) => return call,
            None => calls.extend(make()),
        }
    }
}

#[cfg(test)]
mod tests {
    use super::*;
    use crate::protocol::read;

    #[test]
    fn the_words_of_a_call_are_read_as_that_call() {
        let mut script = Script::new(2, Range::All);
        for _ in 0..2_000 {
            let call = script.call();
            let words = lines::words(&mut script.random, &call);
            assert_eq!(read(&lines::separated(&mut script.random, &words)), Some(call));
        }
    }

    #[test]
    fn a_line_has_one_line_feed_which_is_its_last_byte() {
        let mut script = Script::new(3, Range::All);
        for _ in 0..1_000 {
            let line = script.next_line().line;
            assert_eq!(line.iter().position(|&byte| byte == b'\n'), Some(line.len() - 1));
        }
    }

    #[test]
    fn the_same_seed_gives_the_same_lines() {
        let (mut one, mut other) = (Script::new(4, Range::All), Script::new(4, Range::All));
        for _ in 0..500 {
            assert_eq!(one.next_line().line, other.next_line().line);
        }
    }
}
