//! Counts of lines by what they ask for and by what was answered.

use std::collections::BTreeMap;
use std::fmt;

use super::script::ODD;
use super::settings::{refusals, CHAINS};
use crate::range::Range;

/// The kinds of answers, in the order of the table's columns.
const KINDS: [&str; 15] =
    ["accepted", "1", "2", "3", "4", "5", "6", "7", "8", "9", "10", "11", "12", "13", "unreadable"];

/// The calls of frames, and the kinds of answers that they can get.
const FRAME_CALLS: [(&str, &[&str]); 8] = [
    ("pack", &["accepted", "1", "2", "3", "4", "5", "7"]),
    ("unpack", &["accepted", "2", "3", "4", "5", "10", "13"]),
    ("begin", &["accepted", "1", "2", "3", "4", "5", "7", "8"]),
    ("finish", &["accepted", "6", "unreadable"]),
    ("start", &["accepted", "8"]),
    ("feed", &["accepted", "2", "3", "4", "5", "9", "10", "11"]),
    ("take", &["accepted", "7", "12"]),
    ("record", &["accepted"]),
];

/// Fewer answers of a kind than this do not count as reached.
const LEAST: usize = 5;

/// The counts of a run.
pub struct Tally {
    /// The calls that are made.
    range: Range,
    /// For each label, how many answers there were of each kind.
    answers: BTreeMap<String, BTreeMap<&'static str, usize>>,
    /// Lines that get no answer.
    skipped: usize,
}

impl Tally {
    /// No counts, of a run with these calls.
    pub fn new(range: Range) -> Tally {
        Tally { range, answers: BTreeMap::new(), skipped: 0 }
    }

    /// Counts a line under its label, with the answer to it.
    pub fn count(&mut self, label: &str, answer: Option<&str>) {
        match answer {
            None => self.skipped += 1,
            Some(answer) => {
                let row = self.answers.entry(label.to_string()).or_default();
                *row.entry(kind(answer)).or_default() += 1;
            }
        }
    }

    fn of(&self, label: &str, kind: &str) -> usize {
        let row = self.answers.get(label);
        row.and_then(|row| row.get(kind)).copied().unwrap_or(0)
    }

    /// All answers of a kind.
    fn of_kind(&self, kind: &str) -> usize {
        self.answers.keys().map(|label| self.of(label, kind)).sum()
    }

    /// All answers.
    fn all(&self) -> usize {
        KINDS.iter().map(|kind| self.of_kind(kind)).sum()
    }

    /// All lines, with an answer or without.
    pub fn lines(&self) -> usize {
        self.all() + self.skipped
    }

    /// What the lines should have reached and did not: each kind of answer that a call can give,
    /// and a third of all answers accepted.
    pub fn unreached(&self) -> Vec<String> {
        let mut unreached = Vec::new();
        for (label, kinds) in expected(self.range) {
            for kind in kinds {
                let count = self.of(&label, kind);
                if count < LEAST {
                    unreached.push(format!("{label}: {count} of kind {kind}"));
                }
            }
        }
        if 3 * self.of_kind("accepted") < self.all() {
            unreached.push("accepted: less than a third".to_string());
        }
        unreached
    }
}

/// The kind of an answer.
fn kind(answer: &str) -> &'static str {
    let mut words = answer.split(' ');
    let name = match words.next() {
        Some("refused") => words.next().unwrap_or(""),
        Some("unreadable") => "unreadable",
        _ => "accepted",
    };
    let found = KINDS.iter().find(|&&kind| kind == name);
    found.expect("every answer is of a known kind")
}

/// For each label, the kinds of answers that it can get.
fn expected(range: Range) -> Vec<(String, Vec<&'static str>)> {
    let frames = range.has_frames();
    let mut all = vec![
        (ODD.to_string(), vec!["unreadable"]),
        ("size".to_string(), vec!["accepted", "1", "2", "3", "4", "5"]),
    ];
    for &name in range.stages().iter().chain(CHAINS.iter().filter(|_| frames)) {
        let calls = [("code", ["accepted", "7", "13"]), ("decode", ["accepted", "7", "10"])];
        for (call, kinds) in calls {
            all.push((format!("{call} {name}"), [&kinds, refusals(name)].concat()));
        }
    }
    if frames {
        all.extend(FRAME_CALLS.map(|(call, kinds)| (call.to_string(), kinds.to_vec())));
    }
    all
}

impl fmt::Display for Tally {
    fn fmt(&self, out: &mut fmt::Formatter<'_>) -> fmt::Result {
        let heading = KINDS.map(|kind| format!("{kind:>7}")).join(" ");
        writeln!(out, "{:<18} {heading}", "")?;
        for label in self.answers.keys() {
            let counts = KINDS.map(|kind| format!("{:>7}", self.of(label, kind))).join(" ");
            writeln!(out, "{label:<18} {counts}")?;
        }
        let sums = KINDS.map(|kind| format!("{:>7}", self.of_kind(kind))).join(" ");
        writeln!(out, "{:<18} {sums}", "all")?;
        let share = 100 * self.of_kind("accepted") / self.all().max(1);
        let (lines, answers, skipped) = (self.lines(), self.all(), self.skipped);
        write!(out, "{lines} lines: {answers} answers, {share} % accepted; {skipped} skipped")
    }
}

#[cfg(test)]
mod tests {
    use super::*;
    use crate::compare::plan::DEFAULT_SEED;
    use crate::compare::script::Script;

    fn unreached(lines: usize, range: Range) -> Vec<String> {
        let mut script = Script::new(DEFAULT_SEED, range);
        let mut tally = Tally::new(range);
        for _ in 0..lines {
            let asked = script.next_line();
            tally.count(&asked.label, asked.expected.as_deref());
        }
        tally.unreached()
    }

    #[test]
    fn the_first_4000_lines_reach_every_kind_of_answer_and_a_third_is_accepted() {
        assert_eq!(unreached(4_000, Range::Seven), Vec::<String>::new());
        assert_eq!(unreached(4_000, Range::Ten), Vec::<String>::new());
    }

    #[test]
    fn the_first_60000_lines_with_frames_reach_every_kind_of_answer() {
        assert_eq!(unreached(60_000, Range::All), Vec::<String>::new());
    }

    #[test]
    fn answers_are_counted_by_their_kind() {
        let mut tally = Tally::new(Range::Ten);
        tally.count("size", Some("size 1 21"));
        tally.count("size", Some("refused 10 stage 7 place 2 depth 0"));
        tally.count("size", Some("unreadable"));
        tally.count("size", None);
        assert_eq!(tally.of("size", "accepted"), 1);
        assert_eq!(tally.of("size", "10"), 1);
        assert_eq!(tally.of("size", "unreadable"), 1);
        assert_eq!((tally.all(), tally.skipped), (3, 1));
    }
}
