//! Random receptions: a start, rows, and what may follow the last of them.

use super::frames::{self, Frame};
use super::random::Random;
use crate::protocol::Call;

/// The calls of one reception, as they follow each other.
pub fn reception(random: &mut Random) -> Vec<Call> {
    let reference = frames::reference(random);
    let frame = frames::frame(random, &reference);
    let mut calls = vec![];
    if random.chance(10) {
        calls.push(Call::Start(frames::wrong_reference(random)));
    }
    if random.chance(97) {
        calls.push(Call::Start(reference.to_vec()));
    }
    calls.extend(feeds(random, &frame));
    if random.chance(12) {
        // The reception is left in the middle.
        calls.truncate(random.below(calls.len() + 1));
    } else {
        calls.extend(ending(random, &frame));
    }
    calls
}

/// The rows, and now and then between them a call that changes nothing.
fn feeds(random: &mut Random, frame: &Frame) -> Vec<Call> {
    let mut calls = vec![];
    for (row, tm) in &frame.rows {
        match random.below(200) {
            0..5 => calls.push(Call::Feed(frames::wrong_row(random, *tm))),
            5 => calls.push(Call::Take(room(random, frame.bytes))),
            6 => calls.push(Call::Start(frames::wrong_reference(random))),
            _ => {}
        }
        calls.push(Call::Feed(row.to_vec()));
    }
    calls
}

/// What may follow the last row.
fn ending(random: &mut Random, frame: &Frame) -> Vec<Call> {
    let exact = Call::Take(frame.bytes as u32);
    let short = Call::Take(frame.bytes.saturating_sub(1) as u32);
    let any = Call::Take(room(random, frame.bytes));
    match random.below(10) {
        0..3 => vec![exact],
        3 => vec![short, exact],
        4 => vec![any],
        5 => vec![Call::Take(0), short, any, exact],
        6 => vec![Call::Feed(frame.rows[0].0.to_vec()), any],
        7 => vec![Call::Start(frames::wrong_reference(random)), exact.clone(), exact],
        8 => vec![Call::Feed(frames::wrong_row(random, frame.rows[0].1)), exact],
        _ => vec![],
    }
}

/// The length of a buffer for so many bytes.
fn room(random: &mut Random, bytes: usize) -> u32 {
    let near = bytes as u32;
    random.pick(&[near, near + 1, near.saturating_sub(1), 0, 255, 65_537, 4_294_967_295])
}

/// A call of a receiver whatever it was doing: mostly one that leaves its rows alone.
pub fn stray(random: &mut Random) -> Call {
    let bytes = random.below(256);
    match random.below(100) {
        0..50 => Call::Take(room(random, bytes)),
        50..65 => Call::Start(frames::wrong_reference(random)),
        65..92 => {
            let tm = 1 + random.below(63) as u32;
            Call::Feed(frames::wrong_row(random, tm))
        }
        92..96 => Call::Start(frames::reference(random).to_vec()),
        _ => Call::Feed(frames::reference(random).to_vec()),
    }
}

#[cfg(test)]
mod tests {
    use std::collections::BTreeSet;

    use super::*;
    use crate::compare::lines;
    use crate::session::Session;

    /// What can go wrong in a frame, from the line inward, and what is handed over.
    const ANSWERS: [&str; 22] = [
        "refused 10 stage 9 depth 1 part header",
        "refused 10 stage 7 depth 3 part header",
        "refused 10 stage 5 depth 4 part header",
        "refused 10 stage 1 depth 5 part header",
        "refused 2",
        "refused 3",
        "refused 4",
        "refused 5",
        "refused 10 stage 9 depth 1 part payload",
        "refused 10 stage 7 depth 3 part payload",
        "refused 10 stage 6 depth 3 part payload",
        "refused 10 stage 6 depth 4 part payload",
        "refused 10 stage 5 depth 4 part payload",
        "refused 10 stage 5 depth 5 part payload",
        "refused 10 stage 3 depth 6 part payload",
        "refused 10 stage 3 depth 7 part payload",
        "frame MOD 0",
        "frame MOD 1",
        "frame MOD 2",
        "frame MOD 3",
        "refused 9",
        "refused 12",
    ];

    /// The answer without its place, or the frame's MOD.
    fn kind(answer: &str) -> String {
        let words: Vec<&str> = answer.split(' ').collect();
        match words[..] {
            ["frame", _, modulation, ..] => format!("frame MOD {modulation}"),
            ["refused", "10", _, stage, _, _, _, depth, _, part] => {
                format!("refused 10 stage {stage} depth {depth} part {part}")
            }
            _ => answer.to_string(),
        }
    }

    #[test]
    fn receptions_bring_frames_of_every_mod_and_faults_of_every_stage_that_can_have_one() {
        let mut random = Random::new(7);
        let mut session = Session::default();
        let mut kinds = BTreeSet::new();
        for _ in 0..6_000 {
            for call in reception(&mut random) {
                let line = lines::words(&mut random, &call).join(" ");
                kinds.extend(session.answer(line.as_bytes()).map(|answer| kind(&answer)));
            }
        }
        for answer in ANSWERS {
            assert!(kinds.contains(answer), "{answer}");
        }
    }
}
