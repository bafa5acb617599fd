//! Random frames to be sent: begin, finish, and what may go wrong around them.

use super::random::Random;
use super::{frames, headers};
use crate::protocol::Call;
use crate::rows::CARRIERS;
use crate::size::{size, Header};

/// The calls of one frame, as they follow each other.
pub fn transmission(random: &mut Random) -> Vec<Call> {
    let header = headers::legal(random);
    let bytes = size(&header).map_or(0, |size| size.bytes as usize);
    let mut calls = vec![];
    if random.chance(15) {
        calls.push(finish(random, bytes));
    }
    for _ in 0..random.pick(&[0, 0, 1, 2]) {
        calls.push(stray_begin(random));
    }
    let room = cells(&header) + random.pick(&[0, 0, 0, 1, 35, 36, 1_000, 60_000]);
    calls.push(Call::Begin(header, frames::reference(random).to_vec(), room));
    if random.chance(20) {
        calls.push(refused_begin(random));
    }
    if random.chance(40) {
        let wrong = random.pick(&[0, 1, bytes.saturating_sub(1), bytes + 1, bytes + 16, 255, 256]);
        calls.push(finish(random, wrong));
    }
    if random.chance(92) {
        calls.push(finish(random, bytes));
    }
    if random.chance(15) {
        calls.push(finish(random, bytes));
    }
    calls
}

/// A call of a sender whatever it was doing.
pub fn stray(random: &mut Random) -> Call {
    let bytes = random.below(256);
    match random.below(10) {
        0..7 => refused_begin(random),
        _ => finish(random, bytes),
    }
}

/// A begin with a header of any kind.
fn stray_begin(random: &mut Random) -> Call {
    let header = headers::any(random);
    let reference = match random.below(10) {
        0..3 => frames::wrong_reference(random),
        _ => frames::reference(random).to_vec(),
    };
    let cells = cells(&header);
    let room = random.pick(&[cells, cells, cells - 1, 0, 468, 9_540, 65_537, 4_294_967_295]);
    Call::Begin(header, reference, room)
}

/// A begin that fails for its reference or its buffer.
fn refused_begin(random: &mut Random) -> Call {
    let header = headers::legal(random);
    let short = random.pick(&[cells(&header) - 1, cells(&header) - 1, 0, 468]);
    match random.below(3) {
        0 => Call::Begin(header, frames::wrong_reference(random), 9_540),
        1 => Call::Begin(header, frames::wrong_reference(random), short),
        _ => Call::Begin(header, frames::reference(random).to_vec(), short),
    }
}

/// A finish with so many bytes.
fn finish(random: &mut Random, bytes: usize) -> Call {
    Call::Finish((0..bytes).map(|_| random.byte(255)).collect())
}

/// The cells of a frame, or of the longest if the header is not legal.
fn cells(header: &Header) -> u32 {
    size(header).map_or(265, |size| size.rows) * CARRIERS as u32
}
