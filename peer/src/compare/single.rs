//! Random calls that rest on nothing that was called before.

use super::random::Random;
use super::{headers, lists, settings};
use crate::packing;
use crate::protocol::{Call, Lists};
use crate::range::Range;
use crate::rows::CARRIERS;
use crate::size::Header;
use crate::stages::check::Check;
use crate::stages::unpack_bits::UnpackBits;
use crate::stages::Stage;

/// A call of `size` or of a stage; with frames also of `pack`, `unpack`, `record` or of a chain.
pub fn call(random: &mut Random, range: Range) -> Call {
    let frames = range.has_frames();
    match random.below(100) {
        0..10 => Call::Size(headers::any(random)),
        10..15 if frames => Call::Pack(headers::any(random), packing_room(random)),
        15..22 if frames => Call::Unpack(packed(random)),
        22..25 if frames => Call::Record(recording(random)),
        25..40 if frames => listed(random, &settings::CHAINS),
        _ => listed(random, range.stages()),
    }
}

/// A call of one of these stages.
fn listed(random: &mut Random, names: &[&str]) -> Call {
    let name = random.pick(names);
    if random.chance(50) {
        Call::Code(lists(random, name, true))
    } else {
        Call::Decode(lists(random, name, false))
    }
}

/// What a call of the stage is given. With wrong settings, list and buffers are such as right
/// settings would ask for.
fn lists(random: &mut Random, name: &str, code: bool) -> Lists {
    let right = settings::right(random, name);
    let chain = right.chain().expect("the settings are right");
    let (list, room, other) = if code {
        let list = lists::to_code(random, &chain);
        let length = list.len();
        (list, chain.code_room(length), chain.coded_length(length))
    } else {
        let list = lists::to_decode(random, &chain);
        let length = list.len();
        (list, chain.decode_room(length), chain.message_length(length))
    };
    let least = other.unwrap_or(0).min(list.len());
    let (work, result) = lists::buffers(random, room, least);
    let wrong = if random.chance(10) { settings::wrong(random, name) } else { None };
    Lists { settings: wrong.unwrap_or(right), list, work, result }
}

/// The length of a buffer for five bytes.
fn packing_room(random: &mut Random) -> u32 {
    match random.below(10) {
        0..5 => 5,
        5..8 => random.below(5) as u32,
        _ => random.pick(&[6, 7, 255, 65_537, 4_294_967_295]),
    }
}

/// Bytes to unpack: mostly five of some header, often damaged.
fn packed(random: &mut Random) -> Vec<u8> {
    let header = match random.below(10) {
        0..5 => headers::legal(random),
        _ => headers::illegal_in_range(random),
    };
    let mut bytes = five_bytes(&header);
    match random.below(20) {
        0..12 => {}
        12..17 => {
            let bit = random.below(40);
            bytes[bit / 8] ^= 128 >> (bit % 8);
        }
        17..18 => bytes = (0..5).map(|_| random.byte(255)).collect(),
        _ => {
            let length = random.pick(&[0, 1, 4, 6, 10]);
            bytes.resize(length, 0);
        }
    }
    bytes
}

/// The header with its check bits and seven zeros.
fn five_bytes(header: &Header) -> Vec<u8> {
    let (mut bits, mut bytes) = (vec![], vec![]);
    Check.code(&packing::bits(header), &mut bits);
    bits.extend([0; 7]);
    UnpackBits.decode(&bits, &mut bytes).expect("these are bits");
    bytes
}

/// Cells of any kind, often whole rows.
fn recording(random: &mut Random) -> Vec<u8> {
    let rows = match random.below(20) {
        0 => random.pick(&[13, 264, 265, 266, 300]),
        1..10 => random.below(3),
        _ => random.below(8),
    };
    let short = match random.below(10) {
        0..5 => 0,
        5 => 1,
        6 => CARRIERS - 1,
        _ => random.below(CARRIERS),
    };
    let highest = random.pick(&[7, 8, 35]);
    (0..rows * CARRIERS + short).map(|_| random.byte(highest)).collect()
}
