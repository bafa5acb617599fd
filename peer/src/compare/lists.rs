//! Random lists to be coded and decoded, and random lengths of buffers.

use super::random::Random;
use crate::chain::Chain;
use crate::stages::{BYTE, EIGHTH};

/// No stage takes a longer list than this.
const LONGEST_SEARCHED: usize = 30_000;

/// Around the longest buffer that is served.
const HUGE: [usize; 3] = [65_535, 65_536, 65_537];

/// A list to be coded: mostly legal, else of a wrong length or with an element too high.
pub fn to_code(random: &mut Random, chain: &Chain) -> Vec<u8> {
    let lengths = legal_lengths(chain);
    let highest = chain.highest_taken();
    let way = random.below(100);
    let right_length = way < 75 || way >= 88 && highest < BYTE;
    let length =
        if right_length { some_length(random, &lengths) } else { wrong_length(random, &lengths) };
    let mut list = elements(random, length, highest);
    if way >= 85 {
        raise_one(random, &mut list, highest);
    }
    list
}

/// A list to be decoded: a coding, a damaged coding, or a list of a length that no coding has.
pub fn to_decode(random: &mut Random, chain: &Chain) -> Vec<u8> {
    let lengths = legal_lengths(chain);
    let length = some_length(random, &lengths);
    let message = elements(random, length, chain.highest_taken());
    let mut list = chain.code(&message);
    match random.below(100) {
        0..40 => {}
        40..58 if chain.members().len() > 1 => list = damaged_inside(random, chain, &message),
        40..58 => {}
        58..78 => damage(random, &mut list),
        78..82 => list = elements(random, list.len(), 7),
        82..84 => list = elements(random, list.len(), BYTE),
        _ => {
            let coded: Vec<usize> = lengths.iter().filter_map(|&l| chain.coded_length(l)).collect();
            let length = wrong_length(random, &coded);
            go_on(&mut list, length, random.pick(&[6, 24, 30, 36]));
        }
    }
    list
}

/// The coding of the message in a chain of several stages, with some elements of the list behind
/// one of them changed to others that the next takes.
pub fn damaged_inside(random: &mut Random, chain: &Chain, message: &[u8]) -> Vec<u8> {
    let members = chain.members();
    let damaged = random.below(members.len());
    let mut list = message.to_vec();
    for (at, member) in members.iter().enumerate() {
        let taken = std::mem::take(&mut list);
        member.code(&taken, &mut list);
        if at == damaged {
            let highest = members.get(at + 1).map_or(EIGHTH, |next| next.highest_taken());
            exchange(random, &mut list, highest);
        }
    }
    list
}

/// Changes one element or a few to others up to the highest.
pub fn exchange(random: &mut Random, list: &mut [u8], highest: u8) {
    let changes = random.pick(&[1, 1, 1, 2, 3]);
    for _ in 0..changes {
        let at = some_place(random, list.len());
        let other = random.byte(highest - 1);
        list[at] = if other < list[at] { other } else { other + 1 };
    }
}

/// Cuts the list to the length, or lets it go on as it was `period` elements before.
fn go_on(list: &mut Vec<u8>, length: usize, period: usize) {
    list.truncate(length);
    for at in list.len()..length {
        list.push(if at < period { 0 } else { list[at - period] });
    }
}

/// The lengths of two buffers for a call whose longest list has `room` elements and whose shortest
/// has `least`.
pub fn buffers(random: &mut Random, room: usize, least: usize) -> (u32, u32) {
    let short = room.saturating_sub(1);
    let more = room + random.below(4);
    let (work, result) = match random.below(100) {
        0..45 => (room, room),
        45..55 => (more, room + random.below(300)),
        55..68 => (far(random), far(random)),
        68..72 => (room, far(random)),
        72..76 => (far(random), room),
        76..83 => (short, more),
        83..90 => (more, short),
        90..92 => (least, more),
        92..94 => (more, least),
        94..96 => (short, far(random)),
        96..98 => (far(random), short),
        _ => (random.below(room + 2), random.below(room + 2)),
    };
    (work as u32, result as u32)
}

/// The length of a buffer around or beyond the longest that is served.
fn far(random: &mut Random) -> usize {
    random.pick(&[65_535, 65_536, 65_537, 131_072, 4_294_967_295])
}

/// The lengths that the chain takes, in order.
fn legal_lengths(chain: &Chain) -> Vec<usize> {
    let all = 0..=LONGEST_SEARCHED;
    all.filter(|&length| chain.coded_length(length).is_some()).collect()
}

/// One of the lengths: mostly among the first, else among the last, or any.
fn some_length(random: &mut Random, lengths: &[usize]) -> usize {
    let count = lengths.len();
    let at = match random.below(100) {
        0..8 => 0,
        8..16 => 1,
        16..20 => count - 1,
        20..23 => count.saturating_sub(2),
        23..28 => random.below(count),
        28..45 => random.below(count.min(60)),
        _ => random.below(count.min(12)),
    };
    lengths[at.min(count - 1)]
}

/// A length that is none of these, which are in order; often beside one of them, or the next that
/// they would lead to.
fn wrong_length(random: &mut Random, lengths: &[usize]) -> usize {
    let last = lengths[lengths.len() - 1];
    let step = if lengths.len() > 1 { last - lengths[lengths.len() - 2] } else { 1 };
    loop {
        let beside = some_length(random, lengths);
        let length = match random.below(100) {
            0..10 => random.pick(&[0, 1]),
            10..30 => beside + 1,
            30..50 => beside.saturating_sub(1),
            50..60 => beside + random.below(40),
            60..68 => last + 1,
            68..78 => last + step,
            78..82 => last + 2 + random.below(40),
            82..84 => random.pick(&HUGE),
            84..86 => random.pick(&[last / 2, last / 3, 2 * last]),
            86..90 => random.pick(&[6, 12, 36]) * random.below(30),
            _ => random.below(300),
        };
        if lengths.binary_search(&length).is_err() {
            return length;
        }
    }
}

/// So many elements from 0 to `highest`, now and then all the same.
fn elements(random: &mut Random, length: usize, highest: u8) -> Vec<u8> {
    match random.below(20) {
        0 => vec![0; length],
        1 => vec![highest; length],
        _ => (0..length).map(|_| random.byte(highest)).collect(),
    }
}

/// Puts one element above the highest, if there is an element and a byte so high.
fn raise_one(random: &mut Random, list: &mut [u8], highest: u8) {
    if list.is_empty() || highest == BYTE {
        return;
    }
    let beyond = highest + 1;
    let at = some_place(random, list.len());
    list[at] = match random.below(3) {
        0 => beyond,
        1 => beyond + random.byte(BYTE - beyond),
        _ => BYTE,
    };
}

/// Changes one element or a few.
fn damage(random: &mut Random, list: &mut [u8]) {
    if list.is_empty() {
        return;
    }
    let changes = random.pick(&[1, 1, 1, 2, 3]);
    for _ in 0..changes {
        let at = some_place(random, list.len());
        list[at] = match random.below(4) {
            0 => list[at] ^ 1,
            1 => list[at].wrapping_add(1),
            2 => random.byte(9),
            _ => random.byte(BYTE),
        };
    }
}

/// A place in a list that is not empty: the first, the last, one of the last few, or any.
fn some_place(random: &mut Random, length: usize) -> usize {
    match random.below(8) {
        0 => 0,
        1 => length - 1,
        2 => length - 1 - random.below(length.min(6)),
        _ => random.below(length),
    }
}
