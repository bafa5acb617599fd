//! Random headers, legal and not.

use super::random::Random;
use crate::refusal::Refusal;
use crate::size::{size, Header};

/// A header, mostly in its ranges and often with the shortest or longest frame.
pub fn any(random: &mut Random) -> Header {
    let mut header = Header { fl: random.below(64) as u32, ..numbers(random) };
    if random.chance(60) {
        header.fl = edge_length(random, header);
    }
    let changes = random.pick(&[0, 0, 0, 1, 2]);
    for _ in 0..changes {
        change(random, &mut header);
    }
    header
}

/// A legal header, mostly of a short frame.
pub fn legal(random: &mut Random) -> Header {
    let header = numbers(random);
    let with_fl = (0..64).map(|fl| Header { fl, ..header });
    let legal: Vec<Header> = with_fl.filter(|header| size(header).is_ok()).collect();
    let count = legal.len();
    legal[match random.below(100) {
        0..60 => 0,
        60..88 => random.below(count.min(4)),
        88..95 => random.below(count),
        _ => count - 1,
    }]
}

/// A header with numbers in their ranges that is not legal: such as a line can bring. Each refusal
/// from 2 to 5 is as likely as the others.
pub fn illegal_in_range(random: &mut Random) -> Header {
    let refusals =
        [Refusal::ToneMap, Refusal::Reserved, Refusal::BlockTooShort, Refusal::BlockTooLong];
    let refusal = random.pick(&refusals);
    loop {
        let header = changed_in_range(random);
        if size(&header) == Err(refusal) {
            return header;
        }
    }
}

/// A header with numbers in their ranges of which one or two are likely to make it illegal.
fn changed_in_range(random: &mut Random) -> Header {
    let mut header = Header { fl: random.below(64) as u32, ..numbers(random) };
    let changes = random.pick(&[1, 1, 2]);
    for _ in 0..changes {
        match random.below(5) {
            0 => header.tm |= random.pick(&[64, 128, 256, 448]),
            1 => header.tm = random.pick(&[0, 64, 511]),
            2 => header.dt = 4 + random.below(4) as u32,
            3 => header.fl = edge_length(random, header).min(63),
            _ => header.fl = random.pick(&[0, 1, 62, 63]),
        }
    }
    header
}

/// A header that needs only an FL to be legal.
fn numbers(random: &mut Random) -> Header {
    Header {
        pdc: random.below(256) as u32,
        modulation: random.below(4) as u32,
        fl: 0,
        tm: if random.chance(50) { 63 } else { 1 + random.below(63) as u32 },
        dt: random.below(4) as u32,
    }
}

/// The smallest or largest FL with which the header is legal, or one beside it.
fn edge_length(random: &mut Random, header: Header) -> u32 {
    let legal = |&fl: &u32| size(&Header { fl, ..header }).is_ok();
    let smallest = (0..64).find(legal).unwrap_or(0);
    let largest = (0..64).rfind(legal).unwrap_or(63);
    let edges = [smallest, smallest, smallest.saturating_sub(1), largest, largest, largest + 1];
    random.pick(&edges)
}

/// Puts one number of the header at or beyond an end of its range.
fn change(random: &mut Random, header: &mut Header) {
    let far = random.pick(&[65_536, 2_147_483_648, 4_294_967_295]);
    match random.below(9) {
        0 => header.pdc = random.pick(&[0, 255, 256, far]),
        1 => header.modulation = random.pick(&[3, 4, 5, 257, far]),
        2 => header.fl = random.pick(&[0, 1, 63, 64, 258, far]),
        3 | 4 => header.tm = random.pick(&[0, 64, 127, 128, 256, 319, 511]),
        5 => header.tm = random.pick(&[512, 575, far]),
        6 | 7 => header.dt = random.pick(&[4, 5, 6, 7]),
        _ => header.dt = random.pick(&[3, 8, 256, far]),
    }
}

#[cfg(test)]
mod tests {
    use super::*;

    #[test]
    fn legal_headers_are_legal_and_of_every_kind() {
        let mut random = Random::new(5);
        let headers: Vec<Header> = (0..10_000).map(|_| legal(&mut random)).collect();
        assert!(headers.iter().all(|header| size(header).is_ok()));
        for modulation in 0..4 {
            assert!(
                (1..64).all(|tm| headers.iter().any(|h| (h.modulation, h.tm) == (modulation, tm)))
            );
        }
        assert!(headers.iter().any(|header| header.fl == 63));
    }

    #[test]
    fn headers_that_a_line_can_bring_are_refused_2_to_5() {
        let mut random = Random::new(6);
        let refusals: Vec<Refusal> =
            (0..500).map(|_| size(&illegal_in_range(&mut random)).unwrap_err()).collect();
        assert!(!refusals.contains(&Refusal::Range));
        for refusal in
            [Refusal::ToneMap, Refusal::Reserved, Refusal::BlockTooShort, Refusal::BlockTooLong]
        {
            assert!(refusals.contains(&refusal), "{refusal}");
        }
    }
}
