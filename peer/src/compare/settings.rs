//! Random settings of stages, in and out of their ranges.

use super::random::Random;
use super::{frames, headers};
use crate::settings::Settings;
use crate::size::{size, Header};

/// The names of the chains of a frame.
pub const CHAINS: [&str; 2] = ["header", "payload"];

/// The widths m of rows.
const WIDTHS: [u32; 6] = [6, 12, 18, 24, 30, 36];

/// Numbers that are out of every range, among them such as look small when cut to 8 or 16 bits.
const FAR: [u32; 6] = [256, 65_535, 65_536, 2_147_483_648, 4_294_967_294, 4_294_967_295];

/// The numbers of the refusals that wrong settings of the stage get.
pub fn refusals(name: &str) -> &'static [&'static str] {
    match name {
        "check" | "scramble" | "unpack-bits" | "convolution" => &[],
        "payload" => &["1", "2", "4", "5"],
        _ => &["1"],
    }
}

/// Settings of the stage that are in their ranges.
pub fn right(random: &mut Random, name: &str) -> Settings {
    match name {
        "check" => Settings::Check,
        "scramble" => Settings::Scramble,
        "rs" => Settings::ReedSolomon(random.pick(&[4, 8])),
        "unpack-bits" => Settings::UnpackBits,
        "convolution" => Settings::Convolution,
        "fill" => right_fill(random),
        "repeat" => Settings::Repeat(random.pick(&[4, 6])),
        "interleave" => right_interleave(random),
        "map" => Settings::Map(random.pick(&[1, 2, 3])),
        "difference" => {
            let width = random.pick(&WIDTHS);
            Settings::Difference(width, cells(random, width as usize))
        }
        "header" => Settings::HeaderChain(cells(random, 36)),
        "payload" => {
            let Header { modulation, fl, tm, .. } = headers::legal(random);
            Settings::PayloadChain(modulation, fl, tm, cells(random, 36))
        }
        _ => unreachable!("no stage is named {name}"),
    }
}

/// Settings of the stage of which at least one is out of its range; none if there are no settings.
pub fn wrong(random: &mut Random, name: &str) -> Option<Settings> {
    match name {
        "fill" => Some(wrong_fill(random)),
        "repeat" => {
            let times = random.pick(&[0, 1, 2, 3, 5, 7, 8, 24, 260, 262, 65_540, 65_542]);
            Some(Settings::Repeat(or_far(random, times)))
        }
        "rs" => {
            let strength = random.pick(&[0, 1, 2, 3, 5, 6, 7, 9, 12, 16, 260, 264, 65_540]);
            Some(Settings::ReedSolomon(or_far(random, strength)))
        }
        "interleave" => Some(wrong_interleave(random)),
        "map" => {
            let width = random.pick(&[0, 4, 5, 6, 8, 257, 258, 259, 65_537, 65_539]);
            Some(Settings::Map(or_far(random, width)))
        }
        "difference" => Some(wrong_difference(random)),
        "header" => Some(Settings::HeaderChain(frames::wrong_reference(random))),
        "payload" => Some(wrong_payload(random)),
        _ => None,
    }
}

/// The number given, or sometimes one that is far out of range.
fn or_far(random: &mut Random, number: u32) -> u32 {
    if random.chance(30) {
        random.pick(&FAR)
    } else {
        number
    }
}

fn right_fill(random: &mut Random) -> Settings {
    let filled = match random.below(10) {
        0 => random.pick(&[0, 1, 2]),
        1 => random.pick(&[9_071, 9_072]),
        2 => random.below(9_073) as u32,
        _ => random.below(120) as u32,
    };
    let taken = match random.below(5) {
        0 => 0,
        1 => filled,
        2 => filled.saturating_sub(1),
        _ => random.below(filled as usize + 1) as u32,
    };
    Settings::Fill(taken, filled)
}

fn wrong_fill(random: &mut Random) -> Settings {
    let far = random.pick(&FAR[1..]);
    let near = random.below(60) as u32;
    let (taken, filled) = match random.below(6) {
        0 => (near, 9_073),
        1 => (9_073, random.pick(&[9_072, 9_073])),
        2 => (near + 1, near),
        3 => (far, near),
        4 => (near, far),
        _ => (far, far),
    };
    Settings::Fill(taken, filled)
}

fn right_interleave(random: &mut Random) -> Settings {
    let rows = match random.below(100) {
        0..10 => 1,
        10..20 => 13,
        20..25 => random.pick(&[60, 120, 210, 251, 252]),
        25..32 => 1 + random.below(252) as u32,
        _ => 1 + random.below(16) as u32,
    };
    Settings::Interleave(random.pick(&WIDTHS), rows, random.pick(&[1, 1, 2, 3]))
}

fn wrong_interleave(random: &mut Random) -> Settings {
    let width = random.pick(&WIDTHS);
    let rows = 1 + random.below(16) as u32;
    let blocks = random.pick(&[1, 2, 3]);
    let wrong_width = random.pick(&[0, 1, 2, 3, 4, 5, 7, 9, 35, 37, 42, 48, 262, 292, 65_542]);
    let wrong_rows = random.pick(&[0, 253, 254, 255, 256, 257, 268, 65_537, 65_549]);
    let wrong_blocks = random.pick(&[0, 4, 5, 257, 258, 259, 65_537]);
    match random.below(4) {
        0 => Settings::Interleave(or_far(random, wrong_width), rows, blocks),
        1 => Settings::Interleave(width, or_far(random, wrong_rows), blocks),
        2 => Settings::Interleave(width, rows, or_far(random, wrong_blocks)),
        _ => Settings::Interleave(wrong_width, wrong_rows, wrong_blocks),
    }
}

fn wrong_difference(random: &mut Random) -> Settings {
    let width = random.pick(&WIDTHS);
    let length = width as usize;
    let (width, reference) = match random.below(9) {
        0 => (width, cells(random, length - 1)),
        1 => (width, cells(random, length + 1)),
        2 => (width, vec![]),
        3 => (
            random.pick(&[width - 1, width + 1, width + 256, width + 65_536]),
            cells(random, length),
        ),
        4 => (random.pick(&FAR), cells(random, length)),
        5 => {
            let width = random.pick(&[0, 1, 3, 4, 5, 7, 9, 11, 13, 35, 37, 42, 48, 262, 292]);
            (width, cells(random, width as usize))
        }
        _ => {
            let mut reference = cells(random, length);
            let at = random.below(length);
            reference[at] = random.pick(&[8, 8, 8, 9, 15, 16, 128, 255]);
            (width, reference)
        }
    };
    Settings::Difference(width, reference)
}

fn wrong_payload(random: &mut Random) -> Settings {
    if random.chance(25) {
        let Header { modulation, fl, tm, .. } = headers::legal(random);
        return Settings::PayloadChain(modulation, fl, tm, frames::wrong_reference(random));
    }
    let wrong = frames::wrong_reference(random);
    let row = if random.chance(50) { cells(random, 36) } else { wrong };
    let in_range = random.chance(80);
    loop {
        let header =
            if in_range { headers::illegal_in_range(random) } else { headers::any(random) };
        let Header { modulation, fl, tm, .. } = header;
        if size(&Header { pdc: 0, modulation, fl, tm, dt: 0 }).is_err() {
            return Settings::PayloadChain(modulation, fl, tm, row);
        }
    }
}

/// So many cells from 0 to 7.
fn cells(random: &mut Random, count: usize) -> Vec<u8> {
    (0..count).map(|_| random.byte(7)).collect()
}

#[cfg(test)]
mod tests {
    use super::*;

    #[test]
    fn right_settings_make_a_stage_and_wrong_ones_are_refused() {
        let mut random = Random::new(1);
        for name in crate::range::TEN_STAGES.into_iter().chain(CHAINS) {
            for _ in 0..1_000 {
                assert!(right(&mut random, name).chain().is_ok());
                let wrong = wrong(&mut random, name);
                assert_eq!(wrong.is_some(), !refusals(name).is_empty());
                assert!(wrong.is_none_or(|settings| settings.chain().is_err()));
            }
        }
    }
}
