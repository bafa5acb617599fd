//! Stage 8, interleave: the bits of each block of m × n go to other places of it.

use super::{front_within, Stage, BIT};
use crate::refusal::Refusal;

/// The widths m that are legal.
const WIDTHS: [u32; 6] = [6, 12, 18, 24, 30, 36];
/// The most rows n of a block.
const MOST_ROWS: u32 = 252;
/// The most blocks b.
const MOST_BLOCKS: u32 = 3;

/// The stage with its settings: b blocks of n rows of m bits.
pub struct Interleave {
    /// Where each bit of a block goes.
    places: Vec<u32>,
    blocks: usize,
}

impl Interleave {
    /// The stage for `blocks` blocks of `rows` rows of `width` bits.
    pub fn new(width: u32, rows: u32, blocks: u32) -> Result<Interleave, Refusal> {
        let rows_fit = (1..=MOST_ROWS).contains(&rows);
        if !WIDTHS.contains(&width) || !rows_fit || !(1..=MOST_BLOCKS).contains(&blocks) {
            return Err(Refusal::Range);
        }
        Ok(Interleave { places: places(width, rows), blocks: blocks as usize })
    }

    /// The one length that is taken and put out.
    fn length(&self) -> usize {
        self.places.len() * self.blocks
    }
}

/// Where each bit of a block of n rows of m bits goes.
fn places(m: u32, n: u32) -> Vec<u32> {
    let (m_i, m_j) = steps(m);
    let (n_j, n_i) = steps(n);
    let place = |q: u32| {
        let (i, j) = (q % m, q / m);
        let row = (j * n_j + i * n_i) % n;
        let column = (i * m_i + row * m_j) % m;
        row * m + column
    };
    (0..m * n).map(place).collect()
}

/// The two smallest numbers from 1 on that have no common factor with `count`.
fn steps(count: u32) -> (u32, u32) {
    let mut apart = (1..).filter(|&number| common_factor(number, count) == 1);
    let first = apart.next();
    let second = apart.next();
    first.zip(second).expect("there is no end of such numbers")
}

/// The largest common factor.
fn common_factor(one: u32, other: u32) -> u32 {
    if other == 0 {
        one
    } else {
        common_factor(other, one % other)
    }
}

impl Stage for Interleave {
    fn number(&self) -> u32 {
        8
    }

    fn highest_taken(&self) -> u8 {
        BIT
    }

    fn coded_length(&self, length: usize) -> Option<usize> {
        (length == self.length()).then_some(length)
    }

    fn message_length(&self, length: usize) -> Option<usize> {
        (length == self.length()).then_some(length)
    }

    fn code(&self, message: &[u8], out: &mut Vec<u8>) {
        let start = out.len();
        out.resize(start + message.len(), 0);
        let size = self.places.len();
        for (taken, put) in message.chunks(size).zip(out[start..].chunks_mut(size)) {
            for (bit, &place) in taken.iter().zip(&self.places) {
                put[place as usize] = *bit;
            }
        }
    }

    fn decode(&self, received: &[u8], out: &mut Vec<u8>) -> Result<(), usize> {
        front_within(received, BIT)?;
        for block in received.chunks(self.places.len()) {
            out.extend(self.places.iter().map(|&place| block[place as usize]));
        }
        Ok(())
    }
}

#[cfg(test)]
mod tests {
    use super::*;
    use crate::stages::testing::{all_lists, coded, lengths_are, place, places_are_exact};

    fn interleave(width: u32, rows: u32, blocks: u32) -> Interleave {
        Interleave::new(width, rows, blocks).unwrap()
    }

    #[test]
    fn in_36_by_13_bits_1_36_and_467_go_to_83_41_and_163() {
        for (from, to) in [(0, 0), (1, 83), (36, 41), (467, 163)] {
            let mut message = vec![0; 468];
            message[from] = 1;
            let coding = coded(&interleave(36, 13, 1), &message);
            let ones: Vec<usize> = (0..468).filter(|&at| coding[at] == 1).collect();
            assert_eq!(ones, [to]);
        }
    }

    #[test]
    fn steps_have_no_common_factor_with_their_count() {
        assert_eq!(steps(36), (1, 5));
        assert_eq!(steps(13), (1, 2));
        assert_eq!(steps(30), (1, 7));
        assert_eq!(steps(6), (1, 5));
        assert_eq!(steps(1), (1, 2));
        assert_eq!(steps(252), (1, 5));
        assert_eq!(steps(210), (1, 11));
    }

    #[test]
    fn each_place_of_a_block_is_hit_once() {
        for m in WIDTHS {
            for n in 1..=MOST_ROWS {
                let mut hit = places(m, n);
                hit.sort_unstable();
                assert!(hit.into_iter().eq(0..m * n));
            }
        }
    }

    #[test]
    fn each_block_is_interleaved_by_itself() {
        let message: Vec<u8> = (0..36).map(|at| (at * at / 5 % 2) as u8).collect();
        let whole = coded(&interleave(6, 2, 3), &message);
        for (part, block) in whole.chunks(12).zip(message.chunks(12)) {
            assert_eq!(part, coded(&interleave(6, 2, 1), block));
        }
    }

    #[test]
    fn settings_are_refused_on_the_far_side_of_each_end() {
        for width in [0, 1, 3, 5, 7, 35, 37, 42, 262, u32::MAX] {
            assert!(Interleave::new(width, 13, 1).is_err());
        }
        for rows in [0, 253, 254, 257, 65_537, u32::MAX] {
            assert!(Interleave::new(36, rows, 1).is_err());
        }
        for blocks in [0, 4, 257, u32::MAX] {
            assert!(Interleave::new(36, 13, blocks).is_err());
        }
    }

    #[test]
    fn exactly_m_times_n_times_b_bits_are_legal() {
        lengths_are(&interleave(6, 1, 1), &[6]);
        lengths_are(&interleave(36, 13, 1), &[468]);
        lengths_are(&interleave(12, 252, 3), &[9_072]);
        lengths_are(&interleave(36, 252, 1), &[9_072]);
        assert_eq!(interleave(36, 252, 3).coded_length(27_216), Some(27_216));
    }

    #[test]
    fn the_place_is_that_of_the_first_element_that_is_no_bit_as_received() {
        places_are_exact(&interleave(6, 1, 1), 6, &all_lists(6, 2));
        let mut received = vec![1; 12];
        received[7] = 2;
        assert_eq!(place(&interleave(6, 2, 1), &received), 7);
        assert_eq!(place(&interleave(6, 2, 1), &[1; 11]), 0);
    }
}
