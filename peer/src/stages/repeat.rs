//! Stage 7, repeat: each bit 4 or 6 times.

use super::{Stage, BIT};
use crate::refusal::Refusal;

/// The longest message.
const MOST: usize = 2_268;

/// The stage with its setting, 4 or 6.
pub struct Repeat {
    times: usize,
}

impl Repeat {
    /// The stage that puts each bit out so many times.
    pub fn new(times: u32) -> Result<Repeat, Refusal> {
        match times {
            4 | 6 => Ok(Repeat { times: times as usize }),
            _ => Err(Refusal::Range),
        }
    }
}

impl Stage for Repeat {
    fn number(&self) -> u32 {
        7
    }

    fn highest_taken(&self) -> u8 {
        BIT
    }

    fn coded_length(&self, length: usize) -> Option<usize> {
        (length <= MOST).then_some(length * self.times)
    }

    fn message_length(&self, length: usize) -> Option<usize> {
        let message = length / self.times;
        (length.is_multiple_of(self.times) && message <= MOST).then_some(message)
    }

    fn code(&self, message: &[u8], out: &mut Vec<u8>) {
        let start = out.len();
        out.resize(start + message.len() * self.times, 0);
        for (copies, &bit) in out[start..].chunks_exact_mut(self.times).zip(message) {
            copies.fill(bit);
        }
    }

    fn decode(&self, received: &[u8], out: &mut Vec<u8>) -> Result<(), usize> {
        for (at, copies) in received.chunks_exact(self.times).enumerate() {
            let bit = copies[0];
            let agreeing = copies.iter().take_while(|&&copy| copy == bit && bit <= BIT).count();
            if agreeing < self.times {
                return Err(at * self.times + agreeing);
            }
            out.push(bit);
        }
        Ok(())
    }
}

#[cfg(test)]
mod tests {
    use super::*;
    use crate::stages::testing::{all_lists, coded, lengths_are, place, places_are_exact};

    #[test]
    fn repeat_by_4_receiving_1_1_0_1_has_place_2() {
        assert_eq!(place(&Repeat::new(4).unwrap(), &[1, 1, 0, 1]), 2);
    }

    #[test]
    fn each_bit_is_put_out_4_or_6_times() {
        assert_eq!(coded(&Repeat::new(4).unwrap(), &[1, 0]), [1, 1, 1, 1, 0, 0, 0, 0]);
        assert_eq!(coded(&Repeat::new(6).unwrap(), &[1]), [1; 6]);
    }

    #[test]
    fn other_counts_are_refused() {
        for times in [0, 1, 2, 3, 5, 7, 8, 260, u32::MAX] {
            assert!(Repeat::new(times).is_err());
        }
    }

    #[test]
    fn up_to_2268_bits_are_legal() {
        let legal: Vec<usize> = (0..=2_268).collect();
        lengths_are(&Repeat::new(4).unwrap(), &legal);
        lengths_are(&Repeat::new(6).unwrap(), &legal);
    }

    #[test]
    fn the_place_is_that_of_the_first_copy_that_differs() {
        places_are_exact(&Repeat::new(4).unwrap(), 2, &all_lists(8, 2));
        places_are_exact(&Repeat::new(6).unwrap(), 1, &all_lists(6, 3));
    }
}
