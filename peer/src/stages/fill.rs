//! Stage 6, fill: exactly K bits, and zeros up to P.

use super::{front_within, Stage, BIT, LONGEST};
use crate::refusal::Refusal;

/// The stage with its settings, K at most P and P at most 9,072.
pub struct Fill {
    /// K, the message's length.
    taken: usize,
    /// P, the coding's length.
    filled: usize,
}

impl Fill {
    /// The stage that fills `taken` bits up to `filled`.
    pub fn new(taken: u32, filled: u32) -> Result<Fill, Refusal> {
        if taken > filled || filled > LONGEST as u32 {
            return Err(Refusal::Range);
        }
        Ok(Fill { taken: taken as usize, filled: filled as usize })
    }
}

impl Stage for Fill {
    fn number(&self) -> u32 {
        6
    }

    fn highest_taken(&self) -> u8 {
        BIT
    }

    fn coded_length(&self, length: usize) -> Option<usize> {
        (length == self.taken).then_some(self.filled)
    }

    fn message_length(&self, length: usize) -> Option<usize> {
        (length == self.filled).then_some(self.taken)
    }

    fn code(&self, message: &[u8], out: &mut Vec<u8>) {
        out.extend_from_slice(message);
        out.resize(out.len() + self.filled - self.taken, 0);
    }

    fn decode(&self, received: &[u8], out: &mut Vec<u8>) -> Result<(), usize> {
        let (message, zeros) = received.split_at(self.taken);
        front_within(message, BIT)?;
        front_within(zeros, 0).map_err(|place| self.taken + place)?;
        out.extend_from_slice(message);
        Ok(())
    }
}

#[cfg(test)]
mod tests {
    use super::*;
    use crate::stages::testing::{all_lists, coded, lengths_are, places_are_exact};

    #[test]
    fn zeros_stand_behind_the_message() {
        assert_eq!(coded(&Fill::new(2, 5).unwrap(), &[1, 1]), [1, 1, 0, 0, 0]);
        assert_eq!(coded(&Fill::new(0, 2).unwrap(), &[]), [0, 0]);
    }

    #[test]
    fn settings_are_refused_on_the_far_side_of_each_end() {
        assert!(Fill::new(0, 0).is_ok());
        assert!(Fill::new(9_072, 9_072).is_ok());
        assert!(Fill::new(0, 9_073).is_err());
        assert!(Fill::new(5, 4).is_err());
        assert!(Fill::new(u32::MAX, u32::MAX).is_err());
    }

    #[test]
    fn only_k_bits_are_legal() {
        lengths_are(&Fill::new(3, 7).unwrap(), &[3]);
        lengths_are(&Fill::new(0, 0).unwrap(), &[0]);
    }

    #[test]
    fn a_fill_that_is_not_zero_is_the_place() {
        places_are_exact(&Fill::new(3, 6).unwrap(), 3, &all_lists(6, 2));
        places_are_exact(&Fill::new(0, 3).unwrap(), 0, &all_lists(3, 2));
        places_are_exact(&Fill::new(3, 3).unwrap(), 3, &all_lists(3, 2));
    }
}
