//! Stage 10, difference: each increment added to the output m earlier, the first m to a reference.

use super::{front_within, Stage, EIGHTH, LONGEST};
use crate::refusal::Refusal;

/// The widths m that are legal.
const WIDTHS: [u32; 6] = [6, 12, 18, 24, 30, 36];

/// The stage with its setting, a reference of m cells from 0 to 7.
pub struct Difference {
    reference: Vec<u8>,
}

impl Difference {
    /// The stage of this width from this reference.
    pub fn new(width: u32, reference: &[u8]) -> Result<Difference, Refusal> {
        let right_length = WIDTHS.contains(&width) && reference.len() == width as usize;
        if !right_length || reference.iter().any(|&cell| cell > EIGHTH) {
            return Err(Refusal::Range);
        }
        Ok(Difference { reference: reference.to_vec() })
    }

    /// The same length, if it is legal; a coding is as long as its message.
    fn same(&self, length: usize) -> Option<usize> {
        (length.is_multiple_of(self.reference.len()) && length <= LONGEST).then_some(length)
    }
}

impl Stage for Difference {
    fn number(&self) -> u32 {
        10
    }

    fn highest_taken(&self) -> u8 {
        EIGHTH
    }

    fn coded_length(&self, length: usize) -> Option<usize> {
        self.same(length)
    }

    fn message_length(&self, length: usize) -> Option<usize> {
        self.same(length)
    }

    fn code(&self, message: &[u8], out: &mut Vec<u8>) {
        let mut before = self.reference.clone();
        for increments in message.chunks_exact(before.len()) {
            for (cell, increment) in before.iter_mut().zip(increments) {
                *cell = (*cell + increment) % 8;
            }
            out.extend_from_slice(&before);
        }
    }

    fn decode(&self, received: &[u8], out: &mut Vec<u8>) -> Result<(), usize> {
        front_within(received, EIGHTH)?;
        let mut before = self.reference.as_slice();
        for cells in received.chunks_exact(before.len()) {
            out.extend(cells.iter().zip(before).map(|(cell, before)| (8 + cell - before) % 8));
            before = cells;
        }
        Ok(())
    }
}

#[cfg(test)]
mod tests {
    use super::*;
    use crate::stages::testing::{coded, decoded, lengths_are, place};

    fn difference(reference: &[u8]) -> Difference {
        Difference::new(reference.len() as u32, reference).unwrap()
    }

    #[test]
    fn the_first_increments_are_added_to_the_reference_and_the_next_to_those_sums() {
        let stage = difference(&[0, 1, 2, 3, 4, 7]);
        let message = [1, 1, 1, 1, 1, 1, 0, 7, 6, 5, 4, 3];
        let coding = coded(&stage, &message);
        assert_eq!(coding, [1, 2, 3, 4, 5, 0, 1, 1, 1, 1, 1, 3]);
        assert_eq!(decoded(&stage, &coding), Ok(message.to_vec()));
    }

    #[test]
    fn increments_of_0_repeat_the_reference() {
        let stage = difference(&[7, 6, 5, 4, 3, 2]);
        assert_eq!(coded(&stage, &[0; 12])[6..], [7, 6, 5, 4, 3, 2]);
    }

    #[test]
    fn settings_are_refused_on_the_far_side_of_each_end() {
        for width in [0, 1, 5, 7, 35, 37, 42] {
            assert!(Difference::new(width, &vec![0; width as usize]).is_err());
        }
        assert!(Difference::new(36, &[7; 36]).is_ok());
        assert!(Difference::new(36, &[0; 35]).is_err());
        assert!(Difference::new(36, &[0; 37]).is_err());
        assert!(Difference::new(6, &[0, 0, 0, 0, 0, 8]).is_err());
        assert!(Difference::new(u32::MAX, &[]).is_err());
    }

    #[test]
    fn multiples_of_m_up_to_9072_are_legal() {
        for width in WIDTHS {
            let legal: Vec<usize> = (0..=9_072).step_by(width as usize).collect();
            lengths_are(&difference(&vec![0; width as usize]), &legal);
        }
    }

    #[test]
    fn a_cell_above_7_is_the_place() {
        let stage = difference(&[1; 6]);
        for at in 0..12 {
            let mut received = vec![7; 12];
            assert_eq!(place(&stage, &received), 12);
            received[at] = 8;
            assert_eq!(place(&stage, &received), at);
        }
    }
}
