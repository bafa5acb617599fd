//! Stage 4, unpack bits: each byte as eight bits, highest first.

use super::{front_within, Stage, BIT, BYTE};

/// The longest message.
const MOST: usize = 255;

/// The stage; it has no settings.
pub struct UnpackBits;

impl Stage for UnpackBits {
    fn number(&self) -> u32 {
        4
    }

    fn highest_taken(&self) -> u8 {
        BYTE
    }

    fn coded_length(&self, length: usize) -> Option<usize> {
        (length <= MOST).then_some(8 * length)
    }

    fn message_length(&self, length: usize) -> Option<usize> {
        (length.is_multiple_of(8) && length / 8 <= MOST).then_some(length / 8)
    }

    fn code(&self, message: &[u8], out: &mut Vec<u8>) {
        out.reserve(8 * message.len());
        for byte in message {
            out.extend([7, 6, 5, 4, 3, 2, 1, 0].map(|power| byte >> power & 1));
        }
    }

    fn decode(&self, received: &[u8], out: &mut Vec<u8>) -> Result<(), usize> {
        front_within(received, BIT)?;
        let byte = |bits: &[u8]| bits.iter().fold(0, |all, bit| all << 1 | bit);
        out.extend(received.chunks_exact(8).map(byte));
        Ok(())
    }
}

#[cfg(test)]
mod tests {
    use super::*;
    use crate::stages::testing::{all_lists, coded, lengths_are, places_are_exact};

    #[test]
    fn the_highest_bit_comes_first() {
        assert_eq!(coded(&UnpackBits, &[0x42]), [0, 1, 0, 0, 0, 0, 1, 0]);
        assert_eq!(coded(&UnpackBits, &[0x80, 0x01])[..9], [1, 0, 0, 0, 0, 0, 0, 0, 0]);
    }

    #[test]
    fn up_to_255_bytes_are_legal() {
        lengths_are(&UnpackBits, &(0..=255).collect::<Vec<_>>());
    }

    #[test]
    fn the_place_is_that_of_the_first_element_that_is_no_bit() {
        places_are_exact(&UnpackBits, 1, &all_lists(8, 2));
    }
}
