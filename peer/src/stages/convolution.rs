//! Stage 5, convolution: six zeros behind the message, and then two bits for each bit.

use super::{Stage, BIT};

/// The longest message.
const MOST: usize = 2_040;
/// The zeros behind the message.
const TAIL: usize = 6;

// A register holds the bit in hand as its lowest bit and the bit k back as bit k.

/// The bits of X: 0, 1, 2, 3 and 6 back.
const X_BITS: u8 = 0b100_1111;
/// The bits of Y: 0, 2, 3, 5 and 6 back.
const Y_BITS: u8 = 0b110_1101;

/// The stage; it has no settings.
pub struct Convolution;

/// The XOR of the register's bits that are taken.
fn parity(register: u8, taken: u8) -> u8 {
    (register & taken).count_ones() as u8 & 1
}

impl Stage for Convolution {
    fn number(&self) -> u32 {
        5
    }

    fn highest_taken(&self) -> u8 {
        BIT
    }

    fn coded_length(&self, length: usize) -> Option<usize> {
        (length <= MOST).then_some(2 * (length + TAIL))
    }

    fn message_length(&self, length: usize) -> Option<usize> {
        let fits = length.is_multiple_of(2) && (2 * TAIL..=2 * (MOST + TAIL)).contains(&length);
        fits.then(|| length / 2 - TAIL)
    }

    fn code(&self, message: &[u8], out: &mut Vec<u8>) {
        out.reserve(2 * (message.len() + TAIL));
        let mut register = 0;
        for bit in message.iter().chain(&[0; TAIL]) {
            register = register << 1 | bit;
            out.extend([parity(register, X_BITS), parity(register, Y_BITS)]);
        }
    }

    fn decode(&self, received: &[u8], out: &mut Vec<u8>) -> Result<(), usize> {
        let length = received.len() / 2 - TAIL;
        out.reserve(length);
        let mut register = 0;
        for (at, pair) in received.chunks_exact(2).enumerate() {
            // The bit that makes X what was received, and then 0 for each of the tail.
            let bit = if at < length { parity(register << 1, X_BITS) ^ pair[0] & BIT } else { 0 };
            register = register << 1 | bit;
            if pair[0] != parity(register, X_BITS) {
                return Err(2 * at);
            }
            if pair[1] != parity(register, Y_BITS) {
                return Err(2 * at + 1);
            }
            if at < length {
                out.push(bit);
            }
        }
        Ok(())
    }
}

#[cfg(test)]
mod tests {
    use super::*;
    use crate::stages::testing::{all_lists, coded, lengths_are, place, places_are_exact};

    const SINGLE_ONE: [u8; 14] = [1, 1, 1, 0, 1, 1, 1, 1, 0, 0, 0, 1, 1, 1];

    #[test]
    fn the_single_bit_1_convolves_to_the_two_polynomials() {
        assert_eq!(coded(&Convolution, &[1]), SINGLE_ONE);
    }

    #[test]
    fn nothing_convolves_to_twelve_zeros() {
        assert_eq!(coded(&Convolution, &[]), [0; 12]);
    }

    #[test]
    fn the_coding_of_a_sum_is_the_sum_of_shifted_codings() {
        for message in all_lists(9, 1) {
            let mut sum = vec![0; 30];
            for (at, &bit) in message.iter().enumerate() {
                for (back, &part) in SINGLE_ONE.iter().enumerate() {
                    sum[2 * at + back] ^= bit & part;
                }
            }
            assert_eq!(coded(&Convolution, &message), sum);
        }
    }

    #[test]
    fn up_to_2040_bits_are_legal() {
        lengths_are(&Convolution, &(0..=2_040).collect::<Vec<_>>());
    }

    #[test]
    fn places_of_a_damaged_single_one() {
        let changed = |at: usize, element: u8| {
            let mut received = SINGLE_ONE;
            received[at] = element;
            place(&Convolution, &received)
        };
        assert_eq!(changed(0, 0), 1);
        assert_eq!(changed(0, 2), 0);
        assert_eq!(changed(2, 0), 2);
        assert_eq!(changed(13, 0), 13);
    }

    #[test]
    fn the_place_is_the_longest_front_part_shared_with_any_coding() {
        let mut received = vec![];
        for front in all_lists(6, 2) {
            received.push([front.as_slice(), &[0; 10]].concat());
            received.push([front.as_slice(), &[1, 1, 1, 0, 1, 1, 0, 1, 1, 2]].concat());
        }
        for message in all_lists(2, 1) {
            let coding = coded(&Convolution, &message);
            for at in 0..coding.len() {
                for element in [0, 1, 2, 3, 255] {
                    let mut damaged = coding.clone();
                    damaged[at] = element;
                    received.push(damaged);
                }
            }
        }
        places_are_exact(&Convolution, 2, &received);
    }
}
