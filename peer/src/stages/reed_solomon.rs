//! Stage 3, Reed-Solomon: a message of bytes and then 2T bytes of parity.

use super::field::{logarithm, multiply, power};
use super::{shared_front, Stage, BYTE};
use crate::refusal::Refusal;

/// The longest code word.
const MOST: usize = 255;
/// The most parity bytes, for T = 8.
const MOST_PARITY: usize = 16;

/// The stage with its setting T, 4 or 8.
pub struct ReedSolomon {
    /// The logarithms of the generator's coefficients behind its leading 1, highest power first.
    generator: Vec<usize>,
}

impl ReedSolomon {
    /// The stage of strength T.
    pub fn new(strength: u32) -> Result<ReedSolomon, Refusal> {
        match strength {
            4 | 8 => {
                let coefficients = generator(2 * strength as usize);
                let logarithms = coefficients[1..].iter().map(|&byte| logarithm(byte));
                Ok(ReedSolomon { generator: logarithms.collect() })
            }
            _ => Err(Refusal::Range),
        }
    }

    /// How many bytes of parity there are, 2T.
    fn parity_length(&self) -> usize {
        self.generator.len()
    }

    /// The parity in front, and zeros behind it: what the message, moved up 2T powers, leaves on
    /// division by the generator.
    fn parity(&self, message: &[u8]) -> [u8; MOST_PARITY] {
        let mut rest = [0; MOST_PARITY];
        for byte in message {
            let highest = byte ^ rest[0];
            rest.copy_within(1.., 0);
            rest[MOST_PARITY - 1] = 0;
            if highest != 0 {
                let highest = logarithm(highest);
                for (coefficient, factor) in rest.iter_mut().zip(&self.generator) {
                    *coefficient ^= power(highest + factor);
                }
            }
        }
        rest
    }
}

/// The product of (x − α^i) for i from 1 to `degree`, highest power first. For the two degrees in use
/// no coefficient is 0.
fn generator(degree: usize) -> Vec<u8> {
    let mut product = vec![1];
    for i in 1..=degree {
        product.push(0);
        for at in (1..product.len()).rev() {
            product[at] ^= multiply(product[at - 1], power(i));
        }
    }
    product
}

impl Stage for ReedSolomon {
    fn number(&self) -> u32 {
        3
    }

    fn highest_taken(&self) -> u8 {
        BYTE
    }

    fn coded_length(&self, length: usize) -> Option<usize> {
        let coded = length + self.parity_length();
        (length >= 1 && coded <= MOST).then_some(coded)
    }

    fn message_length(&self, length: usize) -> Option<usize> {
        (length > self.parity_length() && length <= MOST).then(|| length - self.parity_length())
    }

    fn code(&self, message: &[u8], out: &mut Vec<u8>) {
        out.extend_from_slice(message);
        out.extend_from_slice(&self.parity(message)[..self.parity_length()]);
    }

    fn decode(&self, received: &[u8], out: &mut Vec<u8>) -> Result<(), usize> {
        let (message, last) = received.split_at(received.len() - self.parity_length());
        let parity = self.parity(message);
        let agreeing = shared_front(last, &parity);
        if agreeing < last.len() {
            return Err(message.len() + agreeing);
        }
        out.extend_from_slice(message);
        Ok(())
    }
}

#[cfg(test)]
mod tests {
    use super::*;
    use crate::stages::testing::{coded, lengths_are, place, places_are_exact};

    fn stage(strength: u32) -> ReedSolomon {
        ReedSolomon::new(strength).unwrap()
    }

    #[test]
    fn the_byte_01_shows_the_generator() {
        let coding = [0x01, 0xE3, 0x2C, 0xB2, 0x47, 0xAC, 0x08, 0xE0, 0x25];
        assert_eq!(coded(&stage(4), &[1]), coding);
    }

    #[test]
    fn no_coefficient_of_the_generators_is_0() {
        for degree in [8, 16] {
            let coefficients = generator(degree);
            assert_eq!((coefficients.len(), coefficients[0]), (degree + 1, 1));
            assert!(!coefficients.contains(&0));
        }
    }

    #[test]
    fn a_code_word_is_0_at_the_powers_of_alpha() {
        for strength in [4, 8] {
            let message: Vec<u8> = (0..239).map(|at| (at * at / 3 % 256) as u8).collect();
            for length in [1, 2, 17, 239] {
                let word = coded(&stage(strength), &message[..length]);
                for i in 1..=2 * strength as usize {
                    let value = word.iter().fold(0, |sum, byte| multiply(sum, power(i)) ^ byte);
                    assert_eq!(value, 0);
                }
            }
        }
    }

    #[test]
    fn other_strengths_are_refused() {
        for strength in [0, 1, 3, 5, 7, 9, 16, 260, 264, u32::MAX] {
            assert!(ReedSolomon::new(strength).is_err());
        }
    }

    #[test]
    fn one_byte_up_to_255_less_the_parity_is_legal() {
        lengths_are(&stage(4), &(1..=247).collect::<Vec<_>>());
        lengths_are(&stage(8), &(1..=239).collect::<Vec<_>>());
    }

    #[test]
    fn the_place_is_that_of_the_first_parity_byte_that_differs() {
        let coding = coded(&stage(4), &[1]);
        let changed = |at: usize, byte: u8| {
            let mut received = coding.clone();
            received[at] = byte;
            place(&stage(4), &received)
        };
        assert_eq!(changed(0, 2), 1);
        assert_eq!(changed(8, 0x26), 8);
        assert_eq!(changed(3, 0), 3);
    }

    #[test]
    fn the_place_is_the_longest_front_part_shared_with_any_code_word() {
        let damaged = |strength: u32| -> Vec<Vec<u8>> {
            let word = coded(&stage(strength), &[0x57]);
            let change = |at: usize| {
                let mut received = word.clone();
                received[at] ^= 0x11;
                received
            };
            (0..word.len()).map(change).chain([vec![255; word.len()]]).collect()
        };
        places_are_exact(&stage(4), 1, &damaged(4));
        places_are_exact(&stage(8), 1, &damaged(8));
    }
}
