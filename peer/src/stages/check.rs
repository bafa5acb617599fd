//! Stage 1, check: 28 bits and then their five-bit remainder.

use super::{front_within, shared_front, Stage, BIT};

/// The message's length.
const MESSAGE: usize = 28;
/// The length of the remainder.
const REMAINDER: usize = 5;
/// x^5 + x^2 + 1, highest power first.
const DIVISOR: [u8; REMAINDER + 1] = [1, 0, 0, 1, 0, 1];

/// The stage; it has no settings.
pub struct Check;

/// The remainder of `bits`, first bit the highest power, moved up five powers: division by hand.
fn remainder(bits: &[u8; MESSAGE]) -> [u8; REMAINDER] {
    let mut rest = [0; MESSAGE + REMAINDER];
    rest[..MESSAGE].copy_from_slice(bits);
    for start in 0..MESSAGE {
        if rest[start] == 1 {
            for (power, bit) in DIVISOR.iter().enumerate() {
                rest[start + power] ^= bit;
            }
        }
    }
    let [.., a, b, c, d, e] = rest;
    [a, b, c, d, e]
}

impl Stage for Check {
    fn number(&self) -> u32 {
        1
    }

    fn highest_taken(&self) -> u8 {
        BIT
    }

    fn coded_length(&self, length: usize) -> Option<usize> {
        (length == MESSAGE).then_some(MESSAGE + REMAINDER)
    }

    fn message_length(&self, length: usize) -> Option<usize> {
        (length == MESSAGE + REMAINDER).then_some(MESSAGE)
    }

    fn code(&self, message: &[u8], out: &mut Vec<u8>) {
        let bits = message.first_chunk().expect("a legal message has 28 bits");
        out.extend_from_slice(bits);
        out.extend_from_slice(&remainder(bits));
    }

    fn decode(&self, received: &[u8], out: &mut Vec<u8>) -> Result<(), usize> {
        let (bits, last) = received.split_first_chunk().expect("a coding has 33 bits");
        front_within(bits, BIT)?;
        let agreeing = shared_front(&remainder(bits), last);
        if agreeing < REMAINDER {
            return Err(MESSAGE + agreeing);
        }
        out.extend_from_slice(bits);
        Ok(())
    }
}

#[cfg(test)]
mod tests {
    use super::*;
    use crate::stages::testing::{coded, lengths_are, place};

    /// The 28 bits of three bytes and then 0 000.
    fn header_bits(bytes: [u8; 3]) -> Vec<u8> {
        let number = bytes.iter().fold(0u32, |all, &byte| all * 256 + u32::from(byte)) * 16;
        (0..28).rev().map(|power| (number >> power & 1) as u8).collect()
    }

    #[test]
    fn the_check_bits_of_00_42_3f_are_0_1_1_1_1() {
        let coding = coded(&Check, &header_bits([0x00, 0x42, 0x3F]));
        assert_eq!(coding[28..], [0, 1, 1, 1, 1]);
    }

    #[test]
    fn the_check_bits_of_00_0a_3f_are_0_1_1_0_0() {
        let coding = coded(&Check, &header_bits([0x00, 0x0A, 0x3F]));
        assert_eq!(coding[28..], [0, 1, 1, 0, 0]);
    }

    /// The message in which only the power k is 1.
    fn power(k: usize) -> [u8; 28] {
        std::array::from_fn(|at| u8::from(at == 27 - k))
    }

    #[test]
    fn the_remainder_of_1_is_x_squared_and_1() {
        assert_eq!(remainder(&power(0)), [0, 0, 1, 0, 1]);
    }

    #[test]
    fn the_remainders_of_powers_follow_from_each_other() {
        for k in 1..28 {
            let [highest, a, b, c, d] = remainder(&power(k - 1));
            assert_eq!(remainder(&power(k)), [a, b, c ^ highest, d, highest]);
        }
    }

    #[test]
    fn the_remainder_of_a_sum_is_the_sum_of_remainders() {
        for one in 0..28 {
            for other in 0..one {
                let sum = std::array::from_fn(|at| power(one)[at] ^ power(other)[at]);
                let (one, other) = (remainder(&power(one)), remainder(&power(other)));
                assert_eq!(remainder(&sum), std::array::from_fn(|at| one[at] ^ other[at]));
            }
        }
    }

    #[test]
    fn only_28_bits_are_legal() {
        lengths_are(&Check, &[28]);
    }

    #[test]
    fn a_changed_check_bit_is_the_place_and_a_changed_message_bit_is_not() {
        let coding = coded(&Check, &header_bits([0x00, 0x42, 0x3F]));
        for at in 0..33 {
            let mut received = coding.clone();
            received[at] ^= 1;
            let place = place(&Check, &received);
            assert!((28..33).contains(&place));
            assert!(at < 28 || place == at);
        }
    }

    #[test]
    fn an_element_that_is_no_bit_is_the_place() {
        let coding = coded(&Check, &[1; 28]);
        for at in 0..33 {
            let mut received = coding.clone();
            received[at] = 2;
            assert_eq!(place(&Check, &received), at);
        }
    }
}
