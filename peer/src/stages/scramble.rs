//! Stage 2, scramble: bytes XORed with a fixed sequence of bits.

use super::{Stage, BYTE};

/// The longest message.
const MOST: usize = 255;

/// The stage; it has no settings.
pub struct Scramble;

/// The bytes that a message is XORed with: the sequence, highest bit first.
static MASKS: [u8; MOST] = masks();

/// The sequence and the seven bits before its start, which are 1: each bit is the XOR of those 7
/// and 4 earlier.
const fn sequence() -> [u8; 7 + 8 * MOST] {
    let mut bits = [1; 7 + 8 * MOST];
    let mut at = 7;
    while at < bits.len() {
        bits[at] = bits[at - 7] ^ bits[at - 4];
        at += 1;
    }
    bits
}

const fn masks() -> [u8; MOST] {
    let bits = sequence();
    let mut masks = [0; MOST];
    let mut at = 0;
    while at < 8 * MOST {
        masks[at / 8] = masks[at / 8] << 1 | bits[7 + at];
        at += 1;
    }
    masks
}

/// Puts the list, XORed with the sequence, behind what `out` holds.
fn scramble(list: &[u8], out: &mut Vec<u8>) {
    out.extend(list.iter().zip(&MASKS).map(|(byte, mask)| byte ^ mask));
}

impl Stage for Scramble {
    fn number(&self) -> u32 {
        2
    }

    fn highest_taken(&self) -> u8 {
        BYTE
    }

    fn coded_length(&self, length: usize) -> Option<usize> {
        (length <= MOST).then_some(length)
    }

    fn message_length(&self, length: usize) -> Option<usize> {
        (length <= MOST).then_some(length)
    }

    fn code(&self, message: &[u8], out: &mut Vec<u8>) {
        scramble(message, out);
    }

    fn decode(&self, received: &[u8], out: &mut Vec<u8>) -> Result<(), usize> {
        scramble(received, out);
        Ok(())
    }
}

#[cfg(test)]
mod tests {
    use super::*;
    use crate::stages::testing::{all_lists, coded, lengths_are, places_are_exact};

    #[test]
    fn two_zero_bytes_scramble_to_0e_f2() {
        assert_eq!(coded(&Scramble, &[0, 0]), [0x0E, 0xF2]);
    }

    #[test]
    fn the_sequence_repeats_after_127_bits_and_not_earlier() {
        let bits = &sequence()[7..];
        assert_eq!(bits[..127], bits[127..254]);
        for shift in 1..127 {
            assert_ne!(bits[..127], bits[shift..shift + 127]);
        }
    }

    #[test]
    fn up_to_255_bytes_are_legal() {
        lengths_are(&Scramble, &(0..=255).collect::<Vec<_>>());
    }

    #[test]
    fn every_byte_is_a_coding() {
        places_are_exact(&Scramble, 0, &[vec![]]);
        places_are_exact(&Scramble, 1, &all_lists(1, 255));
    }
}
