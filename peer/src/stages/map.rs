//! Stage 9, map: each b bits, first highest, as one increment in eighths of a turn.

use super::{Stage, BIT, LONGEST};
use crate::refusal::Refusal;

/// Some bits and the increment that they give.
type Entry = (&'static [u8], u8);

const ONE_BIT: [Entry; 2] = [(&[0], 0), (&[1], 4)];

const TWO_BITS: [Entry; 4] = [(&[0, 0], 0), (&[0, 1], 2), (&[1, 1], 4), (&[1, 0], 6)];

const THREE_BITS: [Entry; 8] = [
    (&[0, 0, 0], 0),
    (&[0, 0, 1], 1),
    (&[0, 1, 1], 2),
    (&[0, 1, 0], 3),
    (&[1, 1, 0], 4),
    (&[1, 1, 1], 5),
    (&[1, 0, 1], 6),
    (&[1, 0, 0], 7),
];

/// The stage with its setting, 1 to 3 bits to an increment.
pub struct Map {
    width: usize,
    /// The increment for each group of bits, at the number that they are, first highest.
    increments: [u8; 8],
    /// The bits that give each increment, if any do.
    groups: [Option<&'static [u8]>; 8],
}

impl Map {
    /// The stage that maps so many bits to one increment.
    pub fn new(width: u32) -> Result<Map, Refusal> {
        let table: &[Entry] = match width {
            1 => &ONE_BIT,
            2 => &TWO_BITS,
            3 => &THREE_BITS,
            _ => return Err(Refusal::Range),
        };
        let mut map = Map { width: width as usize, increments: [0; 8], groups: [None; 8] };
        for &(bits, increment) in table {
            map.increments[number(bits)] = increment;
            map.groups[usize::from(increment)] = Some(bits);
        }
        Ok(map)
    }
}

/// The number that the bits are, first highest.
fn number(bits: &[u8]) -> usize {
    bits.iter().fold(0, |all, &bit| all << 1 | usize::from(bit))
}

impl Stage for Map {
    fn number(&self) -> u32 {
        9
    }

    fn highest_taken(&self) -> u8 {
        BIT
    }

    fn coded_length(&self, length: usize) -> Option<usize> {
        (length.is_multiple_of(self.width) && length <= LONGEST).then_some(length / self.width)
    }

    fn message_length(&self, length: usize) -> Option<usize> {
        (length * self.width <= LONGEST).then_some(length * self.width)
    }

    fn code(&self, message: &[u8], out: &mut Vec<u8>) {
        let groups = message.chunks_exact(self.width);
        out.extend(groups.map(|bits| self.increments[number(bits)]));
    }

    fn decode(&self, received: &[u8], out: &mut Vec<u8>) -> Result<(), usize> {
        out.reserve(received.len() * self.width);
        for (place, &increment) in received.iter().enumerate() {
            let bits = self.groups.get(usize::from(increment)).copied().flatten();
            for &bit in bits.ok_or(place)? {
                out.push(bit);
            }
        }
        Ok(())
    }
}

#[cfg(test)]
mod tests {
    use super::*;
    use crate::stages::testing::{all_lists, coded, lengths_are, places_are_exact};

    fn map(width: u32) -> Map {
        Map::new(width).unwrap()
    }

    #[test]
    fn the_tables_give_the_stated_increments() {
        assert_eq!(coded(&map(1), &[0, 1]), [0, 4]);
        assert_eq!(coded(&map(2), &[0, 0, 0, 1, 1, 1, 1, 0]), [0, 2, 4, 6]);
        let three = [0, 0, 0, 0, 0, 1, 0, 1, 1, 0, 1, 0, 1, 1, 0, 1, 1, 1, 1, 0, 1, 1, 0, 0];
        assert_eq!(coded(&map(3), &three), [0, 1, 2, 3, 4, 5, 6, 7]);
    }

    #[test]
    fn neighbouring_increments_differ_in_one_bit() {
        for table in [&ONE_BIT[..], &TWO_BITS, &THREE_BITS] {
            for (at, entry) in table.iter().enumerate() {
                let next = table[(at + 1) % table.len()];
                let differing = entry.0.iter().zip(next.0).filter(|(a, b)| a != b);
                assert_eq!(differing.count(), 1);
                assert_eq!(entry.1 as usize, at * 8 / table.len());
            }
        }
    }

    #[test]
    fn other_widths_are_refused() {
        for width in [0, 4, 5, 257, u32::MAX] {
            assert!(Map::new(width).is_err());
        }
    }

    #[test]
    fn multiples_of_the_width_up_to_9072_are_legal() {
        for width in 1..=3 {
            let legal: Vec<usize> = (0..=9_072).step_by(width as usize).collect();
            lengths_are(&map(width), &legal);
        }
    }

    #[test]
    fn an_increment_that_no_bits_give_is_the_place() {
        places_are_exact(&map(1), 3, &all_lists(3, 9));
        places_are_exact(&map(2), 6, &all_lists(3, 9));
        places_are_exact(&map(3), 6, &all_lists(2, 9));
    }
}
