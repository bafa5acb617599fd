//! The two chains of a frame.

use crate::chain::Chain;
use crate::rows::{live_cells, Row, CARRIERS, HEADER_ROWS};
use crate::size::{Header, Layout};
use crate::stages::check::Check;
use crate::stages::convolution::Convolution;
use crate::stages::difference::Difference;
use crate::stages::fill::Fill;
use crate::stages::interleave::Interleave;
use crate::stages::map::Map;
use crate::stages::reed_solomon::ReedSolomon;
use crate::stages::repeat::Repeat;
use crate::stages::scramble::Scramble;
use crate::stages::unpack_bits::UnpackBits;
use crate::stages::Stage;

/// Why the settings of a chain's stages are in their ranges.
const IN_RANGE: &str = "the settings follow from a legal header and a reference";

/// From 28 header bits to 13 rows on all carriers, from a reference of cells 0 to 7.
pub fn header_chain(reference: &Row) -> Chain {
    let (width, rows) = (CARRIERS as u32, HEADER_ROWS as u32);
    Chain::new(vec![
        Box::new(Check),
        Box::new(Convolution),
        Box::new(Repeat::new(6).expect(IN_RANGE)),
        Box::new(Interleave::new(width, rows, 1).expect(IN_RANGE)),
        Box::new(Map::new(1).expect(IN_RANGE)),
        Box::new(Difference::new(width, reference).expect(IN_RANGE)),
    ])
}

/// From payload bytes to cells on live carriers, for a legal header and a reference row of cells 0
/// to 7.
pub fn payload_chain(header: &Header, reference: &Row) -> Chain {
    let layout = Layout::of(header);
    let Layout { carriers, rows, bits, copies, strength } = layout;
    let mut members: Vec<Box<dyn Stage>> = vec![
        Box::new(Scramble),
        Box::new(ReedSolomon::new(strength).expect(IN_RANGE)),
        Box::new(UnpackBits),
        Box::new(Convolution),
        Box::new(Fill::new(16 * layout.block() + 12, layout.coded_bits()).expect(IN_RANGE)),
    ];
    if copies > 1 {
        members.push(Box::new(Repeat::new(copies).expect(IN_RANGE)));
    }
    members.push(Box::new(Interleave::new(carriers, rows, bits).expect(IN_RANGE)));
    members.push(Box::new(Map::new(bits).expect(IN_RANGE)));
    let live = live_cells(header.tm, reference);
    members.push(Box::new(Difference::new(carriers, &live).expect(IN_RANGE)));
    Chain::new(members)
}

#[cfg(test)]
mod tests {
    use super::*;
    use crate::size::size;

    fn every_legal_header(mut see: impl FnMut(&Header)) {
        for modulation in 0..4 {
            for fl in 0..64 {
                for tm in 1..64 {
                    let header = Header { pdc: 0, modulation, fl, tm, dt: 0 };
                    if size(&header).is_ok() {
                        see(&header);
                    }
                }
            }
        }
    }

    #[test]
    fn the_header_chain_takes_28_bits_to_13_rows() {
        assert_eq!(header_chain(&[0; 36]).coded_length(28), Some(468));
    }

    #[test]
    fn the_payload_chain_takes_the_frames_bytes_and_no_other_length() {
        every_legal_header(|header| {
            let chain = payload_chain(header, &[3; 36]);
            let bytes = size(header).unwrap().bytes as usize;
            let cells = 24 * header.tm.count_ones() as usize * header.fl as usize;
            assert_eq!(chain.coded_length(bytes), Some(cells));
            assert_eq!(chain.message_length(cells), Some(bytes));
            assert_eq!(chain.coded_length(bytes + 1), None);
            assert_eq!(chain.coded_length(bytes - 1), None);
        });
    }

    #[test]
    fn d8psk_of_four_rows_given_288_cells_needs_room_for_864_bits() {
        let header = Header { pdc: 0, modulation: 3, fl: 1, tm: 63, dt: 0 };
        assert_eq!(payload_chain(&header, &[0; 36]).decode_room(288), 864);
    }
}
