//! Sending a frame: begin writes the header rows, finish the payload rows.

use crate::chains::{header_chain, payload_chain};
use crate::packing;
use crate::refusal::Refusal;
use crate::rows::{reference, spread, CARRIERS, HEADER_CELLS};
use crate::size::{size, Header};

/// A frame of which the header rows are written and the payload rows are not.
#[derive(Debug, PartialEq, Eq)]
pub struct Begun {
    /// A legal header.
    header: Header,
}

/// Writes the header rows of a frame to the front of the buffer: 1 to 5 for the header, 8 for the
/// reference, 7 if the whole frame does not fit.
pub fn begin(header: &Header, cells: &[u8], buffer: &mut [u8]) -> Result<Begun, Refusal> {
    let size = size(header)?;
    let reference = reference(cells).ok_or(Refusal::Reference)?;
    if buffer.len() < size.rows as usize * CARRIERS {
        return Err(Refusal::Room);
    }
    let coding = header_chain(&reference).code(&packing::bits(header));
    buffer[..HEADER_CELLS].copy_from_slice(&coding);
    Ok(Begun { header: *header })
}

impl Begun {
    /// Writes the payload rows behind the header rows in the same buffer: 6 for a payload of a
    /// wrong length, 7 if the whole frame does not fit, 8 if row 12 is no reference. A refusal
    /// hands the begun frame back.
    pub fn finish(self, payload: &[u8], buffer: &mut [u8]) -> Result<(), (Begun, Refusal)> {
        match self.payload_cells(payload, buffer) {
            Ok(cells) => {
                buffer[HEADER_CELLS..][..cells.len()].copy_from_slice(&cells);
                Ok(())
            }
            Err(refusal) => Err((self, refusal)),
        }
    }

    /// The cells of the payload rows.
    fn payload_cells(&self, payload: &[u8], buffer: &[u8]) -> Result<Vec<u8>, Refusal> {
        let size = size(&self.header)?;
        if payload.len() != size.bytes as usize {
            return Err(Refusal::Payload);
        }
        if buffer.len() < size.rows as usize * CARRIERS {
            return Err(Refusal::Room);
        }
        let row_12 = &buffer[HEADER_CELLS - CARRIERS..HEADER_CELLS];
        let reference = reference(row_12).ok_or(Refusal::Reference)?;
        let live = payload_chain(&self.header, &reference).code(payload);
        Ok(spread(self.header.tm, &live).concat())
    }
}

#[cfg(test)]
mod tests {
    use super::*;

    const HEADER: Header = Header { pdc: 0, modulation: 1, fl: 2, tm: 63, dt: 0 };
    const CELLS: usize = 21 * 36;

    #[test]
    fn payload_0e_under_dbpsk_of_8_rows_makes_every_payload_row_equal_row_12() {
        let mut buffer = vec![0; CELLS];
        let cells: Vec<u8> = (0..36).map(|at| at * 5 % 8).collect();
        let begun = begin(&HEADER, &cells, &mut buffer).unwrap();
        begun.finish(&[0x0E], &mut buffer).unwrap();
        let rows: Vec<&[u8]> = buffer.chunks(36).collect();
        assert!(rows[..13].iter().any(|row| *row != cells));
        assert!(rows[13..].iter().all(|row| *row == rows[12]));
    }

    #[test]
    fn cells_behind_the_frame_and_before_its_payload_stay() {
        let mut buffer = vec![99; CELLS + 1];
        let begun = begin(&HEADER, &[0; 36], &mut buffer).unwrap();
        assert!(buffer[..468].iter().all(|&cell| cell < 8));
        assert!(buffer[468..].iter().all(|&cell| cell == 99));
        begun.finish(&[1], &mut buffer).unwrap();
        assert!(buffer[..CELLS].iter().all(|&cell| cell < 8));
        assert_eq!(buffer[CELLS], 99);
    }

    #[test]
    fn begin_looks_at_the_header_then_the_reference_then_the_room() {
        let mut short = vec![5; CELLS - 1];
        let illegal = Header { dt: 4, ..HEADER };
        assert_eq!(begin(&illegal, &[8; 36], &mut short), Err(Refusal::Reserved));
        assert_eq!(begin(&HEADER, &[8; 36], &mut short), Err(Refusal::Reference));
        assert_eq!(begin(&HEADER, &[7; 36], &mut short), Err(Refusal::Room));
        assert_eq!(short, vec![5; CELLS - 1]);
    }

    #[test]
    fn finish_looks_at_the_payload_then_the_room_then_row_12() {
        let mut buffer = vec![0; CELLS];
        let begun = begin(&HEADER, &[0; 36], &mut buffer).unwrap();
        buffer[467] = 8;
        let before = buffer.clone();
        let (begun, refusal) = begun.finish(&[], &mut buffer[..1]).unwrap_err();
        assert_eq!(refusal, Refusal::Payload);
        let (begun, refusal) = begun.finish(&[0], &mut buffer[..CELLS - 1]).unwrap_err();
        assert_eq!(refusal, Refusal::Room);
        let (begun, refusal) = begun.finish(&[0], &mut buffer).unwrap_err();
        assert_eq!(refusal, Refusal::Reference);
        assert_eq!(buffer, before);
        buffer[467] = 0;
        assert_eq!(begun.finish(&[0], &mut buffer), Ok(()));
    }
}
