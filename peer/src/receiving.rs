//! A receiver: it gathers the rows of one frame after the other.

use crate::calls::decode_and_check;
use crate::chains::{header_chain, payload_chain};
use crate::packing;
use crate::refusal::{Part, Refusal};
use crate::rows::{
    is_live, live_cells, reference, Row, CARRIERS, HEADER_CELLS, HEADER_ROWS, SILENT,
};
use crate::size::{size, Header};
use crate::stages::EIGHTH;

/// The receiver, which is one of its states.
#[derive(Debug, Default, PartialEq, Eq)]
pub enum Receiver {
    /// It does not listen and has no frame.
    #[default]
    Idle,
    /// It listens to header rows.
    Header {
        reference: Row,
        /// The cells of the rows so far.
        cells: Vec<u8>,
    },
    /// It listens to payload rows under a legal header.
    Payload {
        header: Header,
        /// Row 12, the last of the header.
        reference: Row,
        /// The cells of the payload rows so far.
        cells: Vec<u8>,
    },
    /// It has a frame that was not taken.
    Whole { header: Header, payload: Vec<u8> },
}

impl Receiver {
    /// Listens afresh from this reference; 8 if it is none.
    pub fn start(&mut self, cells: &[u8]) -> Result<(), Refusal> {
        let reference = reference(cells).ok_or(Refusal::Reference)?;
        *self = Receiver::Header { reference, cells: vec![] };
        Ok(())
    }

    /// Takes a row and answers how many of the part in hand are missing: 11 if it does not listen,
    /// 9 for a row that cannot be one. Rows that are no coding (10) or no legal header's (2 to 5)
    /// end listening.
    pub fn feed(&mut self, row: &[u8]) -> Result<usize, Refusal> {
        match self {
            Receiver::Idle | Receiver::Whole { .. } => Err(Refusal::NotListening),
            Receiver::Header { reference, cells } => {
                keep(row, cells, |_| true)?;
                if cells.len() < HEADER_CELLS {
                    return Ok(HEADER_ROWS - cells.len() / CARRIERS);
                }
                let next = header_decided(reference, cells);
                self.go_on(next)
            }
            Receiver::Payload { header, reference, cells } => {
                keep(row, cells, |carrier| is_live(header.tm, carrier))?;
                let missing = payload_rows(header) - cells.len() / CARRIERS;
                if missing > 0 {
                    return Ok(missing);
                }
                let next = payload_decided(header, reference, cells);
                self.go_on(next)
            }
        }
    }

    /// Goes on to the next state and answers the rows that it misses, or ends listening.
    fn go_on(&mut self, next: Result<Receiver, Refusal>) -> Result<usize, Refusal> {
        *self = Receiver::Idle;
        *self = next?;
        Ok(match self {
            Receiver::Payload { header, .. } => payload_rows(header),
            _ => 0,
        })
    }

    /// Hands over the frame, for a buffer of `room` bytes: 12 if there is none, 7 if the payload
    /// does not fit.
    pub fn take(&mut self, room: usize) -> Result<(Header, Vec<u8>), Refusal> {
        match self {
            Receiver::Whole { payload, .. } if room < payload.len() => Err(Refusal::Room),
            Receiver::Whole { header, payload } => {
                let frame = (*header, std::mem::take(payload));
                *self = Receiver::Idle;
                Ok(frame)
            }
            _ => Err(Refusal::NoFrame),
        }
    }
}

/// Puts a row behind the cells if it can be one: 36 cells, live ones up to 7, others up to 8.
fn keep(row: &[u8], cells: &mut Vec<u8>, live: impl Fn(usize) -> bool) -> Result<(), Refusal> {
    let highest = |carrier| if live(carrier) { EIGHTH } else { SILENT };
    if row.len() != CARRIERS || row.iter().enumerate().any(|(at, &cell)| cell > highest(at)) {
        return Err(Refusal::Row);
    }
    cells.extend_from_slice(row);
    Ok(())
}

/// How many payload rows a frame with this header has.
fn payload_rows(header: &Header) -> usize {
    4 * header.fl as usize
}

/// What follows the thirteenth row.
fn header_decided(from: &Row, cells: &[u8]) -> Result<Receiver, Refusal> {
    let bits = decode_and_check(&header_chain(from), cells)
        .map_err(|fault| Refusal::Received(fault, Part::Header))?;
    let header = packing::header(&bits);
    size(&header)?;
    let row_12 = &cells[HEADER_CELLS - CARRIERS..];
    let reference = reference(row_12).expect("no header row has a cell above 7");
    Ok(Receiver::Payload { header, reference, cells: vec![] })
}

/// What follows the last row.
fn payload_decided(header: &Header, from: &Row, cells: &[u8]) -> Result<Receiver, Refusal> {
    let live = live_cells(header.tm, cells);
    let payload = decode_and_check(&payload_chain(header, from), &live)
        .map_err(|fault| Refusal::Received(fault, Part::Payload))?;
    Ok(Receiver::Whole { header: *header, payload })
}

#[cfg(test)]
mod tests;
