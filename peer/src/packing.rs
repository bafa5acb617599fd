//! A header as bits, and as the five bytes that it is packed into.

use crate::refusal::{Fault, Refusal};
use crate::size::{size, Header};
use crate::stages::check::Check;
use crate::stages::unpack_bits::UnpackBits;
use crate::stages::Stage;

/// The bits of PDC, MOD, FL, TM[7] to TM[0], TM[8] and DT.
const WIDTHS: [usize; 6] = [8, 2, 6, 8, 1, 3];
/// The bytes that a header is packed into.
const PACKED: usize = 5;
/// The bits of a header with its check bits.
const CHECKED: usize = 33;
/// The zeros behind them in the last byte.
const ZEROS: usize = 7;

/// The 28 bits of a header whose numbers are in their ranges, in the order of sending.
pub fn bits(header: &Header) -> Vec<u8> {
    let Header { pdc, modulation, fl, tm, dt } = *header;
    let fields = [pdc, modulation, fl, tm % 256, tm / 256, dt];
    let parts = fields.into_iter().zip(WIDTHS);
    let bits = parts.flat_map(|(field, width)| (0..width).rev().map(move |k| field >> k & 1));
    bits.map(|bit| bit as u8).collect()
}

/// The header of 28 bits.
pub fn header(bits: &[u8]) -> Header {
    let mut rest = bits;
    let fields = WIDTHS.map(|width| {
        let (field, behind) = rest.split_at(width);
        rest = behind;
        field.iter().fold(0, |all, &bit| all << 1 | u32::from(bit))
    });
    let [pdc, modulation, fl, low, high, dt] = fields;
    Header { pdc, modulation, fl, tm: 256 * high + low, dt }
}

/// The five bytes of a legal header, for a buffer of `room` bytes.
pub fn pack(header: &Header, room: usize) -> Result<Vec<u8>, Refusal> {
    size(header)?;
    if room < PACKED {
        return Err(Refusal::Room);
    }
    let mut all = vec![];
    Check.code(&bits(header), &mut all);
    all.extend([0; ZEROS]);
    let mut bytes = vec![];
    UnpackBits.decode(&all, &mut bytes).expect("these are bits");
    Ok(bytes)
}

/// The header that the bytes are the packing of.
pub fn unpack(bytes: &[u8]) -> Result<Header, Refusal> {
    if bytes.len() != PACKED {
        return Err(Refusal::Illegal);
    }
    let mut all = vec![];
    UnpackBits.code(bytes, &mut all);
    let (checked, zeros) = all.split_at(CHECKED);
    let fault = |place| Refusal::Fault(Fault { stage: Check.number(), place, depth: 0 });
    let mut message = vec![];
    Check.decode(checked, &mut message).map_err(fault)?;
    if let Some(place) = zeros.iter().position(|&bit| bit != 0) {
        return Err(fault(CHECKED + place));
    }
    let header = header(&message);
    size(&header)?;
    Ok(header)
}

#[cfg(test)]
mod tests {
    use super::*;

    fn numbers(modulation: u32, fl: u32, tm: u32, dt: u32) -> Header {
        Header { pdc: 0, modulation, fl, tm, dt }
    }

    fn fault(place: usize) -> Result<Header, Refusal> {
        Err(Refusal::Fault(Fault { stage: 1, place, depth: 0 }))
    }

    #[test]
    fn worked_examples_are_packed() {
        assert_eq!(pack(&numbers(1, 2, 63, 0), 5), Ok(vec![0x00, 0x42, 0x3F, 0x07, 0x80]));
        assert_eq!(pack(&numbers(0, 10, 63, 0), 5), Ok(vec![0x00, 0x0A, 0x3F, 0x06, 0x00]));
    }

    #[test]
    fn a_header_is_judged_before_the_room() {
        assert_eq!(pack(&numbers(1, 2, 63, 0), 4), Err(Refusal::Room));
        assert_eq!(pack(&numbers(1, 1, 63, 0), 4), Err(Refusal::BlockTooShort));
        assert_eq!(pack(&numbers(1, 64, 63, 0), 0), Err(Refusal::Range));
    }

    #[test]
    fn every_packing_is_unpacked() {
        for modulation in 0..4 {
            for tm in 1..64 {
                for (fl, dt) in [(5, 0), (9, 1), (14, 2), (28, 3), (63, 0)] {
                    let header = Header { pdc: tm + fl, ..numbers(modulation, fl, tm, dt) };
                    if let Ok(bytes) = pack(&header, 5) {
                        assert_eq!(unpack(&bytes), Ok(header));
                    }
                }
            }
        }
    }

    #[test]
    fn other_than_five_bytes_are_refused_13() {
        assert_eq!(unpack(&[]), Err(Refusal::Illegal));
        assert_eq!(unpack(&[0; 4]), Err(Refusal::Illegal));
        assert_eq!(unpack(&[0; 6]), Err(Refusal::Illegal));
    }

    #[test]
    fn the_place_of_a_fault_counts_the_zeros_behind_the_check_bits_too() {
        assert_eq!(unpack(&[0x00, 0x42, 0x3F, 0x07, 0x00]), fault(32));
        for zero in 0..7 {
            assert_eq!(unpack(&[0x00, 0x42, 0x3F, 0x07, 0x80 | 0x40 >> zero]), fault(33 + zero));
        }
        assert_eq!(unpack(&[0x00, 0x42, 0x3F, 0x07, 0x7F]), fault(32));
    }

    #[test]
    fn a_packed_header_that_is_not_legal_is_refused_after_faults() {
        let packed = |header: &Header| {
            let mut all = vec![];
            Check.code(&bits(header), &mut all);
            all.extend([0; 7]);
            let mut bytes = vec![];
            UnpackBits.decode(&all, &mut bytes).unwrap();
            bytes
        };
        assert_eq!(unpack(&packed(&numbers(1, 2, 0, 4))), Err(Refusal::ToneMap));
        assert_eq!(unpack(&packed(&numbers(1, 2, 256 + 63, 0))), Err(Refusal::ToneMap));
        assert_eq!(unpack(&packed(&numbers(1, 2, 63, 7))), Err(Refusal::Reserved));
        assert_eq!(unpack(&packed(&numbers(1, 1, 63, 0))), Err(Refusal::BlockTooShort));
        assert_eq!(unpack(&packed(&numbers(1, 29, 63, 0))), Err(Refusal::BlockTooLong));
        let mut damaged = packed(&numbers(1, 2, 0, 4));
        damaged[4] ^= 1;
        assert_eq!(unpack(&damaged), fault(39));
    }
}
