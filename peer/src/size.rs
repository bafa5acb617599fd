//! The sizes of a frame, from the five numbers of its header.

use crate::refusal::Refusal;

/// The five numbers of a header, as the host gives them: not checked.
#[derive(Clone, Copy, Debug, PartialEq, Eq)]
pub struct Header {
    pub pdc: u32,
    pub modulation: u32,
    pub fl: u32,
    pub tm: u32,
    pub dt: u32,
}

/// What follows from a legal header.
#[derive(Clone, Copy, Debug, PartialEq, Eq)]
pub struct Size {
    /// N, the payload's bytes.
    pub bytes: u32,
    /// Rows of the whole frame.
    pub rows: u32,
}

/// How the payload lies in its rows.
#[derive(Clone, Copy, Debug, PartialEq, Eq)]
pub struct Layout {
    /// m, the carriers that are live.
    pub carriers: u32,
    /// n, the payload's rows.
    pub rows: u32,
    /// b, the bits to an increment.
    pub bits: u32,
    /// r, how often each bit is sent.
    pub copies: u32,
    /// T, the strength of the Reed-Solomon code.
    pub strength: u32,
}

impl Layout {
    /// The layout under a header whose numbers are in their ranges.
    pub fn of(header: &Header) -> Layout {
        let (bits, copies, strength) =
            [(1, 4, 4), (1, 1, 8), (2, 1, 8), (3, 1, 8)][header.modulation as usize];
        let carriers = 6 * header.tm.count_ones();
        Layout { carriers, rows: 4 * header.fl, bits, copies, strength }
    }

    /// P, the coded bits that the rows carry.
    pub fn coded_bits(&self) -> u32 {
        self.carriers * self.rows * self.bits / self.copies
    }

    /// R, the bytes of the block that the rows can carry.
    pub fn block(&self) -> u32 {
        match self.coded_bits() {
            0..12 => 0,
            bits => (bits / 2 - 6) / 8,
        }
    }
}

/// The size of a frame with this header, or the first refusal that applies.
pub fn size(header: &Header) -> Result<Size, Refusal> {
    check_numbers(header)?;
    let layout = Layout::of(header);
    let (block, parity) = (layout.block(), 2 * layout.strength);
    if block < parity + 1 {
        return Err(Refusal::BlockTooShort);
    }
    if block > 255 {
        return Err(Refusal::BlockTooLong);
    }
    Ok(Size { bytes: block - parity, rows: 13 + layout.rows })
}

/// Refusals 1, 2 and 3, which look at single numbers.
fn check_numbers(header: &Header) -> Result<(), Refusal> {
    let Header { pdc, modulation, fl, tm, dt } = *header;
    if pdc > 255 || modulation > 3 || fl > 63 || tm > 511 || dt > 7 {
        return Err(Refusal::Range);
    }
    let reserved = tm / 64;
    let groups = tm % 64;
    if reserved != 0 || groups == 0 {
        return Err(Refusal::ToneMap);
    }
    if dt > 3 {
        return Err(Refusal::Reserved);
    }
    Ok(())
}

#[cfg(test)]
mod tests {
    use super::*;

    fn of(modulation: u32, fl: u32, tm: u32, dt: u32) -> Result<Size, Refusal> {
        size(&Header { pdc: 0, modulation, fl, tm, dt })
    }

    fn sized(bytes: u32, rows: u32) -> Result<Size, Refusal> {
        Ok(Size { bytes, rows })
    }

    #[test]
    fn worked_examples_have_their_bytes_and_rows() {
        assert_eq!(of(1, 2, 63, 0), sized(1, 21));
        assert_eq!(of(0, 10, 63, 0), sized(13, 53));
        assert_eq!(of(1, 28, 63, 0), sized(235, 125));
        assert_eq!(of(3, 9, 63, 0), sized(226, 49));
    }

    #[test]
    fn smallest_and_largest_frames_of_each_modulation_have_their_bytes() {
        let ends = [(0, 5, 2, 63, 133), (1, 2, 1, 28, 235), (2, 1, 1, 14, 235), (3, 1, 10, 9, 226)];
        for (modulation, low, low_bytes, high, high_bytes) in ends {
            assert_eq!(of(modulation, low, 63, 0), sized(low_bytes, 13 + 4 * low));
            assert_eq!(of(modulation, high, 63, 0), sized(high_bytes, 13 + 4 * high));
            assert!(of(modulation, low - 1, 63, 0).is_err());
            assert!(of(modulation, high + 1, 63, 0).is_err());
        }
    }

    #[test]
    fn a_block_too_short_is_refused_4_and_one_too_long_5() {
        assert_eq!(of(1, 1, 63, 0), Err(Refusal::BlockTooShort));
        assert_eq!(of(1, 0, 63, 0), Err(Refusal::BlockTooShort));
        assert_eq!(of(1, 29, 63, 0), Err(Refusal::BlockTooLong));
        assert_eq!(of(3, 10, 63, 0), Err(Refusal::BlockTooLong));
    }

    #[test]
    fn the_tone_map_is_looked_at_before_dt() {
        assert_eq!(of(1, 2, 0, 4), Err(Refusal::ToneMap));
        assert_eq!(of(1, 2, 64 + 63, 4), Err(Refusal::ToneMap));
        assert_eq!(of(1, 2, 63, 4), Err(Refusal::Reserved));
    }

    #[test]
    fn a_number_outside_its_range_is_refused_before_anything_else() {
        assert_eq!(of(4, 2, 0, 4), Err(Refusal::Range));
        assert_eq!(of(1, 64, 0, 4), Err(Refusal::Range));
        assert_eq!(of(1, 2, 512, 4), Err(Refusal::Range));
        assert_eq!(of(1, 2, 0, 8), Err(Refusal::Range));
    }
}
