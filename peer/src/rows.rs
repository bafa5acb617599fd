//! Rows of cells, one for each carrier.

use crate::stages::EIGHTH;

/// The cells of a row.
pub const CARRIERS: usize = 36;
/// The rows of the header.
pub const HEADER_ROWS: usize = 13;
/// The cells of the header.
pub const HEADER_CELLS: usize = HEADER_ROWS * CARRIERS;
/// The value of a silent carrier.
pub const SILENT: u8 = 8;

/// The carriers that a bit of the tone map makes live.
const GROUP: usize = 6;

/// The cells of all carriers, from the lowest up.
pub type Row = [u8; CARRIERS];

/// The cells as a row, if they are 36 of 0 to 7.
pub fn reference(cells: &[u8]) -> Option<Row> {
    let row: Row = cells.try_into().ok()?;
    row.iter().all(|&cell| cell <= EIGHTH).then_some(row)
}

/// Whether a carrier is live under the tone map.
pub fn is_live(tm: u32, carrier: usize) -> bool {
    tm >> (carrier / GROUP) & 1 == 1
}

/// The cells of live carriers of some rows, in order.
pub fn live_cells(tm: u32, cells: &[u8]) -> Vec<u8> {
    let numbered = cells.iter().enumerate();
    let live = numbered.filter(|(at, _)| is_live(tm, at % CARRIERS));
    live.map(|(_, cell)| *cell).collect()
}

/// Rows with these cells on live carriers and silence on the others.
pub fn spread(tm: u32, live: &[u8]) -> Vec<Row> {
    let width = (0..CARRIERS).filter(|&carrier| is_live(tm, carrier)).count();
    let row = |cells: &[u8]| {
        let mut cells = cells.iter();
        std::array::from_fn(|carrier| match is_live(tm, carrier) {
            true => *cells.next().expect("there is a cell for each live carrier"),
            false => SILENT,
        })
    };
    live.chunks(width).map(row).collect()
}

#[cfg(test)]
mod tests {
    use super::*;

    #[test]
    fn a_bit_of_the_tone_map_makes_six_carriers_live() {
        let live: Vec<usize> =
            (0..CARRIERS).filter(|&carrier| is_live(0b10_0010, carrier)).collect();
        assert_eq!(live, [6, 7, 8, 9, 10, 11, 30, 31, 32, 33, 34, 35]);
    }

    #[test]
    fn cells_are_spread_over_live_carriers_and_gathered_again() {
        let cells: Vec<u8> = (0..24).map(|at| at % 8).collect();
        let rows = spread(0b01_0001, &cells);
        assert_eq!(rows.len(), 2);
        assert_eq!(rows[0][..7], [0, 1, 2, 3, 4, 5, 8]);
        assert_eq!(rows[1][23..31], [8, 2, 3, 4, 5, 6, 7, 8]);
        assert_eq!(live_cells(0b01_0001, &rows.concat()), cells);
    }

    #[test]
    fn a_reference_is_36_cells_of_0_to_7() {
        assert_eq!(reference(&[7; 36]), Some([7; 36]));
        assert_eq!(reference(&[8; 36]), None);
        assert_eq!(reference(&[0; 35]), None);
        assert_eq!(reference(&[0; 37]), None);
    }
}
