//! A reader over a recording: it hands out whole rows of the cells.

use crate::rows::CARRIERS;

/// The whole rows of the cells, in order, and how many cells are left behind them.
pub fn record(cells: &[u8]) -> (Vec<&[u8]>, usize) {
    let rows = cells.chunks_exact(CARRIERS);
    let short = rows.remainder().len();
    (rows.collect(), short)
}

#[cfg(test)]
mod tests {
    use super::*;

    #[test]
    fn whole_rows_are_handed_out_and_a_short_last_part_is_not() {
        let cells: Vec<u8> = (0..80).map(|at| at % 36).collect();
        assert_eq!(record(&cells), (vec![&cells[..36], &cells[36..72]], 8));
        assert_eq!(record(&cells[..72]), (vec![&cells[..36], &cells[36..72]], 0));
        assert_eq!(record(&cells[..35]), (vec![], 35));
        assert_eq!(record(&[]), (vec![], 0));
    }
}
