//! Random rows: of whole frames, of damaged ones, and rows that cannot be any.

use super::headers;
use super::lists::{damaged_inside, exchange};
use super::random::Random;
use crate::chains::{header_chain, payload_chain};
use crate::packing;
use crate::rows::{is_live, spread, Row, CARRIERS, HEADER_ROWS, SILENT};
use crate::size::{size, Header};
use crate::stages::EIGHTH;

/// The highest cell that a line can have.
const HIGHEST_CELL: u8 = 35;
/// The tone map under which all carriers are live, as in header rows.
const ALL_LIVE: u32 = 63;

/// Rows to be fed one after the other.
pub struct Frame {
    /// Each row and the tone map under which it is received.
    pub rows: Vec<(Row, u32)>,
    /// The bytes of the payload, if the rows are a frame.
    pub bytes: usize,
}

/// Cells of 0 to 7.
pub fn reference(random: &mut Random) -> Row {
    match random.below(10) {
        0 => [random.byte(EIGHTH); CARRIERS],
        _ => std::array::from_fn(|_| random.byte(EIGHTH)),
    }
}

/// Cells that are no reference: too few, too many, or one too high.
pub fn wrong_reference(random: &mut Random) -> Vec<u8> {
    let mut cells = reference(random).to_vec();
    match random.below(4) {
        0 => resize(random, &mut cells),
        _ => {
            let at = random.below(CARRIERS);
            cells[at] = random.pick(&[8, 8, 8, 9, 10, 15, 16, HIGHEST_CELL]);
        }
    }
    cells
}

/// A row that cannot be one under the tone map: a wrong count of cells, or a cell too high.
pub fn wrong_row(random: &mut Random, tm: u32) -> Vec<u8> {
    let mut row = random_row(random, tm).to_vec();
    match random.below(4) {
        0 => resize(random, &mut row),
        _ => {
            let at = random.below(CARRIERS);
            let least = if is_live(tm, at) { SILENT } else { SILENT + 1 };
            row[at] = random.pick(&[least, least, 9, 10, 16, HIGHEST_CELL]);
        }
    }
    row
}

/// Cuts or prolongs 36 cells, so that there are no longer 36.
fn resize(random: &mut Random, cells: &mut Vec<u8>) {
    let length = random.pick(&[0, 1, 6, 35, 35, 37, 37, 72, 468]);
    cells.resize(length, 0);
}

/// A row that can be one under the tone map.
fn random_row(random: &mut Random, tm: u32) -> Row {
    let highest = |carrier| if is_live(tm, carrier) { EIGHTH } else { SILENT };
    std::array::from_fn(|carrier| random.byte(highest(carrier)))
}

/// The rows of a frame from the reference, or of one that fails on the way.
pub fn frame(random: &mut Random, from: &Row) -> Frame {
    match random.below(100) {
        0..16 => illegal_header(random, from),
        16..26 => damaged_header(random, from),
        26..43 => sent(random, from, true),
        43..46 => damaged_on_line(random, from),
        46..48 => out_of_order(random, from),
        48..50 => Frame { rows: random_rows(random, HEADER_ROWS + 2), bytes: 0 },
        _ => sent(random, from, false),
    }
}

/// The rows of a legal header and a payload; the payload may be damaged.
fn sent(random: &mut Random, from: &Row, damaged: bool) -> Frame {
    let header = headers::legal(random);
    let mut rows = header_rows(from, &header);
    let bytes = size(&header).map_or(0, |size| size.bytes as usize);
    let payload: Vec<u8> = match random.below(10) {
        0 => vec![random.pick(&[0, 255]); bytes],
        _ => (0..bytes).map(|_| random.byte(255)).collect(),
    };
    let chain = payload_chain(&header, &rows[HEADER_ROWS - 1].0);
    let live =
        if damaged { damaged_inside(random, &chain, &payload) } else { chain.code(&payload) };
    let noise = random.chance(40);
    for mut row in spread(header.tm, &live) {
        for cell in row.iter_mut().filter(|cell| noise && **cell == SILENT) {
            *cell = random.byte(SILENT);
        }
        rows.push((row, header.tm));
    }
    Frame { rows, bytes }
}

/// The rows of a header with numbers in their ranges.
fn header_rows(from: &Row, header: &Header) -> Vec<(Row, u32)> {
    all_live(&header_chain(from).code(&packing::bits(header)))
}

/// The cells as rows in which all carriers are live.
fn all_live(cells: &[u8]) -> Vec<(Row, u32)> {
    spread(ALL_LIVE, cells).into_iter().map(|row| (row, ALL_LIVE)).collect()
}

/// So many rows, and up to three more.
fn random_rows(random: &mut Random, count: usize) -> Vec<(Row, u32)> {
    let more = random.below(4);
    (0..count + more).map(|_| (random_row(random, ALL_LIVE), ALL_LIVE)).collect()
}

/// The rows of a header that is not legal, and perhaps some behind them.
fn illegal_header(random: &mut Random, from: &Row) -> Frame {
    let mut rows = header_rows(from, &headers::illegal_in_range(random));
    rows.extend(random_rows(random, 0));
    Frame { rows, bytes: 0 }
}

/// The rows of a header with damage, and perhaps some behind them.
fn damaged_header(random: &mut Random, from: &Row) -> Frame {
    let header =
        if random.chance(80) { headers::legal(random) } else { headers::illegal_in_range(random) };
    let cells = damaged_inside(random, &header_chain(from), &packing::bits(&header));
    let mut rows = all_live(&cells);
    rows.extend(random_rows(random, 0));
    Frame { rows, bytes: 0 }
}

/// A frame in which some cells of one row are others, on live carriers or not.
fn damaged_on_line(random: &mut Random, from: &Row) -> Frame {
    let mut frame = sent(random, from, false);
    let at = random.below(frame.rows.len());
    exchange(random, &mut frame.rows[at].0, EIGHTH);
    frame
}

/// A frame of which one row is missing, doubled, or changed for another.
fn out_of_order(random: &mut Random, from: &Row) -> Frame {
    let mut frame = sent(random, from, false);
    let (one, other) = (random.below(frame.rows.len()), random.below(frame.rows.len()));
    match random.below(3) {
        0 => drop(frame.rows.remove(one)),
        1 => frame.rows.insert(one, frame.rows[other]),
        _ => frame.rows.swap(one, other),
    }
    frame
}
