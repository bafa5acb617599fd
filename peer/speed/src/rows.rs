//! The rows of the table, a function to a stage.

use crate::case::{Call, Case, Times};
use crate::library::*;
use crate::lists::lists;
use peer::stages::check::Check;
use peer::stages::convolution::Convolution;
use peer::stages::difference::Difference;
use peer::stages::fill::Fill;
use peer::stages::interleave::Interleave;
use peer::stages::map::Map;
use peer::stages::reed_solomon::ReedSolomon;
use peer::stages::repeat::Repeat;
use peer::stages::scramble::Scramble;
use peer::stages::unpack_bits::UnpackBits;
use peer::stages::Stage;

/// The stages are set to what they take.
const LEGAL: &str = "the settings are legal";

/// A stage of the second coder, and the library's two calls with the same settings.
macro_rules! case {
    ($stage:expr, $code:ident, $decode:ident $(, $setting:expr)*) => {
        Case {
            stage: $stage,
            code: |list: &[u8], work: &mut [u8], result: &mut [u8]| {
                $code($($setting,)* list, work, result)
            },
            decode: |list: &[u8], work: &mut [u8], result: &mut [u8]| {
                $decode($($setting,)* list, work, result)
            },
        }
    };
}

/// 28 bits.
pub fn check() {
    row("check", "", 28, &case!(Check, framecoder_check_code, framecoder_check_decode));
}

/// 255 bytes.
pub fn scramble() {
    let case = case!(Scramble, framecoder_scramble_code, framecoder_scramble_decode);
    row("scramble", "", 255, &case);
}

/// As many bytes as make a code word of 255.
pub fn reed_solomon(strength: usize) {
    let stage = ReedSolomon::new(strength as u32).expect(LEGAL);
    let case = case!(stage, framecoder_reed_solomon_code, framecoder_reed_solomon_decode, strength);
    row("reed-solomon", &format!("{strength}"), 255 - 2 * strength, &case);
}

/// 255 bytes.
pub fn unpack_bits() {
    let case = case!(UnpackBits, framecoder_unpack_bits_code, framecoder_unpack_bits_decode);
    row("unpack-bits", "", 255, &case);
}

pub fn convolution(length: usize) {
    let case = case!(Convolution, framecoder_convolution_code, framecoder_convolution_decode);
    row("convolution", "", length, &case);
}

pub fn fill(bits: usize, total: usize) {
    let stage = Fill::new(bits as u32, total as u32).expect(LEGAL);
    let case = case!(stage, framecoder_fill_code, framecoder_fill_decode, bits, total);
    row("fill", &format!("{bits} {total}"), bits, &case);
}

pub fn repeat(times: usize, length: usize) {
    let stage = Repeat::new(times as u32).expect(LEGAL);
    let case = case!(stage, framecoder_repeat_code, framecoder_repeat_decode, times);
    row("repeat", &format!("{times}"), length, &case);
}

pub fn interleave(width: usize, rows: usize, blocks: usize) {
    let stage = Interleave::new(width as u32, rows as u32, blocks as u32).expect(LEGAL);
    let case =
        case!(stage, framecoder_interleave_code, framecoder_interleave_decode, width, rows, blocks);
    row("interleave", &format!("{width} {rows} {blocks}"), width * rows * blocks, &case);
}

pub fn map(bits: usize, length: usize) {
    let stage = Map::new(bits as u32).expect(LEGAL);
    let case = case!(stage, framecoder_map_code, framecoder_map_decode, bits);
    row("map", &format!("{bits}"), length, &case);
}

/// Over a reference of 36 cells.
pub fn difference(length: usize) {
    let reference: Vec<u8> = (0..36).map(|cell| cell * 5 % 8).collect();
    let stage = Difference::new(reference.len() as u32, &reference).expect(LEGAL);
    let case = case!(stage, framecoder_difference_code, framecoder_difference_decode, &reference);
    row("difference", &format!("{}", reference.len()), length, &case);
}

/// The first line of the table: what is measured.
const MEASURED: &str =
    "                                         code: ns per element       decode: ns per element";
/// The second: the columns.
const COLUMNS: &str =
    "stage         settings      list coding    this second  ratio        this second  ratio";

/// Prints the table's heading.
pub fn heading() {
    println!("{MEASURED}");
    println!("{COLUMNS}");
}

/// Measures one case, on lists of `length` elements, and prints its line.
fn row<S: Stage>(name: &str, settings: &str, length: usize, case: &Case<S, impl Call, impl Call>) {
    let lists = lists(length, case.stage.highest_taken());
    let codings = case.codings(&lists);
    let code = columns(case.time_code(&lists, &codings));
    let decode = columns(case.time_decode(&lists, &codings));
    let coded = codings[0].len();
    println!("{name:<13} {settings:<11} {length:>6} {coded:>6} {code}     {decode}");
}

/// Three columns of the table.
fn columns(times: Times) -> String {
    format!("{:7.2} {:6.2} {:6.2}", times.library, times.second, times.ratio())
}
