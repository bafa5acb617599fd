//! Prints how long the stages of the proved coder take per element, beside the second coder.

mod case;
mod library;
mod lists;
mod rows;
mod second;
mod timing;

fn main() {
    rows::heading();
    rows::check();
    rows::scramble();
    rows::reed_solomon(4);
    rows::reed_solomon(8);
    rows::unpack_bits();
    rows::convolution(33);
    rows::convolution(2_040);
    rows::fill(4_092, 4_104);
    rows::repeat(6, 78);
    rows::repeat(4, 2_268);
    rows::interleave(36, 13, 1);
    rows::interleave(36, 252, 1);
    rows::interleave(36, 84, 3);
    rows::map(1, 468);
    rows::map(1, 9_072);
    rows::map(2, 9_072);
    rows::map(3, 9_072);
    rows::difference(468);
    rows::difference(9_072);
}
