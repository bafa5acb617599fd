//! The plain stages, one to a file, and what all of them offer.
//!
//! To add a stage: write its file, list the file here, and add its settings to `settings.rs`.

pub mod check;
pub mod convolution;
pub mod difference;
mod field;
pub mod fill;
pub mod interleave;
pub mod map;
pub mod reed_solomon;
pub mod repeat;
pub mod scramble;
#[cfg(test)]
pub mod testing;
pub mod unpack_bits;

/// The highest bit.
pub const BIT: u8 = 1;
/// The highest byte.
pub const BYTE: u8 = 255;
/// The highest increment, and the highest cell.
pub const EIGHTH: u8 = 7;

/// The longest list that map and difference take, and the longest that fill puts out.
pub const LONGEST: usize = 9_072;

/// One coding. A value of an implementing type always has legal settings.
pub trait Stage {
    /// The number under which the stage's faults are known.
    fn number(&self) -> u32;

    /// The highest element that the stage takes; the lowest is 0.
    fn highest_taken(&self) -> u8;

    /// How long the coding of a message of `length` elements is, if that length is legal.
    fn coded_length(&self, length: usize) -> Option<usize>;

    /// How long the messages are that have codings of `length` elements, if there are any.
    fn message_length(&self, length: usize) -> Option<usize>;

    /// Puts the coding of a legal message behind what `out` holds.
    fn code(&self, message: &[u8], out: &mut Vec<u8>);

    /// Puts the message of which the received list is the coding behind what `out` holds. If there
    /// is none, answers the place: the length of the longest front part that the list shares with
    /// some coding of its length; then `out` may have gained anything.
    ///
    /// Asked only for lists of a length that some coding has.
    fn decode(&self, received: &[u8], out: &mut Vec<u8>) -> Result<(), usize>;
}

/// How many elements two lists share at their front.
fn shared_front(one: &[u8], other: &[u8]) -> usize {
    one.iter().zip(other).take_while(|(a, b)| a == b).count()
}

/// Answers the place of the first element above the highest, if there is one.
fn front_within(list: &[u8], highest: u8) -> Result<(), usize> {
    match list.iter().position(|&element| element > highest) {
        Some(place) => Err(place),
        None => Ok(()),
    }
}
