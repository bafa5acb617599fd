//! The stages with their settings as a caller gives them: not checked.

use crate::chain::Chain;
use crate::chains::{header_chain, payload_chain};
use crate::refusal::Refusal;
use crate::rows::reference;
use crate::size::{size, Header};
use crate::stages::check::Check;
use crate::stages::convolution::Convolution;
use crate::stages::difference::Difference;
use crate::stages::fill::Fill;
use crate::stages::interleave::Interleave;
use crate::stages::map::Map;
use crate::stages::reed_solomon::ReedSolomon;
use crate::stages::repeat::Repeat;
use crate::stages::scramble::Scramble;
use crate::stages::unpack_bits::UnpackBits;
use crate::stages::Stage;

/// A stage or chain asked for, with the numbers and lists that were given for it.
#[derive(Clone, Debug, PartialEq, Eq)]
pub enum Settings {
    Check,
    Scramble,
    /// T.
    ReedSolomon(u32),
    UnpackBits,
    Convolution,
    /// K and P.
    Fill(u32, u32),
    /// How often each bit is put out.
    Repeat(u32),
    /// m, n and b.
    Interleave(u32, u32, u32),
    /// Bits to an increment.
    Map(u32),
    /// m and the reference.
    Difference(u32, Vec<u8>),
    /// The header chain: the reference row.
    HeaderChain(Vec<u8>),
    /// The payload chain: MOD, FL, TM, and row 12.
    PayloadChain(u32, u32, u32, Vec<u8>),
}

impl Settings {
    /// The chain, if its settings are in their ranges; a plain stage is a chain of one.
    pub fn chain(&self) -> Result<Chain, Refusal> {
        let stage: Box<dyn Stage> = match self {
            Settings::Check => Box::new(Check),
            Settings::Scramble => Box::new(Scramble),
            Settings::ReedSolomon(strength) => Box::new(ReedSolomon::new(*strength)?),
            Settings::UnpackBits => Box::new(UnpackBits),
            Settings::Convolution => Box::new(Convolution),
            Settings::Fill(taken, filled) => Box::new(Fill::new(*taken, *filled)?),
            Settings::Repeat(times) => Box::new(Repeat::new(*times)?),
            Settings::Interleave(width, rows, blocks) => {
                Box::new(Interleave::new(*width, *rows, *blocks)?)
            }
            Settings::Map(width) => Box::new(Map::new(*width)?),
            Settings::Difference(width, row) => Box::new(Difference::new(*width, row)?),
            Settings::HeaderChain(row) => return header(row),
            Settings::PayloadChain(modulation, fl, tm, row) => {
                let numbers = Header { pdc: 0, modulation: *modulation, fl: *fl, tm: *tm, dt: 0 };
                return payload(&numbers, row);
            }
        };
        Ok(Chain::new(vec![stage]))
    }

    /// The word that names the stage in a line.
    pub fn name(&self) -> &'static str {
        match self {
            Settings::Check => "check",
            Settings::Scramble => "scramble",
            Settings::ReedSolomon(..) => "rs",
            Settings::UnpackBits => "unpack-bits",
            Settings::Convolution => "convolution",
            Settings::Fill(..) => "fill",
            Settings::Repeat(..) => "repeat",
            Settings::Interleave(..) => "interleave",
            Settings::Map(..) => "map",
            Settings::Difference(..) => "difference",
            Settings::HeaderChain(..) => "header",
            Settings::PayloadChain(..) => "payload",
        }
    }
}

/// The header chain, or 1 if the row is no reference.
fn header(row: &[u8]) -> Result<Chain, Refusal> {
    Ok(header_chain(&reference(row).ok_or(Refusal::Range)?))
}

/// The payload chain, or what the size is refused with, or 1 if the row is no reference.
fn payload(numbers: &Header, row: &[u8]) -> Result<Chain, Refusal> {
    size(numbers)?;
    Ok(payload_chain(numbers, &reference(row).ok_or(Refusal::Range)?))
}
