//! The refusals that the calls of this program can answer.

use std::fmt;

/// Why a call was refused. The text of a refusal is its answer line.
#[derive(Clone, Copy, Debug, PartialEq, Eq)]
pub enum Refusal {
    /// 1: a number outside its range.
    Range,
    /// 2: a tone map that is reserved or empty.
    ToneMap,
    /// 3: a reserved DT.
    Reserved,
    /// 4: a block too short for a payload byte beside its parity.
    BlockTooShort,
    /// 5: a block of more than 255 bytes.
    BlockTooLong,
    /// 6: a payload that does not have the frame's count of bytes.
    Payload,
    /// 7: a buffer too short for the call.
    Room,
    /// 8: a reference that is not 36 cells of 0 to 7.
    Reference,
    /// 9: a row that is not 36 cells, or has a cell too high.
    Row,
    /// 10: a received list that is no coding.
    Fault(Fault),
    /// 10 from a receiver: rows that are no coding.
    Received(Fault, Part),
    /// 11: a row fed while the receiver does not listen.
    NotListening,
    /// 12: a frame asked for while none is whole.
    NoFrame,
    /// 13: a list that may not be coded, or other than five bytes to unpack.
    Illegal,
}

/// Where a stage found that a received list is no coding.
#[derive(Clone, Copy, Debug, PartialEq, Eq)]
pub struct Fault {
    /// The number of the stage that refused.
    pub stage: u32,
    /// The length of the longest front part shared with a coding.
    pub place: usize,
    /// How many plain stages stand nearer the line; 0 for a plain stage.
    pub depth: usize,
}

/// The part of a frame in which a receiver found a fault.
#[derive(Clone, Copy, Debug, PartialEq, Eq)]
pub enum Part {
    Header,
    Payload,
}

impl Refusal {
    /// The number under which the refusal is known.
    pub fn number(&self) -> u32 {
        match self {
            Refusal::Range => 1,
            Refusal::ToneMap => 2,
            Refusal::Reserved => 3,
            Refusal::BlockTooShort => 4,
            Refusal::BlockTooLong => 5,
            Refusal::Payload => 6,
            Refusal::Room => 7,
            Refusal::Reference => 8,
            Refusal::Row => 9,
            Refusal::Fault(_) | Refusal::Received(..) => 10,
            Refusal::NotListening => 11,
            Refusal::NoFrame => 12,
            Refusal::Illegal => 13,
        }
    }
}

impl fmt::Display for Refusal {
    fn fmt(&self, out: &mut fmt::Formatter<'_>) -> fmt::Result {
        write!(out, "refused {}", self.number())?;
        match self {
            Refusal::Fault(fault) => write!(out, " {fault}"),
            Refusal::Received(fault, part) => write!(out, " {fault} {part}"),
            _ => Ok(()),
        }
    }
}

impl fmt::Display for Fault {
    fn fmt(&self, out: &mut fmt::Formatter<'_>) -> fmt::Result {
        let Fault { stage, place, depth } = self;
        write!(out, "stage {stage} place {place} depth {depth}")
    }
}

impl fmt::Display for Part {
    fn fmt(&self, out: &mut fmt::Formatter<'_>) -> fmt::Result {
        out.write_str(match self {
            Part::Header => "part header",
            Part::Payload => "part payload",
        })
    }
}

#[cfg(test)]
mod tests {
    use super::*;

    const FAULT: Fault = Fault { stage: 7, place: 2, depth: 3 };

    #[test]
    fn a_fault_is_answered_with_stage_place_and_depth() {
        let text = Refusal::Fault(FAULT).to_string();
        assert_eq!(text, "refused 10 stage 7 place 2 depth 3");
    }

    #[test]
    fn a_fault_of_a_receiver_is_answered_with_its_part() {
        let text = Refusal::Received(FAULT, Part::Payload).to_string();
        assert_eq!(text, "refused 10 stage 7 place 2 depth 3 part payload");
        let text = Refusal::Received(FAULT, Part::Header).to_string();
        assert_eq!(text, "refused 10 stage 7 place 2 depth 3 part header");
    }

    #[test]
    fn other_refusals_are_answered_with_their_number_alone() {
        assert_eq!(Refusal::Range.to_string(), "refused 1");
        assert_eq!(Refusal::Illegal.to_string(), "refused 13");
    }
}
