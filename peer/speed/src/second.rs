//! The second coder's two calls into a buffer that is lent and reused.
//!
//! They refuse what the calls of the library refuse, and then the second coder's stage does its
//! work: a stage is taken as it is, so what its settings cost is not in the time.

use peer::refusal::{Fault, Refusal};
use peer::stages::Stage;

/// The lengths of the work and result buffers that a caller lends.
#[derive(Clone, Copy)]
pub struct Room {
    pub work: usize,
    pub result: usize,
}

impl Room {
    /// Refusal 7 unless both buffers hold the list and what it leads to.
    fn hold(self, length: usize, other: Option<usize>) -> Result<(), Refusal> {
        let longest = length.max(other.unwrap_or(0));
        if self.work < longest || self.result < longest {
            return Err(Refusal::Room);
        }
        Ok(())
    }
}

/// Leaves the coding of the list in `out`, or refuses.
pub fn code<S: Stage>(
    stage: &S,
    list: &[u8],
    room: Room,
    out: &mut Vec<u8>,
) -> Result<(), Refusal> {
    let highest = stage.highest_taken();
    let coded = stage.coded_length(list.len());
    if coded.is_none() || list.iter().any(|&element| element > highest) {
        return Err(Refusal::Illegal);
    }
    room.hold(list.len(), coded)?;
    out.clear();
    stage.code(list, out);
    Ok(())
}

/// Leaves the list of which `list` is the coding in `out`, or refuses.
pub fn decode<S: Stage>(
    stage: &S,
    list: &[u8],
    room: Room,
    out: &mut Vec<u8>,
) -> Result<(), Refusal> {
    let message = stage.message_length(list.len());
    room.hold(list.len(), message)?;
    out.clear();
    let fault = |place| Refusal::Fault(Fault { stage: stage.number(), place, depth: 0 });
    message.ok_or(fault(0))?;
    stage.decode(list, out).map_err(fault)
}
