//! The two calls that every chain offers, with the lengths of the two buffers that are lent.

use crate::chain::Chain;
use crate::refusal::{Fault, Refusal};

/// The lengths of the two buffers that a caller lends.
#[derive(Clone, Copy, Debug, PartialEq, Eq)]
pub struct Buffers {
    pub work: usize,
    pub result: usize,
}

impl Buffers {
    /// Refusal 7 unless both buffers hold `room` elements.
    fn hold(&self, room: usize) -> Result<(), Refusal> {
        if self.work < room || self.result < room {
            return Err(Refusal::Room);
        }
        Ok(())
    }
}

/// The coding of the list, or 13 if the list is not legal, or 7 if a buffer is too short.
pub fn code(chain: &Chain, list: &[u8], buffers: Buffers) -> Result<Vec<u8>, Refusal> {
    if !chain.may_code(list) {
        return Err(Refusal::Illegal);
    }
    buffers.hold(chain.code_room(list.len()))?;
    Ok(chain.code(list))
}

/// The message of which the list is the coding, or 7 if a buffer is too short, or 10 if there is
/// no such message.
pub fn decode(chain: &Chain, list: &[u8], buffers: Buffers) -> Result<Vec<u8>, Refusal> {
    buffers.hold(chain.decode_room(list.len()))?;
    decode_and_check(chain, list).map_err(Refusal::Fault)
}

/// Decodes the list; panics unless the message's coding is the list again.
pub fn decode_and_check(chain: &Chain, list: &[u8]) -> Result<Vec<u8>, Fault> {
    let message = chain.decode(list)?;
    assert_eq!(chain.code(&message), list, "a decoded message should give the list again");
    Ok(message)
}

#[cfg(test)]
mod tests {
    use super::*;
    use crate::stages::map::Map;
    use crate::stages::repeat::Repeat;
    use crate::stages::scramble::Scramble;
    use crate::stages::Stage;

    fn alone(stage: impl Stage + 'static) -> Chain {
        Chain::new(vec![Box::new(stage)])
    }

    fn repeat() -> Chain {
        alone(Repeat::new(4).unwrap())
    }

    fn map() -> Chain {
        alone(Map::new(3).unwrap())
    }

    fn buffers(work: usize, result: usize) -> Buffers {
        Buffers { work, result }
    }

    fn fault(stage: u32, place: usize) -> Result<Vec<u8>, Refusal> {
        Err(Refusal::Fault(Fault { stage, place, depth: 0 }))
    }

    #[test]
    fn code_needs_both_buffers_as_long_as_the_coding() {
        assert_eq!(code(&repeat(), &[1], buffers(4, 4)), Ok(vec![1; 4]));
        assert_eq!(code(&repeat(), &[1], buffers(3, 4)), Err(Refusal::Room));
        assert_eq!(code(&repeat(), &[1], buffers(4, 3)), Err(Refusal::Room));
    }

    #[test]
    fn code_needs_both_buffers_as_long_as_the_list_where_the_coding_is_shorter() {
        assert_eq!(code(&map(), &[1; 3], buffers(3, 3)), Ok(vec![5]));
        assert_eq!(code(&map(), &[1; 3], buffers(3, 2)), Err(Refusal::Room));
    }

    #[test]
    fn decode_needs_both_buffers_as_long_as_the_message() {
        assert_eq!(decode(&map(), &[5], buffers(3, 3)), Ok(vec![1; 3]));
        assert_eq!(decode(&map(), &[5], buffers(2, 3)), Err(Refusal::Room));
    }

    #[test]
    fn decode_needs_the_received_length_alone_where_no_coding_has_it() {
        assert_eq!(decode(&map(), &[0; 3_025], buffers(3_025, 3_025)), fault(9, 0));
        assert_eq!(decode(&map(), &[0; 3_025], buffers(3_025, 3_024)), Err(Refusal::Room));
        assert_eq!(decode(&map(), &[0; 3_024], buffers(9_072, 9_071)), Err(Refusal::Room));
    }

    #[test]
    fn an_illegal_list_is_refused_before_a_short_buffer() {
        assert_eq!(code(&repeat(), &[2], buffers(0, 0)), Err(Refusal::Illegal));
        assert_eq!(code(&alone(Scramble), &[0; 256], buffers(0, 0)), Err(Refusal::Illegal));
    }

    #[test]
    fn a_short_buffer_is_refused_before_a_list_that_is_no_coding() {
        assert_eq!(decode(&repeat(), &[1, 1, 0, 1], buffers(4, 3)), Err(Refusal::Room));
        assert_eq!(decode(&repeat(), &[1, 1, 0, 1], buffers(4, 4)), fault(7, 2));
        assert_eq!(decode(&repeat(), &[1, 1, 1], buffers(3, 3)), fault(7, 0));
    }
}
