//! A chain of plain stages, from the message to the line.

use crate::refusal::Fault;
use crate::stages::Stage;

/// Stages of which each takes what the one before it puts out; the last is nearest the line. One
/// stage alone is a chain too.
pub struct Chain {
    members: Vec<Box<dyn Stage>>,
}

impl Chain {
    /// The chain of these stages, of which there is at least one. None of them puts out an element
    /// that the next does not take.
    pub fn new(members: Vec<Box<dyn Stage>>) -> Chain {
        Chain { members }
    }

    /// The plain stages, the one nearest the line last.
    pub fn members(&self) -> &[Box<dyn Stage>] {
        &self.members
    }

    /// The highest element that the chain takes.
    pub fn highest_taken(&self) -> u8 {
        self.members[0].highest_taken()
    }

    /// Whether the chain may code this list.
    pub fn may_code(&self, list: &[u8]) -> bool {
        let in_alphabet = list.iter().all(|&element| element <= self.highest_taken());
        in_alphabet && self.coded_length(list.len()).is_some()
    }

    /// How long the coding of a message of `length` elements is, if that length is legal.
    pub fn coded_length(&self, length: usize) -> Option<usize> {
        self.members.iter().try_fold(length, |length, member| member.coded_length(length))
    }

    /// How long the messages are that have codings of `length` elements, if there are any.
    pub fn message_length(&self, length: usize) -> Option<usize> {
        self.members.iter().rev().try_fold(length, |length, member| member.message_length(length))
    }

    /// The longest list of coding one of this length, the given one included: as far as lengths
    /// are legal.
    pub fn code_room(&self, length: usize) -> usize {
        longest(length, self.members.iter(), |member, length| member.coded_length(length))
    }

    /// The longest list of decoding one of this length, the given one included: from the line
    /// inward, up to the first list of a length that no coding of its stage has.
    pub fn decode_room(&self, length: usize) -> usize {
        longest(length, self.members.iter().rev(), |member, length| member.message_length(length))
    }

    /// The coding of a legal message.
    pub fn code(&self, message: &[u8]) -> Vec<u8> {
        let (mut list, mut coding) = (message.to_vec(), vec![]);
        for member in &self.members {
            coding.clear();
            member.code(&list, &mut coding);
            std::mem::swap(&mut list, &mut coding);
        }
        list
    }

    /// The message of which the received list is the coding, or the fault of the first stage, from
    /// the line inward, that refuses the list it is given.
    pub fn decode(&self, received: &[u8]) -> Result<Vec<u8>, Fault> {
        let (mut list, mut message) = (received.to_vec(), vec![]);
        for (depth, member) in self.members.iter().rev().enumerate() {
            let fault = |place| Fault { stage: member.number(), place, depth };
            member.message_length(list.len()).ok_or(fault(0))?;
            message.clear();
            member.decode(&list, &mut message).map_err(fault)?;
            std::mem::swap(&mut list, &mut message);
        }
        Ok(list)
    }
}

/// The longest of the lengths that the members lead to one after the other, the first included,
/// until one leads nowhere.
fn longest<'a>(
    length: usize,
    members: impl Iterator<Item = &'a Box<dyn Stage>>,
    next: impl Fn(&dyn Stage, usize) -> Option<usize>,
) -> usize {
    let (mut last, mut longest) = (length, length);
    for member in members {
        match next(member.as_ref(), last) {
            Some(length) => last = length,
            None => break,
        }
        longest = longest.max(last);
    }
    longest
}

#[cfg(test)]
mod tests {
    use super::*;
    use crate::stages::map::Map;
    use crate::stages::repeat::Repeat;
    use crate::stages::unpack_bits::UnpackBits;

    /// Bytes to bits, each four times, three to an increment.
    fn chain() -> Chain {
        Chain::new(vec![
            Box::new(UnpackBits),
            Box::new(Repeat::new(4).unwrap()),
            Box::new(Map::new(3).unwrap()),
        ])
    }

    #[test]
    fn lengths_are_legal_if_each_stage_takes_the_list_of_the_one_before() {
        assert_eq!(chain().coded_length(0), Some(0));
        assert_eq!(chain().coded_length(1), None);
        assert_eq!(chain().coded_length(3), Some(32));
        assert_eq!(chain().message_length(32), Some(3));
        assert_eq!(chain().message_length(4), None);
    }

    #[test]
    fn a_coding_is_taken_back() {
        let coding = chain().code(&[0xA5, 0x00, 0xFF]);
        assert_eq!(coding.len(), 32);
        assert_eq!(chain().decode(&coding), Ok(vec![0xA5, 0x00, 0xFF]));
    }

    #[test]
    fn the_longest_list_may_stand_inside() {
        assert_eq!(chain().code_room(3), 96);
        assert_eq!(chain().decode_room(32), 96);
    }

    #[test]
    fn decoding_counts_the_first_list_whose_length_no_coding_has() {
        // 3 increments are 9 bits, which are no bits four times each.
        assert_eq!(chain().decode_room(3), 9);
        // 4 increments are 12 bits, which are 3 bits four times each, which are no bytes.
        assert_eq!(chain().decode_room(4), 12);
        // No bits give so many increments.
        assert_eq!(chain().decode_room(3_025), 3_025);
    }

    #[test]
    fn a_fault_has_the_count_of_stages_nearer_the_line() {
        let fault = |stage, place, depth| Err(Fault { stage, place, depth });
        assert_eq!(chain().decode(&[0, 8, 0, 0]), fault(9, 1, 0));
        assert_eq!(chain().decode(&[0; 3]), fault(7, 0, 1));
        assert_eq!(chain().decode(&[0, 0, 1, 0]), fault(7, 9, 1));
        assert_eq!(chain().decode(&[0; 4]), fault(4, 0, 2));
    }
}
