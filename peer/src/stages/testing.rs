//! What the tests of all stages share.

use super::{shared_front, Stage};

/// All lists of `length` elements from 0 to `highest`.
pub fn all_lists(length: usize, highest: u8) -> Vec<Vec<u8>> {
    let mut lists = vec![vec![]];
    for _ in 0..length {
        let longer = lists.iter().flat_map(|list: &Vec<u8>| {
            (0..=highest).map(move |element| [list.as_slice(), &[element]].concat())
        });
        lists = longer.collect();
    }
    lists
}

/// The coding of a message.
pub fn coded(stage: &dyn Stage, message: &[u8]) -> Vec<u8> {
    let mut coding = vec![];
    stage.code(message, &mut coding);
    coding
}

/// The message of a coding, or the place of the fault.
pub fn decoded(stage: &dyn Stage, received: &[u8]) -> Result<Vec<u8>, usize> {
    let mut message = vec![];
    stage.decode(received, &mut message).map(|()| message)
}

/// The place of the fault, 0 if no coding has the list's length; or that length if it is a coding.
pub fn place(stage: &dyn Stage, received: &[u8]) -> usize {
    if stage.message_length(received.len()).is_none() {
        return 0;
    }
    decoded(stage, received).err().unwrap_or(received.len())
}

/// Shows for every received list given that the place found is the longest front part shared
/// with any of all codings of messages of `length` elements, and that codings are taken back.
pub fn places_are_exact(stage: &dyn Stage, length: usize, received: &[Vec<u8>]) {
    let messages = all_lists(length, stage.highest_taken());
    let codings: Vec<Vec<u8>> = messages.iter().map(|message| coded(stage, message)).collect();
    for (message, coding) in messages.iter().zip(&codings) {
        assert_eq!(Some(coding.len()), stage.coded_length(length));
        assert_eq!(Some(length), stage.message_length(coding.len()));
        assert_eq!(decoded(stage, coding).as_ref(), Ok(message));
    }
    for list in received {
        let longest = codings.iter().map(|coding| shared_front(coding, list)).max();
        assert_eq!(Some(place(stage, list)), longest, "{list:?}");
    }
}

/// Shows that the two length rules undo each other and that `legal`, in order, are the lengths
/// taken.
pub fn lengths_are(stage: &dyn Stage, legal: &[usize]) {
    for length in 0..=20_000 {
        let coded = stage.coded_length(length);
        assert_eq!(coded.is_some(), legal.binary_search(&length).is_ok(), "{length}");
        if let Some(coded) = coded {
            assert_eq!(stage.message_length(coded), Some(length));
        }
        if let Some(message) = stage.message_length(length) {
            assert_eq!(stage.coded_length(message), Some(length));
        }
    }
}
