//! The lines on which a later answer rests, and how lines are printed.

use crate::protocol::{read, without_end, Call};

/// What a call goes to and changes.
#[derive(Clone, Copy, PartialEq, Eq)]
enum Kept {
    /// The begun frame and its buffer.
    Sender,
    Receiver,
}

/// The lines since the last accepted start that went to the receiver, and those since the last
/// accepted begin that went to the sender.
#[derive(Default)]
pub struct History {
    sender: Vec<Vec<u8>>,
    receiver: Vec<Vec<u8>>,
}

impl History {
    /// Takes note of a line and its answer.
    pub fn add(&mut self, line: Vec<u8>, answer: &str) {
        match goes_to(&line) {
            Some(Kept::Sender) => note(&mut self.sender, line, answer == "begun"),
            Some(Kept::Receiver) => note(&mut self.receiver, line, answer == "listening"),
            None => {}
        }
    }

    /// The line and, before it, those that its answer rests on.
    pub fn script(self, line: Vec<u8>) -> Vec<Vec<u8>> {
        let mut script = match goes_to(&line) {
            Some(Kept::Sender) => self.sender,
            Some(Kept::Receiver) => self.receiver,
            None => vec![],
        };
        script.push(line);
        script
    }
}

/// Puts the line behind the others, or in their place if all begins anew with it.
fn note(lines: &mut Vec<Vec<u8>>, line: Vec<u8>, anew: bool) {
    if anew {
        lines.clear();
    }
    lines.push(line);
}

/// What the call of the line goes to, if it is kept from line to line.
fn goes_to(line: &[u8]) -> Option<Kept> {
    match read(without_end(line))? {
        Call::Begin(..) | Call::Finish(_) => Some(Kept::Sender),
        Call::Start(_) | Call::Feed(_) | Call::Take(_) => Some(Kept::Receiver),
        _ => None,
    }
}

/// Bytes as text in which every byte shows: a backslash and what is not printed as `\\xNN`.
pub fn shown(bytes: &[u8]) -> String {
    let one = |&byte: &u8| match byte {
        b' '..=b'~' if byte != b'\\' => char::from(byte).to_string(),
        _ => format!("\\x{byte:02x}"),
    };
    bytes.iter().map(one).collect()
}

#[cfg(test)]
mod tests {
    use super::*;

    fn history(lines: &[(&str, &str)]) -> History {
        let mut history = History::default();
        for (line, answer) in lines {
            history.add(line.as_bytes().to_vec(), answer);
        }
        history
    }

    const LINES: [(&str, &str); 7] = [
        ("take 5\n", "refused 12"),
        ("begin 0 1 2 63 0 0 0\n", "begun"),
        ("start 0\n", "listening"),
        ("size 0 1 2 63 0\n", "size 1 21"),
        ("feed 0\n", "missing 12"),
        ("start -\n", "refused 8"),
        ("finish -\n", "refused 6"),
    ];

    fn script(line: &str) -> Vec<String> {
        let script = history(&LINES).script(line.as_bytes().to_vec());
        script.into_iter().map(|line| String::from_utf8(line).unwrap()).collect()
    }

    #[test]
    fn an_answer_of_the_receiver_rests_on_the_calls_since_the_last_accepted_start() {
        assert_eq!(script("take 1\n"), ["start 0\n", "feed 0\n", "start -\n", "take 1\n"]);
    }

    #[test]
    fn an_answer_of_the_sender_rests_on_the_calls_since_the_last_accepted_begin() {
        assert_eq!(script("finish 0\n"), ["finish 0\n"]);
        let expected = ["begin 0 1 2 63 0 0 0\n", "finish -\n", "finish 00\r\n"];
        assert_eq!(script("finish 00\r\n"), expected);
    }

    #[test]
    fn other_answers_rest_on_their_line() {
        assert_eq!(script("size 0 1 2 63 0\n"), ["size 0 1 2 63 0\n"]);
    }

    #[test]
    fn every_byte_of_a_line_shows() {
        assert_eq!(shown(b"size\t0 \\ 'x' \xff\r\n"), r"size\x090 \x5c 'x' \xff\x0d\x0a");
    }
}
