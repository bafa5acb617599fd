//! A whole run: one receiver, at most one begun frame with its buffer, and the answers to lines.

use crate::calls;
use crate::packing::{pack, unpack};
use crate::protocol::words::{cells_word, hex};
use crate::protocol::{is_skipped, read, served, Call, Lists};
use crate::range::Range;
use crate::receiving::Receiver;
use crate::recording::record;
use crate::refusal::Refusal;
use crate::rows::CARRIERS;
use crate::sending::{begin, Begun};
use crate::size::{size, Header};

/// The answer to a line that is none of the calls.
const UNREADABLE: &str = "unreadable";

/// What is kept from line to line.
#[derive(Debug, Default)]
pub struct Session {
    receiver: Receiver,
    /// The begun frame, its size in rows, and the buffer.
    sending: Option<(Begun, usize, Vec<u8>)>,
    /// The calls that are known.
    range: Range,
}

impl Session {
    /// A run of a program that knows these calls.
    pub fn knowing(range: Range) -> Session {
        Session { range, ..Session::default() }
    }

    /// The answer to a line without its end, or none if the line is skipped.
    pub fn answer(&mut self, line: &[u8]) -> Option<String> {
        if is_skipped(line) {
            return None;
        }
        let call = read(line).filter(|call| self.range.has(call));
        let answered = call.and_then(|call| self.carry_out(&call));
        Some(match answered {
            None => UNREADABLE.to_string(),
            Some(Ok(accepted)) => accepted,
            Some(Err(refusal)) => refusal.to_string(),
        })
    }

    /// Makes the call; none if there is nothing to make it on.
    fn carry_out(&mut self, call: &Call) -> Option<Result<String, Refusal>> {
        Some(match call {
            Call::Size(header) => {
                size(header).map(|size| format!("size {} {}", size.bytes, size.rows))
            }
            Call::Pack(header, room) => {
                pack(header, served(*room)).map(|bytes| format!("bytes {}", hex(&bytes)))
            }
            Call::Unpack(bytes) => {
                unpack(bytes).map(|header| format!("header {}", numbers(&header)))
            }
            Call::Begin(header, reference, room) => self.begin(header, reference, served(*room)),
            Call::Finish(payload) => return self.finish(payload),
            Call::Start(reference) => {
                self.receiver.start(reference).map(|()| "listening".to_string())
            }
            Call::Feed(row) => self.receiver.feed(row).map(|missing| format!("missing {missing}")),
            Call::Take(room) => self
                .receiver
                .take(served(*room))
                .map(|(header, payload)| format!("frame {} {}", numbers(&header), hex(&payload))),
            Call::Record(cells) => Ok(recorded(cells)),
            Call::Code(given) => code(given).map(|list| format!("list {}", hex(&list))),
            Call::Decode(given) => decode(given).map(|list| format!("list {}", hex(&list))),
        })
    }

    /// Begins a frame in a new buffer, in place of the one begun before.
    fn begin(&mut self, header: &Header, row: &[u8], room: usize) -> Result<String, Refusal> {
        let mut buffer = vec![0; room];
        let begun = begin(header, row, &mut buffer)?;
        let rows = size(header)?.rows as usize;
        self.sending = Some((begun, rows, buffer));
        Ok("begun".to_string())
    }

    /// Finishes the begun frame in its buffer; none if there is no begun frame.
    fn finish(&mut self, payload: &[u8]) -> Option<Result<String, Refusal>> {
        let (begun, rows, mut buffer) = self.sending.take()?;
        Some(match begun.finish(payload, &mut buffer) {
            Ok(()) => Ok(row_words("rows".to_string(), buffer.chunks(CARRIERS).take(rows))),
            Err((begun, refusal)) => {
                self.sending = Some((begun, rows, buffer));
                Err(refusal)
            }
        })
    }
}

fn code(given: &Lists) -> Result<Vec<u8>, Refusal> {
    calls::code(&given.settings.chain()?, &given.list, given.buffers())
}

fn decode(given: &Lists) -> Result<Vec<u8>, Refusal> {
    calls::decode(&given.settings.chain()?, &given.list, given.buffers())
}

/// The answer to a recording.
fn recorded(cells: &[u8]) -> String {
    let (rows, short) = record(cells);
    let mut text = row_words(format!("rows {}", rows.len()), rows.into_iter());
    if short > 0 {
        text.push_str(&format!(" short {short}"));
    }
    text
}

/// The text with a word for each row behind it.
fn row_words<'a>(mut text: String, rows: impl Iterator<Item = &'a [u8]>) -> String {
    for row in rows {
        text.push(' ');
        text.push_str(&cells_word(row));
    }
    text
}

/// The five numbers of a header.
fn numbers(header: &Header) -> String {
    let Header { pdc, modulation, fl, tm, dt } = header;
    format!("{pdc} {modulation} {fl} {tm} {dt}")
}

#[cfg(test)]
mod tests;
