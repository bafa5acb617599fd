//! The text protocol: the call that a line asks for.

pub mod words;

use crate::calls::Buffers;
use crate::settings::Settings;
use crate::size::Header;
use words::Words;

/// The longest buffer that is served; a longer one counts as this long.
const LONGEST_BUFFER: u32 = 65_536;

/// A call that a line asks for.
#[derive(Clone, Debug, PartialEq, Eq)]
pub enum Call {
    Size(Header),
    /// A header and the length of the buffer.
    Pack(Header, u32),
    Unpack(Vec<u8>),
    /// A header, the reference, and the length of the buffer.
    Begin(Header, Vec<u8>, u32),
    Finish(Vec<u8>),
    Start(Vec<u8>),
    Feed(Vec<u8>),
    /// The length of the buffer.
    Take(u32),
    Record(Vec<u8>),
    Code(Lists),
    Decode(Lists),
}

/// What the two calls of a stage are given.
#[derive(Clone, Debug, PartialEq, Eq)]
pub struct Lists {
    pub settings: Settings,
    pub list: Vec<u8>,
    pub work: u32,
    pub result: u32,
}

impl Lists {
    /// The lengths of the two buffers, as they are served.
    pub fn buffers(&self) -> Buffers {
        Buffers { work: served(self.work), result: served(self.result) }
    }
}

/// The length of a buffer as it is served.
pub fn served(length: u32) -> usize {
    length.min(LONGEST_BUFFER) as usize
}

/// The line without its end: a line feed, or a carriage return and a line feed.
pub fn without_end(line: &[u8]) -> &[u8] {
    match line {
        [front @ .., b'\r', b'\n'] => front,
        [front @ .., b'\n'] => front,
        _ => line,
    }
}

/// Whether a line without its end gets no answer.
pub fn is_skipped(line: &[u8]) -> bool {
    line.is_empty() || line[0] == b'#'
}

/// The call that a line without its end asks for, or none if the line is unreadable.
pub fn read(line: &[u8]) -> Option<Call> {
    let mut words = Words::of(line);
    let call = match words.word()? {
        b"size" => Call::Size(header(&mut words)?),
        b"pack" => Call::Pack(header(&mut words)?, words.number()?),
        b"unpack" => Call::Unpack(words.list()?),
        b"begin" => Call::Begin(header(&mut words)?, words.cells()?, words.number()?),
        b"finish" => Call::Finish(words.list()?),
        b"start" => Call::Start(words.cells()?),
        b"feed" => Call::Feed(words.cells()?),
        b"take" => Call::Take(words.number()?),
        b"record" => Call::Record(words.cells()?),
        b"code" => Call::Code(lists(&mut words)?),
        b"decode" => Call::Decode(lists(&mut words)?),
        _ => return None,
    };
    words.word().is_none().then_some(call)
}

fn header(words: &mut Words) -> Option<Header> {
    Some(Header {
        pdc: words.number()?,
        modulation: words.number()?,
        fl: words.number()?,
        tm: words.number()?,
        dt: words.number()?,
    })
}

fn lists(words: &mut Words) -> Option<Lists> {
    Some(Lists {
        settings: settings(words)?,
        list: words.list()?,
        work: words.number()?,
        result: words.number()?,
    })
}

fn settings(words: &mut Words) -> Option<Settings> {
    Some(match words.word()? {
        b"check" => Settings::Check,
        b"scramble" => Settings::Scramble,
        b"rs" => Settings::ReedSolomon(words.number()?),
        b"unpack-bits" => Settings::UnpackBits,
        b"convolution" => Settings::Convolution,
        b"fill" => Settings::Fill(words.number()?, words.number()?),
        b"repeat" => Settings::Repeat(words.number()?),
        b"interleave" => Settings::Interleave(words.number()?, words.number()?, words.number()?),
        b"map" => Settings::Map(words.number()?),
        b"difference" => Settings::Difference(words.number()?, words.list()?),
        b"header" => Settings::HeaderChain(words.cells()?),
        b"payload" => {
            let (modulation, fl, tm) = (words.number()?, words.number()?, words.number()?);
            Settings::PayloadChain(modulation, fl, tm, words.cells()?)
        }
        _ => return None,
    })
}

#[cfg(test)]
mod tests {
    use super::*;

    #[test]
    fn each_call_is_read_with_its_words() {
        let header = Header { pdc: 1, modulation: 2, fl: 3, tm: 4, dt: 5 };
        let calls = [
            ("size 1 2 3 4 5", Call::Size(header)),
            ("pack 1 2 3 4 5 6", Call::Pack(header, 6)),
            ("unpack 00ff", Call::Unpack(vec![0, 255])),
            ("begin 1 2 3 4 5 07z 6", Call::Begin(header, vec![0, 7, 35], 6)),
            ("finish -", Call::Finish(vec![])),
            ("start 01", Call::Start(vec![0, 1])),
            ("feed -", Call::Feed(vec![])),
            ("take 4294967295", Call::Take(u32::MAX)),
            ("record 8", Call::Record(vec![8])),
        ];
        for (line, call) in calls {
            assert_eq!(read(line.as_bytes()), Some(call), "{line}");
            assert_eq!(read(format!("{line} 0").as_bytes()), None);
            assert_eq!(read(&line.as_bytes()[..line.rfind(' ').unwrap()]), None);
        }
    }

    #[test]
    fn the_chains_are_read_with_their_words() {
        let asked = |line: &[u8]| match read(line) {
            Some(Call::Code(given)) | Some(Call::Decode(given)) => Some(given.settings),
            _ => None,
        };
        let header = Settings::HeaderChain(vec![1, 2]);
        assert_eq!(asked(b"code header 12 00 5 6"), Some(header));
        let payload = Settings::PayloadChain(1, 2, 3, vec![]);
        assert_eq!(asked(b"decode payload 1 2 3 - 00 5 6"), Some(payload));
        assert_eq!(asked(b"decode payload 1 2 - 00 5 6"), None);
    }

    #[test]
    fn a_line_ends_with_a_line_feed_and_perhaps_one_carriage_return_before_it() {
        assert_eq!(without_end(b"a\n"), b"a");
        assert_eq!(without_end(b"a\r\n"), b"a");
        assert_eq!(without_end(b"a\r\r\n"), b"a\r");
        assert_eq!(without_end(b"a"), b"a");
        assert_eq!(without_end(b"\r\n"), b"");
    }
}
