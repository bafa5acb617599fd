//! The text of a call, with the freedom that the protocol leaves.

use super::random::Random;
use crate::protocol::words::{cells_word, hex};
use crate::protocol::{Call, Lists};
use crate::settings::Settings;
use crate::size::Header;

/// What a call is counted under.
pub fn label(call: &Call) -> String {
    match call {
        Call::Code(given) | Call::Decode(given) => {
            format!("{} {}", name(call), given.settings.name())
        }
        _ => name(call).to_string(),
    }
}

/// The first word of a call.
fn name(call: &Call) -> &'static str {
    match call {
        Call::Size(_) => "size",
        Call::Pack(..) => "pack",
        Call::Unpack(_) => "unpack",
        Call::Begin(..) => "begin",
        Call::Finish(_) => "finish",
        Call::Start(_) => "start",
        Call::Feed(_) => "feed",
        Call::Take(_) => "take",
        Call::Record(_) => "record",
        Call::Code(_) => "code",
        Call::Decode(_) => "decode",
    }
}

/// The words of a line that asks for the call.
pub fn words(random: &mut Random, call: &Call) -> Vec<String> {
    let mut words = vec![name(call).to_string()];
    match call {
        Call::Size(header) => words.extend(header_words(random, header)),
        Call::Pack(header, room) => {
            words.extend(header_words(random, header));
            words.push(number(random, *room));
        }
        Call::Begin(header, reference, room) => {
            words.extend(header_words(random, header));
            words.push(cells_word(reference));
            words.push(number(random, *room));
        }
        Call::Unpack(list) | Call::Finish(list) => words.push(hex(list)),
        Call::Start(cells) | Call::Feed(cells) | Call::Record(cells) => {
            words.push(cells_word(cells));
        }
        Call::Take(room) => words.push(number(random, *room)),
        Call::Code(given) | Call::Decode(given) => words.extend(list_words(random, given)),
    }
    words
}

fn header_words(random: &mut Random, header: &Header) -> [String; 5] {
    let Header { pdc, modulation, fl, tm, dt } = *header;
    [pdc, modulation, fl, tm, dt].map(|value| number(random, value))
}

fn list_words(random: &mut Random, given: &Lists) -> Vec<String> {
    let mut words = vec![given.settings.name().to_string()];
    words.extend(setting_words(random, &given.settings));
    words.push(hex(&given.list));
    words.push(number(random, given.work));
    words.push(number(random, given.result));
    words
}

fn setting_words(random: &mut Random, settings: &Settings) -> Vec<String> {
    let mut number = |value: &u32| number(random, *value);
    match settings {
        Settings::Check | Settings::Scramble | Settings::UnpackBits | Settings::Convolution => {
            vec![]
        }
        Settings::ReedSolomon(setting) | Settings::Repeat(setting) | Settings::Map(setting) => {
            vec![number(setting)]
        }
        Settings::Fill(taken, filled) => vec![number(taken), number(filled)],
        Settings::Interleave(width, rows, blocks) => {
            vec![number(width), number(rows), number(blocks)]
        }
        Settings::Difference(width, reference) => vec![number(width), hex(reference)],
        Settings::HeaderChain(row) => vec![cells_word(row)],
        Settings::PayloadChain(modulation, fl, tm, row) => {
            vec![number(modulation), number(fl), number(tm), cells_word(row)]
        }
    }
}

/// The number as a word, now and then with zeros before it.
fn number(random: &mut Random, value: u32) -> String {
    let zeros = if random.chance(4) { 1 + random.below(25) } else { 0 };
    format!("{}{value}", "0".repeat(zeros))
}

/// The words with blanks between them: mostly one space, else any blanks, also at the ends.
pub fn separated(random: &mut Random, words: &[String]) -> Vec<u8> {
    if random.chance(80) {
        return words.join(" ").into_bytes();
    }
    let mut line = random.pick(&["", " ", "\t", " \t"]).to_string();
    for word in words {
        line.push_str(word);
        line.push_str(random.pick(&[" ", "  ", "\t", "\t\t", " \t ", "\t     "]));
    }
    if random.chance(70) {
        line.truncate(line.trim_end().len());
    }
    line.into_bytes()
}
