//! Lines that are mostly unreadable, made by breaking readable ones, and lines that are skipped.

use super::random::Random;

/// Words that are no NUM, no HEX, no name, or only some of these.
const WORDS: [&str; 44] = [
    "+1",
    "-1",
    "+",
    "--",
    "-",
    "-0",
    "-00",
    "4294967295",
    "4294967296",
    "4294967297",
    "9999999999",
    "18446744073709551616",
    "18446744073709551617",
    "00000000004294967296",
    "340282366920938463463374607431768211457",
    "1e3",
    "0x10",
    "1.0",
    "1,0",
    "a",
    "0a",
    "0A",
    "FF",
    "Ff",
    "000",
    "0",
    "00",
    "g0",
    "0g",
    "#",
    "code",
    "size",
    "check",
    "unpack_bits",
    "header",
    "begin",
    "feed",
    "take",
    "z",
    "0z",
    "Z",
    "012345678901234567890123456789012345",
    "\u{a0}",
    "\u{661}",
];

/// Bytes that look like a blank and are none.
const NO_BLANKS: [u8; 8] = [0x00, 0x0B, 0x0C, b'\r', 0x1C, b',', 0x85, 0xA0];

/// Breaks the line with these words, so that it can mostly not be read.
pub fn broken(random: &mut Random, words: &[String]) -> Vec<u8> {
    let mut words: Vec<Vec<u8>> = words.iter().map(|word| word.as_bytes().to_vec()).collect();
    let at = random.below(words.len());
    match random.below(14) {
        0 | 1 => drop(words.remove(at)),
        2 => words.insert(at + 1, random.pick(&WORDS).into()),
        3 => words.push(random.pick(&WORDS).into()),
        4 => words.truncate(at),
        5 | 6 => words[at] = random.pick(&WORDS).into(),
        7 => words[at].make_ascii_uppercase(),
        8 => drop(words[at].pop()),
        9 => words[at].push(random.pick(b"0a#-+ A\r")),
        10 => words[at].insert(0, random.pick(b"0a#-+ A\r")),
        11 => {
            let inside = random.below(words[at].len() + 1);
            words[at].insert(inside, random.byte(255));
        }
        12 => {
            let glue = random.pick(&NO_BLANKS);
            return without_line_feeds(words.join(&glue));
        }
        _ => return nonsense(random),
    }
    without_line_feeds(words.join(&b' '))
}

/// A line that has nothing of a call.
fn nonsense(random: &mut Random) -> Vec<u8> {
    match random.below(4) {
        0 => random.pick(&[" ", "\t", "  \t ", " #", "\t# size 0 1 2 63 0", "\u{feff}#"]).into(),
        1 => random.pick(&WORDS).into(),
        _ => {
            let length = 1 + random.below(40);
            without_line_feeds((0..length).map(|_| random.byte(255)).collect())
        }
    }
}

/// A line that gets no answer.
pub fn skipped(random: &mut Random) -> Vec<u8> {
    random.pick(&["", "#", "# ", "##", "#size 0 1 2 63 0", "# code check - 0 0"]).into()
}

fn without_line_feeds(mut line: Vec<u8>) -> Vec<u8> {
    line.retain(|&byte| byte != b'\n');
    line
}
