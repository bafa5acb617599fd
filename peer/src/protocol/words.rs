//! The words of a line: numbers, lists of elements and lists of cells, read and written.

/// The word for the empty list.
const EMPTY: &str = "-";
/// The characters of cells, from 0 up.
const CELLS: &[u8; 36] = b"0123456789abcdefghijklmnopqrstuvwxyz";

/// The words of a line that are not yet read.
pub struct Words<'a> {
    rest: Box<dyn Iterator<Item = &'a [u8]> + 'a>,
}

impl<'a> Words<'a> {
    /// The words between blanks: spaces and tabs, one or more.
    pub fn of(line: &'a [u8]) -> Words<'a> {
        let parts = line.split(|&byte| byte == b' ' || byte == b'\t');
        Words { rest: Box::new(parts.filter(|part| !part.is_empty())) }
    }

    /// The next word, if there is one.
    pub fn word(&mut self) -> Option<&'a [u8]> {
        self.rest.next()
    }

    /// The next word as a NUM.
    pub fn number(&mut self) -> Option<u32> {
        number(self.word()?)
    }

    /// The next word as a HEX.
    pub fn list(&mut self) -> Option<Vec<u8>> {
        list(self.word()?)
    }

    /// The next word as CELLS.
    pub fn cells(&mut self) -> Option<Vec<u8>> {
        cells(self.word()?)
    }
}

/// A NUM: decimal digits, at least one, up to 4294967295.
fn number(word: &[u8]) -> Option<u32> {
    if word.is_empty() {
        return None;
    }
    let mut value: u32 = 0;
    for byte in word {
        let digit = digit(*byte, 10)?;
        value = value.checked_mul(10)?.checked_add(u32::from(digit))?;
    }
    Some(value)
}

/// A HEX: two digits to an element, or `-` for the empty list.
fn list(word: &[u8]) -> Option<Vec<u8>> {
    if word == EMPTY.as_bytes() {
        return Some(vec![]);
    }
    if !word.len().is_multiple_of(2) {
        return None;
    }
    let element = |pair: &[u8]| Some(16 * digit(pair[0], 16)? + digit(pair[1], 16)?);
    word.chunks(2).map(element).collect()
}

/// CELLS: one character to a cell, or `-` for the empty list.
fn cells(word: &[u8]) -> Option<Vec<u8>> {
    if word == EMPTY.as_bytes() {
        return Some(vec![]);
    }
    word.iter().map(|&byte| digit(byte, CELLS.len())).collect()
}

/// The value of a digit in this base; letters are lower case.
fn digit(byte: u8, base: usize) -> Option<u8> {
    let value = CELLS[..base].iter().position(|&digit| digit == byte);
    value.map(|value| value as u8)
}

/// A list as a HEX.
pub fn hex(list: &[u8]) -> String {
    let digits = |&element: &u8| [element / 16, element % 16].map(character);
    or_empty(list.iter().flat_map(digits).collect())
}

/// Cells of 0 to 35 as CELLS.
pub fn cells_word(cells: &[u8]) -> String {
    or_empty(cells.iter().map(|&cell| character(cell)).collect())
}

/// The character of a cell or digit.
fn character(value: u8) -> char {
    char::from(CELLS[usize::from(value)])
}

fn or_empty(word: String) -> String {
    if word.is_empty() {
        EMPTY.to_string()
    } else {
        word
    }
}

#[cfg(test)]
mod tests {
    use super::*;

    #[test]
    fn numbers_may_have_leading_zeros_and_nothing_else_beside_their_digits() {
        assert_eq!(number(b"4294967295"), Some(u32::MAX));
        assert_eq!(number(b"00000000000000000000007"), Some(7));
        for word in ["4294967296", "99999999999999999999", "+1", "-1", "-", "1a", "a", "1.", "0x1"]
        {
            assert_eq!(number(word.as_bytes()), None, "{word}");
        }
    }

    #[test]
    fn lists_are_lower_case_pairs_of_digits() {
        assert_eq!(list(b"-"), Some(vec![]));
        assert_eq!(list(b"0aff"), Some(vec![10, 255]));
        for word in ["0", "0A", "FF", "000", "--", "-00", "0g", "+1", ".."] {
            assert_eq!(list(word.as_bytes()), None, "{word}");
        }
    }

    #[test]
    fn cells_are_digits_and_lower_case_letters() {
        assert_eq!(cells(b"-"), Some(vec![]));
        assert_eq!(cells(b"09az"), Some(vec![0, 9, 10, 35]));
        for word in ["A", "0A", "--", "-0", "0-", "+1", ".", "0 ", "\u{e9}"] {
            assert_eq!(cells(word.as_bytes()), None, "{word}");
        }
    }

    #[test]
    fn lists_are_written_as_they_are_read() {
        let elements: Vec<u8> = (0..=255).collect();
        assert_eq!(list(hex(&elements).as_bytes()), Some(elements));
        assert_eq!(hex(&[0x0A, 0xFF]), "0aff");
        assert_eq!(hex(&[]), "-");
        assert_eq!(cells(cells_word(&[0, 8, 9, 10, 35]).as_bytes()), Some(vec![0, 8, 9, 10, 35]));
        assert_eq!(cells_word(&[0, 8, 10, 35]), "08az");
        assert_eq!(cells_word(&[]), "-");
    }
}
