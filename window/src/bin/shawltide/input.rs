//! Ids as text.

use crate::quoted::quoted;
use shawltide::{first_repeat, MAX_IDS};
use std::fmt;
use std::io::{self, BufRead, BufReader, Read};

/// How many bytes a line can have, blanks and leading zeros among them, but not what ends it.
pub const MOST_BYTES: usize = 1024;

/// Why a text is not an id, or not one more.
#[derive(Debug, PartialEq, Eq)]
pub enum Bad {
    NotANumber(String),
    TooLarge(String),
    TooLong,
    /// The id stands already on this line.
    Again(u64, usize),
    TooMany,
}

/// Why ids cannot be read: what is wrong with which line, or the reading itself.
#[derive(Debug)]
pub enum Error {
    Line(usize, Bad),
    Reading(io::Error),
}

/// Lines of text, counted from 1, with an id on each. Blanks around it, empty lines, and a byte order mark at the start are passed over.
pub struct Lines<R> {
    from: BufReader<R>,
    line: Vec<u8>,
    number: usize,
}

impl<R: Read> Lines<R> {
    pub fn new(from: R) -> Lines<R> {
        Lines {
            from: BufReader::with_capacity(1 << 16, from),
            line: Vec::new(),
            number: 0,
        }
    }

    /// Whether all that has come is used up, and more has to be waited for.
    pub fn waits(&self) -> bool {
        self.from.buffer().is_empty()
    }

    /// The next id, unless no line has one more.
    pub fn next_id(&mut self) -> Result<Option<u64>, Error> {
        while let Some(line) = self.next_line()? {
            let text = String::from_utf8_lossy(line);
            let text = text.trim();
            if !text.is_empty() {
                let id = parse_id(text).map_err(|bad| Error::Line(self.number, bad))?;
                return Ok(Some(id));
            }
        }
        Ok(None)
    }

    /// No more of a line is read than it can have, with the mark before it and two bytes that end it.
    fn next_line(&mut self) -> Result<Option<&[u8]>, Error> {
        const MARK: &[u8] = b"\xEF\xBB\xBF";
        self.line.clear();
        let most = (MARK.len() + MOST_BYTES + 2) as u64;
        let mut from = self.from.by_ref().take(most);
        if from.read_until(b'\n', &mut self.line).map_err(Error::Reading)? == 0 {
            return Ok(None);
        }
        self.number += 1;
        let mut line = &self.line[..];
        if self.number == 1 {
            line = line.strip_prefix(MARK).unwrap_or(line);
        }
        line = line.strip_suffix(b"\n").unwrap_or(line);
        line = line.strip_suffix(b"\r").unwrap_or(line);
        if line.len() > MOST_BYTES {
            return Err(Error::Line(self.number, Bad::TooLong));
        }
        Ok(Some(line))
    }
}

/// All ids of the lines, each once. Before more is waited for, `waits` is told how many there are. Of several things that are wrong, the one on
/// the first line is said.
pub fn read_ids(mut lines: Lines<impl Read>, mut waits: impl FnMut(usize)) -> Result<Vec<u64>, Error> {
    let (mut ids, mut numbers) = (Vec::new(), Vec::new());
    let ended = loop {
        if lines.waits() {
            waits(ids.len());
        }
        match lines.next_id() {
            Ok(Some(_)) if ids.len() == MAX_IDS => break Err(Error::Line(lines.number, Bad::TooMany)),
            Ok(Some(id)) => {
                ids.push(id);
                numbers.push(lines.number);
            }
            Ok(None) => break Ok(()),
            Err(error) => break Err(error),
        }
    };
    match first_repeat(&ids) {
        Some((first, again)) => Err(Error::Line(numbers[again], Bad::Again(ids[again], numbers[first]))),
        None => ended.map(|()| ids),
    }
}

/// A whole number below 2^64: digits alone, or hexadecimal ones after 0x.
pub fn parse_id(text: &str) -> Result<u64, Bad> {
    let (digits, radix) = match text.strip_prefix("0x").or_else(|| text.strip_prefix("0X")) {
        Some(digits) => (digits, 16),
        None => (text, 10),
    };
    if digits.is_empty() || !digits.chars().all(|digit| digit.is_digit(radix)) {
        return Err(Bad::NotANumber(text.to_string()));
    }
    u64::from_str_radix(digits, radix).map_err(|_| Bad::TooLarge(text.to_string()))
}

impl fmt::Display for Bad {
    fn fmt(&self, f: &mut fmt::Formatter) -> fmt::Result {
        match self {
            Bad::NotANumber(text) => write!(f, "{} is not a number", quoted(text)),
            Bad::TooLarge(text) => write!(f, "{} is above 18446744073709551615", quoted(text)),
            Bad::TooLong => write!(f, "it is longer than {MOST_BYTES} bytes"),
            Bad::Again(id, first) => write!(f, "{id} stands already on line {first}"),
            Bad::TooMany => write!(f, "there are more than {MAX_IDS} ids"),
        }
    }
}

impl fmt::Display for Error {
    fn fmt(&self, f: &mut fmt::Formatter) -> fmt::Result {
        match self {
            Error::Line(line, bad) => write!(f, "line {line}: {bad}"),
            Error::Reading(error) => error.fmt(f),
        }
    }
}

#[cfg(test)]
mod tests {
    use super::*;

    fn said(text: &str) -> String {
        match read_ids(Lines::new(text.as_bytes()), |_| ()) {
            Ok(ids) => format!("{ids:?}"),
            Err(error) => error.to_string(),
        }
    }

    #[test]
    fn ids_in_both_forms() {
        assert_eq!(
            said("7\n0x1F\n0XfF\n  12\t\r\n\n18446744073709551615"),
            "[7, 31, 255, 12, 18446744073709551615]"
        );
    }

    #[test]
    fn nothing_at_all() {
        assert_eq!(said(""), "[]");
        assert_eq!(said("\n \n"), "[]");
    }

    #[test]
    fn no_numbers() {
        for text in ["seven", "-1", "+1", "1.5", "0x", "0xg", "1 2", "1_000", "٣"] {
            assert_eq!(
                said(&format!("5\n{text}\n6")),
                format!("line 2: {text:?} is not a number")
            );
        }
    }

    #[test]
    fn too_large() {
        for text in ["18446744073709551616", "0x10000000000000000"] {
            assert_eq!(said(text), format!("line 1: {text:?} is above 18446744073709551615"));
        }
    }

    #[test]
    fn an_id_twice_is_named_with_both_lines() {
        assert_eq!(said("1\n16\n\n2\n0x10\n1"), "line 5: 16 stands already on line 2");
    }

    #[test]
    fn the_first_bad_line_is_named() {
        assert_eq!(said("1\nx\n1"), "line 2: \"x\" is not a number");
        assert_eq!(said("1\n1\nx"), "line 2: 1 stands already on line 1");
    }

    #[test]
    fn a_byte_order_mark_is_passed_over_at_the_start_alone() {
        assert_eq!(said("\u{FEFF}7\n8"), "[7, 8]");
        assert_eq!(said("\u{FEFF}\r\n7"), "[7]");
        assert_eq!(said("7\n\u{FEFF}8"), "line 2: \"\\u{feff}8\" is not a number");
    }

    #[test]
    fn lines_of_any_length() {
        let blanks = " ".repeat(MOST_BYTES - 1);
        for end in ["", "\n", "\r\n"] {
            assert_eq!(said(&format!("{blanks}7{end}")), "[7]");
            assert_eq!(said(&format!("\u{FEFF}{blanks}7{end}")), "[7]");
            assert_eq!(
                said(&format!("5\n{blanks} 7{end}")),
                "line 2: it is longer than 1024 bytes"
            );
            assert_eq!(
                said(&format!("{blanks}  {end}")),
                "line 1: it is longer than 1024 bytes"
            );
        }
        let endless = Lines::new(io::repeat(0));
        let error = read_ids(endless, |_| ()).expect_err("no id");
        assert_eq!(error.to_string(), "line 1: it is longer than 1024 bytes");
    }

    #[test]
    fn what_has_come_is_said_before_more_is_waited_for() {
        let parts = io::Cursor::new("1\n2\n").chain(io::Cursor::new("3\n"));
        let mut said = Vec::new();
        read_ids(Lines::new(parts), |ids| said.push(ids)).expect("three ids");
        assert_eq!(said, [0, 2, 3]);
    }

    #[test]
    fn no_more_ids_than_an_index_can_have() {
        let many: String = (0..=MAX_IDS).map(|id| format!("{id}\n")).collect();
        assert_eq!(said(&many), "line 1048577: there are more than 1048576 ids");
    }

    #[test]
    fn long_and_odd_texts_stay_on_one_line() {
        assert_eq!(
            said(&"9x".repeat(100)),
            format!("line 1: {:?}.. is not a number", "9x".repeat(20))
        );
        assert_eq!(said("a\u{1b}[2Jb"), "line 1: \"a\\u{1b}[2Jb\" is not a number");
    }
}
