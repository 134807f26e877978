//! A list of answers, as the Rattle program `replay` reads it (`README.md`, "The lists").

use crate::plain;
use std::fmt::Write;

#[derive(Default)]
pub struct List {
    text: String,
}

impl List {
    /// Adds a case: a line with what was asked and what was answered.
    pub fn case(&mut self, numbers: &[u64]) {
        for (i, number) in numbers.iter().enumerate() {
            let space = if i == 0 { "" } else { " " };
            write!(self.text, "{space}{number}").expect("a String takes all");
        }
        self.text.push('\n');
    }

    /// The list with its last line, the check of all bytes before it.
    pub fn finish(mut self) -> String {
        let check = self
            .text
            .bytes()
            .fold(0, |check, byte| plain::mix(check ^ u64::from(byte), 0));
        self.case(&[check]);
        self.text
    }
}
