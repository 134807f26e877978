//! Texts of others in a line of ours.

use std::borrow::Cow;
use std::ffi::OsStr;

/// Quoted, and cut where it is long.
pub fn quoted(text: &str) -> String {
    const MOST: usize = 40;
    let cut: String = text.chars().take(MOST).collect();
    let more = if cut.len() < text.len() { ".." } else { "" };
    format!("{cut:?}{more}")
}

/// A word or a file's name as it is, but quoted where it would not be seen, or would break the line.
pub fn named(word: &OsStr) -> Cow<'_, str> {
    let text = word.to_string_lossy();
    if text.is_empty() || text.contains(char::is_control) {
        return Cow::Owned(format!("{text:?}"));
    }
    text
}

#[cfg(test)]
mod tests {
    use super::*;
    use std::os::unix::ffi::OsStrExt;

    #[test]
    fn names_that_can_be_read_stay() {
        for name in ["-", "a b", "x\"y", "C:\\ids", "été.txt"] {
            assert_eq!(named(OsStr::new(name)), name);
        }
        assert_eq!(named(OsStr::from_bytes(b"odd \xff")), "odd \u{fffd}");
    }

    #[test]
    fn other_names_are_quoted() {
        for (name, wanted) in [
            ("", r#""""#),
            ("a\nb", r#""a\nb""#),
            ("\u{1b}[2J", r#""\u{1b}[2J""#),
            ("\u{9b}2J", r#""\u{9b}2J""#),
        ] {
            assert_eq!(named(OsStr::new(name)), wanted);
        }
    }

    #[test]
    fn long_texts_are_cut() {
        assert_eq!(quoted(&"9x".repeat(20)), format!("{:?}", "9x".repeat(20)));
        assert_eq!(quoted(&"9x".repeat(21)), format!("{:?}..", "9x".repeat(20)));
    }
}
