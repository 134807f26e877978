//! What the command writes.

use crate::Failure;
use shawltide::{Index, Place};
use std::ffi::OsString;
use std::io::Write;
use std::time::Duration;

/// An index, the file that it comes from, and how long it took to build or to load it.
pub struct Report {
    pub file: OsString,
    pub index: Index,
    /// The row list, where the ids are at hand.
    pub rows: Option<Vec<u64>>,
    pub time: Duration,
}

impl Report {
    /// A line for each row: row, id, level, position.
    pub fn rows(&self, out: &mut dyn Write) -> Result<(), Failure> {
        for id in self.rows.iter().flatten() {
            writeln!(out, "{}", line(*id, self.place(*id)?))?;
        }
        Ok(())
    }

    /// A line for an id that was asked: the same, or `none`. Where the ids are at hand it ends with whether the id is one of them, which is answered too;
    /// else whether it has a row is answered.
    pub fn lookup(&self, asked: u64, out: &mut dyn Write) -> Result<bool, Failure> {
        let place = self.place(asked)?;
        let line = line(asked, place);
        match &self.rows {
            Some(rows) => {
                let member = place.map_or(false, |place| rows[place.row as usize] == asked);
                writeln!(out, "{line} {}", if member { "member" } else { "foreign" })?;
                Ok(member)
            }
            None => {
                writeln!(out, "{line}")?;
                Ok(place.is_some())
            }
        }
    }

    /// An image may hold an index that no build made, and only a lookup finds it out.
    fn place(&self, id: u64) -> Result<Option<Place>, Failure> {
        self.index
            .lookup(id)
            .map_err(|refusal| Failure::of(&self.file, refusal))
    }
}

fn line(id: u64, place: Option<Place>) -> String {
    match place {
        Some(place) => format!("{} {id} {} {}", place.row, place.level, place.position),
        None => format!("none {id} - -"),
    }
}

/// The time is that to build or to load.
pub fn summary(index: &Index, time: Duration) -> String {
    let ids = index.len();
    let bits = match ids {
        0 => "-".to_string(),
        _ => format!("{:.2}", index.bits() as f64 / ids as f64),
    };
    let kind = index.kind().map_or("-".to_string(), |kind| kind.to_string());
    let (levels, time) = (index.levels(), time.as_secs_f64());
    format!("ids {ids}, kind {kind}, levels {levels}, bits per id {bits}, time {time:.6} s")
}

#[cfg(test)]
mod tests {
    use super::*;

    const TIME: Duration = Duration::from_micros(12);

    fn report(ids: &[u64]) -> Report {
        let index = Index::build(ids, 2.0).expect("the ids are different");
        let rows = index.rows(ids).expect("they are the index's own");
        Report {
            file: "ids".into(),
            index,
            rows: Some(rows),
            time: TIME,
        }
    }

    /// The same without the ids, as from an image.
    fn report_alone(ids: &[u64]) -> Report {
        let rows = None;
        Report { rows, ..report(ids) }
    }

    /// What is written, and what is answered.
    fn written<T>(write: impl FnOnce(&mut dyn Write) -> Result<T, Failure>) -> (String, T) {
        let mut out = Vec::new();
        let answer = write(&mut out).expect("a Vec takes all, and a built index refuses no lookup");
        (String::from_utf8(out).expect("text"), answer)
    }

    /// As `crates/demands` proves of these three: 1 and 3 share position 139 of level 0.
    #[test]
    fn three_ids() {
        let report = report(&[1, 2, 3]);
        assert_eq!(written(|out| report.rows(out)).0, "0 2 0 197\n1 3 1 58\n2 1 1 191\n");
        assert_eq!(
            summary(&report.index, TIME),
            "ids 3, kind plain, levels 2, bits per id 213.33, time 0.000012 s"
        );
    }

    #[test]
    fn a_foreign_id_is_no_member() {
        let report = report(&[1, 2, 3]);
        for id in 1..500 {
            let (line, member) = written(|out| report.lookup(id, out));
            let words: Vec<&str> = line.split_whitespace().collect();
            assert_eq!(words[1], id.to_string());
            assert_eq!(words[4], if id < 4 { "member" } else { "foreign" });
            assert_eq!(member, id < 4);
        }
        let none = ("none 4 - - foreign\n".to_string(), false);
        assert_eq!(written(|out| report.lookup(4, out)), none);
    }

    #[test]
    fn without_the_ids_a_row_is_all_that_is_known() {
        let report = report_alone(&[1, 2, 3]);
        for (id, line, has_a_row) in [(2, "0 2 0 197\n", true), (4, "none 4 - -\n", false)] {
            let wanted = (line.to_string(), has_a_row);
            assert_eq!(written(|out| report.lookup(id, out)), wanted);
        }
    }

    #[test]
    fn an_index_that_no_build_made() {
        let report = report_alone(&[1, 2, 3]);
        let (head, words, samples) = report.index.into_parts();
        let index = Index::from_parts(head, words, vec![u64::MAX; samples.len()]);
        let report = Report {
            index,
            ..report_alone(&[])
        };
        let failure = report.lookup(2, &mut Vec::new());
        assert!(matches!(failure, Err(Failure::Failed(line)) if line.starts_with("ids: refusal 8: ")));
    }

    #[test]
    fn no_ids() {
        let report = report(&[]);
        assert_eq!(written(|out| report.rows(out)).0, "");
        assert_eq!(
            summary(&report.index, TIME),
            "ids 0, kind plain, levels 1, bits per id -, time 0.000012 s"
        );
    }
}
