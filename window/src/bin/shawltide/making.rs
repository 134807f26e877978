//! The index that is asked for: built of a file of ids, or read from an image.

use crate::input::{read_ids, Lines};
use crate::report::Report;
use crate::streams::{self, Progress};
use crate::words::{How, Source};
use crate::Failure;
use shawltide::{ImageError, Index, Refusal};
use std::ffi::OsStr;
use std::fs::{self, File};
use std::io::{self, ErrorKind, Read};
use std::os::unix::fs::MetadataExt;
use std::path::Path;
use std::time::{Duration, Instant};

/// A file of ids that was opened, or standard input.
pub struct Input<'a> {
    name: &'a OsStr,
    file: File,
}

/// An index with the ids that it was built of, and how long that took.
pub struct Built {
    ids: Vec<u64>,
    pub index: Index,
    pub time: Duration,
}

impl<'a> Input<'a> {
    pub fn open(name: &'a OsStr) -> Result<Input<'a>, Failure> {
        let file = if name == "-" {
            streams::input()
        } else {
            File::open(name)
        };
        let file = file.map_err(|error| Failure::of(name, error))?;
        Ok(Input { name, file })
    }

    /// Whether it is the file of this name.
    pub fn is(&self, name: &OsStr) -> bool {
        match (self.file.metadata(), fs::metadata(name)) {
            (Ok(own), Ok(other)) => (own.dev(), own.ino()) == (other.dev(), other.ino()),
            _ => false,
        }
    }

    /// An index of its ids.
    pub fn build(&self, how: How, quiet: bool) -> Result<Built, Failure> {
        let mut progress = self.progress(quiet);
        let ids = self.ids(&mut progress)?;
        progress.building(ids.len());
        let start = Instant::now();
        let index = Index::build_with(how.kind, &ids, how.gamma);
        let index = index.map_err(|refusal| Failure::of(self.name, refusal))?;
        let time = start.elapsed();
        Ok(Built { ids, index, time })
    }

    /// None is shown while ids are typed.
    fn progress(&self, quiet: bool) -> Progress {
        Progress::new(quiet || self.name == "-" && streams::input_is_terminal())
    }

    fn ids(&self, progress: &mut Progress) -> Result<Vec<u64>, Failure> {
        let ids = read_ids(Lines::new(&self.file), |ids| progress.reading(&self.file, ids));
        ids.map_err(|error| Failure::of(self.name, error))
    }

    fn rows(&self, index: &Index, ids: &[u64]) -> Result<Vec<u64>, Failure> {
        index.rows(ids).map_err(|refusal| {
            let levels = index.levels();
            if refusal != Refusal::WrongIds || levels <= LEVELS_AS_EVER {
                return Failure::of(self.name, refusal);
            }
            let old = "or build the image again, if version 0.2.0 or an earlier one made it";
            Failure::of(self.name, format!("{refusal}; {old}: it has {levels} levels"))
        })
    }
}

/// Up to so many levels an image gives the rows that it ever gave. Of one with more that version 0.2.0 or an earlier one made, ids may no longer be found,
/// and are refused though they are the right ones.
const LEVELS_AS_EVER: usize = 32;

/// The index and what there is to say about it.
pub fn report(from: &Source, quiet: bool) -> Result<Report, Failure> {
    let (file, index, rows, time) = match from {
        Source::Built(file, how) => {
            let input = Input::open(file)?;
            let Built { ids, index, time } = input.build(*how, quiet)?;
            let rows = input.rows(&index, &ids)?;
            (file, index, Some(rows), time)
        }
        Source::Image(image, list) => {
            let start = Instant::now();
            let index = Index::load(image).map_err(|error| failure(image, error))?;
            let time = start.elapsed();
            let rows = list.as_deref().map(|list| listed(&index, list, quiet)).transpose()?;
            (image, index, rows, time)
        }
    };
    Ok(Report {
        file: file.clone(),
        index,
        rows,
        time,
    })
}

/// The row list of an index for the ids in a file.
fn listed(index: &Index, list: &OsStr, quiet: bool) -> Result<Vec<u64>, Failure> {
    let input = Input::open(list)?;
    let ids = input.ids(&mut input.progress(quiet))?;
    input.rows(index, &ids)
}

/// How every image begins: with the number of block 0.
const IMAGE_START: [u8; 8] = [0; 8];

/// Asks before the ids are read whether an image may be put there: nothing but an image would be lost.
pub fn ask_place(image: &OsStr) -> Result<(), Failure> {
    match is_free(Path::new(image)) {
        Ok(true) => Ok(()),
        Ok(false) => Err(Failure::of(
            image,
            "it is no image and would be lost; remove it, or give another file",
        )),
        Err(error) => Err(unwritten(image, error)),
    }
}

/// Whether the path is that of an image, by how it begins, of an empty file, or of nothing in a folder that is there. What is no regular file is not
/// replaced, and so not lost.
fn is_free(path: &Path) -> io::Result<bool> {
    match fs::metadata(path) {
        Ok(old) if old.is_file() && old.len() > 0 => begins_as_an_image(path),
        Ok(_) => Ok(true),
        Err(error) if error.kind() == ErrorKind::NotFound => {
            let folder = path.parent().filter(|folder| *folder != Path::new(""));
            fs::metadata(folder.unwrap_or(Path::new("."))).map(|_| true)
        }
        Err(error) => Err(error),
    }
}

fn begins_as_an_image(path: &Path) -> io::Result<bool> {
    let mut start = Vec::new();
    File::open(path)?
        .take(IMAGE_START.len() as u64)
        .read_to_end(&mut start)?;
    Ok(start == IMAGE_START)
}

/// Why an image could not be read or written, by the name that was given for it.
pub fn failure(image: &OsStr, error: ImageError) -> Failure {
    match error {
        ImageError::Read { error, .. } => Failure::of(
            image,
            format_args!("{error}; give an image that `shawltide build` wrote and that may be read"),
        ),
        ImageError::Write { error, .. } => unwritten(image, error),
        ImageError::Refused { refusal, .. } => Failure::of(image, refusal),
    }
}

fn unwritten(image: &OsStr, error: io::Error) -> Failure {
    Failure::of(
        image,
        format_args!("{error}; give a file in a folder that may be read and written and has room"),
    )
}
