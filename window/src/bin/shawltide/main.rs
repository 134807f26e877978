//! The command: ids from a file to rows, and indexes to images. `help.txt` says how it is used.

mod input;
mod making;
mod quoted;
mod report;
mod streams;
mod words;

use input::Lines;
use making::{report, Built, Input};
use quoted::named;
use report::Report;
use shawltide::FORM;
use std::ffi::{OsStr, OsString};
use std::fmt::Display;
use std::io::{self, BufWriter, ErrorKind, Write};
use std::process::ExitCode;
use streams::say;
use words::{Asked, How, Source, Wanted};

const HELP: &str = include_str!("help.txt");

/// Why the command ends before its end.
#[derive(Debug, PartialEq)]
pub enum Failure {
    /// The words are wrong.
    Usage(String),
    /// Something cannot be read, built or written, or is damaged.
    Failed(String),
    /// Nobody reads what is written.
    Unread,
}

/// How a command ended that came to its end.
enum Ended {
    Done,
    NoneFound,
}

impl Failure {
    fn usage(what: impl Display) -> Failure {
        Failure::Usage(format!("{what} (see `shawltide help`)"))
    }

    fn of(which: &OsStr, what: impl Display) -> Failure {
        Failure::Failed(format!("{}: {what}", named(which)))
    }
}

/// A failure to write to standard output.
impl From<io::Error> for Failure {
    fn from(error: io::Error) -> Failure {
        match error.kind() {
            ErrorKind::BrokenPipe => Failure::Unread,
            _ => Failure::of(OsStr::new("standard output"), error),
        }
    }
}

/// The exit statuses. There is one more, 4, with which `./shawltide` says that there is no program.
fn main() -> ExitCode {
    let words: Vec<OsString> = std::env::args_os().skip(1).collect();
    let (status, message) = match words::asked(&words).and_then(run) {
        Ok(Ended::Done) | Err(Failure::Unread) => return ExitCode::SUCCESS,
        Ok(Ended::NoneFound) => return ExitCode::from(1),
        Err(Failure::Usage(message)) => (2, message),
        Err(Failure::Failed(message)) => (3, message),
    };
    say(&format!("shawltide: {message}"));
    ExitCode::from(status)
}

fn run(asked: Asked) -> Result<Ended, Failure> {
    match asked {
        Asked::Help => write(HELP, &mut output()?),
        Asked::Version => write(&version(), &mut output()?),
        Asked::Build {
            file,
            image,
            how,
            quiet,
        } => build(&file, &image, how, quiet),
        Asked::Rows { from, quiet } => rows(&from, quiet, &mut output()?),
        Asked::Lookup { from, wanted, quiet } => lookup(&from, wanted, quiet, &mut output()?),
    }
}

fn output() -> io::Result<impl Write> {
    Ok(BufWriter::new(streams::output()?))
}

fn write(text: &str, out: &mut dyn Write) -> Result<Ended, Failure> {
    out.write_all(text.as_bytes())?;
    out.flush()?;
    Ok(Ended::Done)
}

fn version() -> String {
    let (version, toolchain) = (env!("CARGO_PKG_VERSION"), env!("SHAWLTIDE_TOOLCHAIN"));
    format!("shawltide {version}\nform of the index: {FORM}\nproved with: {toolchain}\n")
}

/// An image must not take the place of the ids that it is built of, nor of anything but an image.
fn build(file: &OsStr, image: &OsStr, how: How, quiet: bool) -> Result<Ended, Failure> {
    let input = Input::open(file)?;
    if input.is(image) {
        return Err(Failure::of(
            image,
            "it is the file of the ids; give another for the image",
        ));
    }
    making::ask_place(image)?;
    let Built { index, time, .. } = input.build(how, quiet)?;
    index.save(image).map_err(|error| making::failure(image, error))?;
    if !quiet {
        let summary = report::summary(&index, time);
        say(&format!("{summary}, bytes written {}", index.room().image_bytes()));
    }
    Ok(Ended::Done)
}

fn rows(from: &Source, quiet: bool, out: &mut dyn Write) -> Result<Ended, Failure> {
    let report = report(from, quiet)?;
    report.rows(out)?;
    out.flush()?;
    summary(&report, quiet);
    Ok(Ended::Done)
}

fn lookup(from: &Source, wanted: Wanted, quiet: bool, out: &mut dyn Write) -> Result<Ended, Failure> {
    let report = report(from, quiet)?;
    let mut found = 0;
    match wanted {
        Wanted::Given(ids) => {
            for id in ids {
                found += u64::from(report.lookup(id, out)?);
            }
        }
        Wanted::FromInput => found = asked_on_input(&report, out)?,
    }
    out.flush()?;
    summary(&report, quiet);
    Ok(if found == 0 { Ended::NoneFound } else { Ended::Done })
}

/// Looks up the ids of standard input, and counts those that are found. What was asked is answered before more is waited for.
fn asked_on_input(report: &Report, out: &mut dyn Write) -> Result<u64, Failure> {
    let bad = |what: &dyn Display| Failure::of(OsStr::new("-"), what);
    let mut lines = Lines::new(streams::input().map_err(|error| bad(&error))?);
    let mut found = 0;
    loop {
        if lines.waits() {
            out.flush()?;
        }
        match lines.next_id().map_err(|error| bad(&error))? {
            Some(id) => found += u64::from(report.lookup(id, out)?),
            None => return Ok(found),
        }
    }
}

fn summary(report: &Report, quiet: bool) {
    if !quiet {
        say(&report::summary(&report.index, report.time));
    }
}
