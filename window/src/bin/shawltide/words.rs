//! What the words of the command line ask for.

use crate::input::parse_id;
use crate::quoted::named;
use crate::Failure;
use shawltide::{Index, Kind, Refusal, GAMMA};
use std::ffi::{OsStr, OsString};
use std::os::unix::ffi::OsStrExt;

/// A file's name need not be text.
#[derive(Debug, PartialEq)]
pub enum Asked {
    Help,
    Version,
    /// An index of the ids in the file, into the image.
    Build {
        file: OsString,
        image: OsString,
        how: How,
        quiet: bool,
    },
    Rows {
        from: Source,
        quiet: bool,
    },
    Lookup {
        from: Source,
        wanted: Wanted,
        quiet: bool,
    },
}

/// Where the index comes from.
#[derive(Debug, PartialEq)]
pub enum Source {
    /// It is built of the ids in this file.
    Built(OsString, How),
    /// It is read from this image. The ids, where they are asked for, are in this file.
    Image(OsString, Option<OsString>),
}

/// How an index is built.
#[derive(Clone, Copy, Debug, PartialEq)]
pub struct How {
    pub kind: Kind,
    pub gamma: f64,
}

/// The ids to look up: those given, or those of standard input.
#[derive(Debug, PartialEq)]
pub enum Wanted {
    Given(Vec<u64>),
    FromInput,
}

pub fn asked(words: &[OsString]) -> Result<Asked, Failure> {
    let (word, rest) = words
        .split_first()
        .ok_or_else(|| Failure::usage("no command is given"))?;
    match &*word.to_string_lossy() {
        "help" | "--help" | "-h" => Ok(Asked::Help),
        "build" | "rows" | "lookup" if wants_help(rest) => Ok(Asked::Help),
        "build" => build(rest),
        "rows" => rows(rest),
        "lookup" => lookup(rest),
        "--version" if rest.is_empty() => Ok(Asked::Version),
        "--version" => Err(Failure::usage("--version takes no other words")),
        _ => Err(Failure::usage(format!("{} is not a command", named(word)))),
    }
}

/// After a command: `help` alone, `--help` or `-h` among the words up to `--`.
fn wants_help(rest: &[OsString]) -> bool {
    let mut options = rest.iter().take_while(|word| *word != "--");
    rest == ["help"] || options.any(|word| word == "--help" || word == "-h")
}

fn build(rest: &[OsString]) -> Result<Asked, Failure> {
    let given = Given::of(rest)?;
    if given.image.is_some() {
        return Err(Failure::usage("build takes no --image: IMAGE stands after FILE"));
    }
    match given.words[..] {
        [file, image] => Ok(Asked::Build {
            file: file.clone(),
            image: image_of(image)?,
            how: given.how()?,
            quiet: given.quiet,
        }),
        _ => Err(Failure::usage("build needs a FILE and an IMAGE")),
    }
}

fn rows(rest: &[OsString]) -> Result<Asked, Failure> {
    let given = Given::of(rest)?;
    given.ask_image()?;
    let quiet = given.quiet;
    match (&given.words[..], &given.image) {
        ([file], Some(image)) => {
            let from = Source::Image(image.clone(), Some(file.to_os_string()));
            Ok(Asked::Rows { from, quiet })
        }
        ([file], None) => {
            let from = Source::Built(file.to_os_string(), given.how()?);
            Ok(Asked::Rows { from, quiet })
        }
        _ => Err(Failure::usage("rows needs one FILE, also with --image")),
    }
}

fn lookup(rest: &[OsString]) -> Result<Asked, Failure> {
    let given = Given::of(rest)?;
    given.ask_image()?;
    let quiet = given.quiet;
    match (&given.words[..], &given.image) {
        ([], Some(_)) => Err(Failure::usage("lookup needs an ID")),
        (ids, Some(image)) => {
            let from = Source::Image(image.clone(), None);
            let wanted = wanted(ids)?;
            Ok(Asked::Lookup { from, wanted, quiet })
        }
        ([] | [_], None) => Err(Failure::usage("lookup needs a FILE and an ID")),
        ([file, input], None) if *file == "-" && *input == "-" => {
            Err(Failure::usage("FILE and ID cannot both be standard input"))
        }
        ([file, ids @ ..], None) => {
            let wanted = wanted(ids)?;
            let from = Source::Built(file.to_os_string(), given.how()?);
            Ok(Asked::Lookup { from, wanted, quiet })
        }
    }
}

fn wanted(ids: &[&OsString]) -> Result<Wanted, Failure> {
    if ids == ["-"] {
        return Ok(Wanted::FromInput);
    }
    let ids = ids.iter().map(|word| id(word)).collect::<Result<_, _>>()?;
    Ok(Wanted::Given(ids))
}

fn id(word: &OsStr) -> Result<u64, Failure> {
    parse_id(&word.to_string_lossy()).map_err(Failure::usage)
}

/// The options, each given once at most, and the other words.
#[derive(Default)]
struct Given<'a> {
    words: Vec<&'a OsString>,
    /// The number, which need not be that of a known kind, and how it was given.
    kind: Option<(u64, &'a OsStr)>,
    /// Any number, and how it was given.
    gamma: Option<(f64, &'a OsStr)>,
    image: Option<OsString>,
    quiet: bool,
}

impl<'a> Given<'a> {
    /// After `--` there are only other words.
    fn of(rest: &'a [OsString]) -> Result<Given<'a>, Failure> {
        let mut given = Given::default();
        let mut quiet = None;
        let mut rest = rest.iter();
        while let Some(word) = rest.next() {
            if let Some(value) = value_of("--kind", "a KIND", word, &mut rest)? {
                once(&mut given.kind, "--kind", (kind_of(value)?, value))?;
            } else if let Some(value) = value_of("--gamma", "a number", word, &mut rest)? {
                once(&mut given.gamma, "--gamma", (gamma_of(value)?, value))?;
            } else if let Some(value) = value_of("--image", "an IMAGE", word, &mut rest)? {
                once(&mut given.image, "--image", image_of(value)?)?;
            } else if word == "--quiet" {
                once(&mut quiet, "--quiet", ())?;
            } else if word == "--" {
                given.words.extend(rest.by_ref());
            } else if word != "-" && word.as_bytes().starts_with(b"-") {
                return Err(Failure::usage(format!("{} is not known", named(word))));
            } else {
                given.words.push(word);
            }
        }
        given.quiet = quiet.is_some();
        Ok(given)
    }

    /// What says how to build says nothing of an image.
    fn ask_image(&self) -> Result<(), Failure> {
        let building = [("--gamma", self.gamma.is_some()), ("--kind", self.kind.is_some())];
        match building.iter().find(|(_, given)| *given && self.image.is_some()) {
            Some((option, _)) => Err(Failure::usage(format!(
                "{option} is for building, and an image is built already"
            ))),
            None => Ok(()),
        }
    }

    /// Kind and gamma are judged as the build does, in its order: it is asked without ids, before any is read.
    fn how(&self) -> Result<How, Failure> {
        let refused = |option, word, refusal: Refusal| Failure::usage(format!("{option} {}: {refusal}", named(word)));
        let mut how = How {
            kind: Kind::default(),
            gamma: GAMMA,
        };
        if let Some((number, word)) = self.kind {
            how.kind = Kind::try_from(number).map_err(|refusal| refused("--kind", word, refusal))?;
        }
        if let Some((gamma, word)) = self.gamma {
            Index::build_with(how.kind, &[], gamma).map_err(|refusal| refused("--gamma", word, refusal))?;
            how.gamma = gamma;
        }
        Ok(how)
    }
}

/// The value of an option, if the word is that option: what stands after `=`, or the next word.
fn value_of<'a>(
    option: &str,
    what: &str,
    word: &'a OsStr,
    rest: &mut std::slice::Iter<'a, OsString>,
) -> Result<Option<&'a OsStr>, Failure> {
    match word.as_bytes().strip_prefix(option.as_bytes()) {
        Some([]) => match rest.next() {
            Some(value) => Ok(Some(value)),
            None => Err(Failure::usage(format!("{option} needs {what}"))),
        },
        Some([b'=', value @ ..]) => Ok(Some(OsStr::from_bytes(value))),
        _ => Ok(None),
    }
}

/// An image is a file that is replaced, or read from its beginning to its end; so it is no stream.
fn image_of(word: &OsStr) -> Result<OsString, Failure> {
    if word == "-" {
        return Err(Failure::usage("IMAGE has to be a file, not -"));
    }
    Ok(word.to_os_string())
}

fn once<T>(place: &mut Option<T>, option: &str, value: T) -> Result<(), Failure> {
    match place.replace(value) {
        Some(_) => Err(Failure::usage(format!("{option} is given twice"))),
        None => Ok(()),
    }
}

/// The number of a kind, known or not, that is given by its name or its number. Of those that are not known one has a name.
fn kind_of(word: &OsStr) -> Result<u64, Failure> {
    let text = word.to_string_lossy();
    match text.parse::<Kind>() {
        Ok(kind) => Ok(kind.number()),
        Err(_) if text == "wyhash" => Ok(1),
        Err(_) => parse_id(&text)
            .map_err(|_| Failure::usage(format!("--kind {} is not a kind: give plain or 0", named(word)))),
    }
}

fn gamma_of(word: &OsStr) -> Result<f64, Failure> {
    word.to_string_lossy()
        .parse()
        .map_err(|_| Failure::usage(format!("--gamma {} is not a number", named(word))))
}

#[cfg(test)]
mod tests {
    use super::*;

    fn said(line: &str) -> Result<Asked, String> {
        let words: Vec<OsString> = line.split_whitespace().map(OsString::from).collect();
        asked(&words).map_err(|failure| match failure {
            Failure::Usage(message) => message,
            other => panic!("not a wrong usage: {other:?}"),
        })
    }

    /// Each line is a wrong usage, with this message.
    fn refuse(cases: &[(&str, &str)]) {
        for (line, message) in cases {
            let refused = said(line).expect_err(line);
            assert_eq!(refused, format!("{message} (see `shawltide help`)"));
        }
    }

    fn plain(gamma: f64) -> How {
        let kind = Kind::Plain;
        How { kind, gamma }
    }

    fn rows_of(file: &str, gamma: f64, quiet: bool) -> Result<Asked, String> {
        let from = Source::Built(file.into(), plain(gamma));
        Ok(Asked::Rows { from, quiet })
    }

    #[test]
    fn options_stand_anywhere_after_the_command() {
        assert_eq!(said("rows f"), rows_of("f", GAMMA, false));
        assert_eq!(said("rows --gamma 2 f --quiet"), rows_of("f", 2.0, true));
        assert_eq!(said("rows --quiet f --gamma=2.5"), rows_of("f", 2.5, true));
    }

    #[test]
    fn after_two_dashes_nothing_is_an_option() {
        assert_eq!(said("rows --gamma 3 -- --gamma"), rows_of("--gamma", 3.0, false));
        assert_eq!(said("rows -- --help"), rows_of("--help", GAMMA, false));
        assert_eq!(said("rows -- help"), rows_of("help", GAMMA, false));
        assert_eq!(said("rows -- --"), rows_of("--", GAMMA, false));
    }

    #[test]
    fn help_alone_and_after_a_command() {
        for line in [
            "help",
            "-h",
            "--help",
            "help rows",
            "rows help",
            "rows -h",
            "build help",
            "build f i -h",
            "lookup f --help",
        ] {
            assert_eq!(said(line), Ok(Asked::Help), "{line}");
        }
        assert_eq!(said("rows help --quiet"), rows_of("help", GAMMA, true));
    }

    #[test]
    fn ids_to_look_up() {
        let lookup = |from, wanted, quiet| Ok(Asked::Lookup { from, wanted, quiet });
        let given = || Wanted::Given(vec![5, 16]);
        let built = || Source::Built("f".into(), plain(GAMMA));
        assert_eq!(said("lookup f 5 0x10"), lookup(built(), given(), false));
        assert_eq!(said("lookup f - --quiet"), lookup(built(), Wanted::FromInput, true));
        let image = || Source::Image("i".into(), None);
        assert_eq!(said("lookup --image i 5 0x10"), lookup(image(), given(), false));
        assert_eq!(said("lookup - --image=i"), lookup(image(), Wanted::FromInput, false));
    }

    #[test]
    fn images() {
        let build = |gamma, quiet| {
            let (file, image) = ("f".into(), "i".into());
            Ok(Asked::Build {
                file,
                image,
                how: plain(gamma),
                quiet,
            })
        };
        assert_eq!(said("build f i"), build(GAMMA, false));
        assert_eq!(said("build --quiet f --gamma=2 i"), build(2.0, true));
        assert_eq!(said("build f --kind plain i"), build(GAMMA, false));
        let rows = |image: &str| {
            let from = Source::Image(image.into(), Some("f".into()));
            Ok(Asked::Rows { from, quiet: false })
        };
        assert_eq!(said("rows --image i f"), rows("i"));
        assert_eq!(said("rows f --image=a=b"), rows("a=b"));
        assert_eq!(said("rows f --image --gamma"), rows("--gamma"));
    }

    #[test]
    fn kinds_by_name_and_by_number() {
        for kind in ["plain", "0", "0x0", "00"] {
            assert_eq!(said(&format!("rows f --kind {kind}")), rows_of("f", GAMMA, false));
            assert_eq!(said(&format!("rows --kind={kind} f")), rows_of("f", GAMMA, false));
        }
    }

    #[test]
    fn kinds_that_are_not_known() {
        for kind in ["wyhash", "1", "2", "0x100", "4294967296", "18446744073709551615"] {
            let message = format!("--kind {kind}: {}", Refusal::UnknownKind);
            for line in ["rows f", "lookup f 5", "lookup f -", "build f i"] {
                refuse(&[(&format!("{line} --kind {kind}"), &message)]);
            }
        }
    }

    #[test]
    fn a_name_need_not_be_text() {
        let words = [&b"rows"[..], b"f", b"--image=\xFF"].map(|word| OsStr::from_bytes(word).to_os_string());
        let image = OsStr::from_bytes(b"\xFF").to_os_string();
        let from = Source::Image(image, Some("f".into()));
        assert_eq!(asked(&words), Ok(Asked::Rows { from, quiet: false }));
    }

    #[test]
    fn refused_words_about_kinds() {
        let built = "--kind is for building, and an image is built already";
        let no_image = "build takes no --image: IMAGE stands after FILE";
        let unknown = format!("--kind 1: {}", Refusal::UnknownKind);
        refuse(&[
            ("rows f --kind", "--kind needs a KIND"),
            ("rows f --kind=", "--kind \"\" is not a kind: give plain or 0"),
            ("rows f --kind Plain", "--kind Plain is not a kind: give plain or 0"),
            ("rows f --kind -1", "--kind -1 is not a kind: give plain or 0"),
            (
                "build f i --kind 18446744073709551616",
                "--kind 18446744073709551616 is not a kind: give plain or 0",
            ),
            ("rows f --kind 0 --kind=plain", "--kind is given twice"),
            ("rows f --gamma 17 --kind 1", &unknown),
            ("rows f --kind 1 --gamma 17", &unknown),
            ("rows f --kind plain --image i", built),
            ("lookup 5 --image i --kind 0", built),
            ("lookup 5 --image i --kind 1", built),
            ("rows f --kind=wyhash --image i", built),
            ("build f i --image x --kind 0", no_image),
            ("build f i --kind 1 --image x --gamma 2", no_image),
        ]);
    }

    #[test]
    fn refused_words() {
        refuse(&[
            ("", "no command is given"),
            ("row f", "row is not a command"),
            ("rows", "rows needs one FILE, also with --image"),
            ("rows f g", "rows needs one FILE, also with --image"),
            ("lookup f", "lookup needs a FILE and an ID"),
            ("lookup - -", "FILE and ID cannot both be standard input"),
            ("lookup f 5 -", "\"-\" is not a number"),
            ("rows f --gamma", "--gamma needs a number"),
            ("rows f --gamma=", "--gamma \"\" is not a number"),
            ("rows f --gamma 2 --gamma=2", "--gamma is given twice"),
            ("rows f --quiet --quiet", "--quiet is given twice"),
            ("rows f --quiet=1", "--quiet=1 is not known"),
            ("rows f -q", "-q is not known"),
            ("rows f --imaged", "--imaged is not known"),
            ("rows f --image", "--image needs an IMAGE"),
            ("rows f --image i --image=i", "--image is given twice"),
            ("rows f --image -", "IMAGE has to be a file, not -"),
            (
                "rows f --gamma 17 --image i",
                "--gamma is for building, and an image is built already",
            ),
            ("rows --image i", "rows needs one FILE, also with --image"),
            ("lookup --image i", "lookup needs an ID"),
            ("lookup --image i f 5", "\"f\" is not a number"),
            ("build f", "build needs a FILE and an IMAGE"),
            ("build f i j", "build needs a FILE and an IMAGE"),
            ("build f -", "IMAGE has to be a file, not -"),
            ("build f --image i", "build takes no --image: IMAGE stands after FILE"),
            ("--version f", "--version takes no other words"),
            ("rows f --gamma=nan", "--gamma nan: refusal 1: gamma is not above 1.01"),
            ("rows f --gamma 17", "--gamma 17: refusal 2: gamma is above 16"),
        ]);
    }

    #[test]
    fn odd_words_stay_on_one_line() {
        let cases: [(&[&str], &str); 5] = [
            (&[""], "\"\" is not a command"),
            (
                &["rows", "--kind", "\r0"],
                "--kind \"\\r0\" is not a kind: give plain or 0",
            ),
            (&["a\nb"], "\"a\\nb\" is not a command"),
            (&["rows", "-\u{1b}[2J"], "\"-\\u{1b}[2J\" is not known"),
            (&["rows", "--gamma", "\r2"], "--gamma \"\\r2\" is not a number"),
        ];
        for (words, message) in cases {
            let words: Vec<OsString> = words.iter().map(OsString::from).collect();
            let message = format!("{message} (see `shawltide help`)");
            assert_eq!(asked(&words), Err(Failure::Usage(message)));
        }
    }
}
