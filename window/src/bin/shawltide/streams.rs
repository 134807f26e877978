//! Standard input, output and error, also where they are closed or full, and progress on a terminal.

use std::fs::File;
use std::io::{self, Write};
use std::os::raw::{c_int, c_short, c_ulong};
use std::os::unix::io::{AsFd, AsRawFd, BorrowedFd};
use std::sync::atomic::{AtomicBool, Ordering};
use std::time::{Duration, Instant};

extern "C" {
    fn fcntl(number: c_int, command: c_int, ...) -> c_int;
    fn isatty(number: c_int) -> c_int;
    fn poll(asked: *mut Poll, count: c_ulong, milliseconds: c_int) -> c_int;
}

/// What `poll` is asked of a stream: the number, what should happen, what does.
#[repr(C)]
struct Poll(c_int, c_short, c_short);

const INPUT: c_int = 0;
const OUTPUT: c_int = 1;
const ERROR: c_int = 2;

static INPUT_CLOSED: AtomicBool = AtomicBool::new(false);
static OUTPUT_CLOSED: AtomicBool = AtomicBool::new(false);

/// Rust opens /dev/null in the place of a closed stream before `main`. So it is looked before that which are closed.
#[used]
#[link_section = ".init_array"]
static LOOK: extern "C" fn() = look;

extern "C" fn look() {
    const F_GETFD: c_int = 1;
    // SAFETY: fcntl with this command takes any number and changes nothing.
    let closed = |number| unsafe { fcntl(number, F_GETFD) } < 0;
    INPUT_CLOSED.store(closed(INPUT), Ordering::Relaxed);
    OUTPUT_CLOSED.store(closed(OUTPUT), Ordering::Relaxed);
}

fn is_terminal(number: c_int) -> bool {
    // SAFETY: isatty takes any number and changes nothing.
    unsafe { isatty(number) == 1 }
}

pub fn input_is_terminal() -> bool {
    is_terminal(INPUT)
}

/// Standard input as a file: Rust's own takes one that cannot be read for one that is at its end.
pub fn input() -> io::Result<File> {
    file(io::stdin().as_fd(), &INPUT_CLOSED)
}

/// Standard output as a file: Rust's own takes what it writes to one that cannot be written for written.
pub fn output() -> io::Result<File> {
    file(io::stdout().as_fd(), &OUTPUT_CLOSED)
}

fn file(stream: BorrowedFd, closed: &AtomicBool) -> io::Result<File> {
    const EBADF: i32 = 9;
    if closed.load(Ordering::Relaxed) {
        return Err(io::Error::from_raw_os_error(EBADF));
    }
    Ok(File::from(stream.try_clone_to_owned()?))
}

/// Waits until the input can be read, or so long; says whether it still cannot.
fn nothing_comes(input: &File, time: Duration) -> bool {
    const POLLIN: c_short = 1;
    let mut asked = Poll(input.as_raw_fd(), POLLIN, 0);
    // SAFETY: poll gets one struct of its own form, and keeps nothing of it.
    unsafe { poll(&mut asked, 1, time.as_millis() as c_int) == 0 }
}

/// A line on standard error. Where that is closed or full the line is lost, and the exit status alone says how the command ended.
pub fn say(line: &str) {
    let _ = io::stderr().write_all(format!("{line}\n").as_bytes());
}

/// A line on standard error, where that is a terminal, that is rewritten as the work goes on and wiped when it is done.
pub struct Progress {
    on: bool,
    shown: bool,
    next: Instant,
}

impl Progress {
    /// A reading that is done sooner shows nothing.
    const FIRST: Duration = Duration::from_millis(500);
    const EACH: Duration = Duration::from_millis(200);
    /// How many ids make a build long enough to say that it is going on.
    const MANY: usize = 65_536;

    pub fn new(quiet: bool) -> Progress {
        Progress {
            on: !quiet && is_terminal(ERROR),
            shown: false,
            next: Instant::now() + Progress::FIRST,
        }
    }

    /// So many ids are read of the input, and more may come.
    pub fn reading(&mut self, input: &File, ids: usize) {
        let time = self.next.saturating_duration_since(Instant::now());
        if self.on && (time.is_zero() || nothing_comes(input, time)) {
            self.next = Instant::now() + Progress::EACH;
            self.show(&format!("reading: {ids} ids"));
        }
    }

    /// An index of so many ids is built.
    pub fn building(&mut self, ids: usize) {
        if self.on && (self.shown || ids >= Progress::MANY) {
            self.show(&format!("building an index of {ids} ids"));
        }
    }

    fn show(&mut self, line: &str) {
        self.shown = true;
        let _ = io::stderr().write_all(format!("\r{line}\x1b[K").as_bytes());
    }
}

impl Drop for Progress {
    fn drop(&mut self) {
        if self.shown {
            let _ = io::stderr().write_all(b"\r\x1b[K");
        }
    }
}
