//! A program that is killed while it saves leaves the old image or the new one, whole. It is run without the harness of other tests: that has threads, and
//! this forks.

mod ids;

use ids::ids;
use shawltide::{ImageError, Index, Refusal, GAMMA};
use std::error::Error;
use std::os::raw::c_int;
use std::path::{Path, PathBuf};
use std::time::{Duration, Instant};
use std::{env, fs, io, process, thread};

extern "C" {
    fn fork() -> c_int;
    fn kill(process: c_int, signal: c_int) -> c_int;
    fn waitpid(process: c_int, status: *mut c_int, options: c_int) -> c_int;
}

const SIGKILL: c_int = 9;
const KILLS: usize = 300;

/// And so many at least, where savings are slow.
const FEWEST: usize = 100;

/// A program is killed within so many savings from its start.
const SAVINGS: u32 = 4;

/// After this time the fewest are enough, if each of what a kill may leave was seen.
const ENOUGH: Duration = Duration::from_secs(30);

/// A saving program ends by itself after this time, should the test itself have been ended.
const LIFE: Duration = Duration::from_secs(60);

/// How many kills left the old image, how many the new one, and how many new files they left beside it.
#[derive(Debug, Default)]
struct Seen {
    old: usize,
    new: usize,
    beside: usize,
}

impl Seen {
    fn kills(&self) -> usize {
        self.old + self.new
    }

    fn has_each(&self) -> bool {
        self.old > 0 && self.new > 0 && self.beside > 0
    }
}

fn main() -> Result<(), Box<dyn Error>> {
    let folder = Path::new(env!("CARGO_TARGET_TMPDIR")).join(format!("kill-{}", process::id()));
    let _ = fs::remove_dir_all(&folder);
    fs::create_dir_all(&folder)?;
    let seen = kill_all(&folder, &index(150_000)?, &index(150_001)?)?;
    fs::remove_dir_all(&folder)?;
    assert!(seen.has_each(), "no kill during a saving: {seen:?}");
    println!("kill: {} saving programs killed: {seen:?}", seen.kills());
    Ok(())
}

/// An index of so many ids.
fn index(count: u64) -> Result<Index, Refusal> {
    Index::build(&ids(count), GAMMA)
}

fn kill_all(folder: &Path, old: &Index, new: &Index) -> Result<Seen, Box<dyn Error>> {
    let path = folder.join("image");
    let longest = (SAVINGS * time_of_saving(&path, old)?).min(LIFE / 2);
    let start = Instant::now();
    let mut seen = Seen::default();
    let mut drawn = u64::from(process::id());
    let enough = |seen: &Seen| seen.kills() >= FEWEST && seen.has_each() && start.elapsed() > ENOUGH;
    while seen.kills() < KILLS && !enough(&seen) {
        drawn = drawn.wrapping_mul(0x5851_F42D_4C95_7F2D).wrapping_add(1);
        let after = longest.mul_f64((drawn >> 32) as f64 / 2_f64.powi(32));
        kill_one(&path, [new, old], after)?;
        match Index::load(&path)? {
            there if there == *old => seen.old += 1,
            there if there == *new => seen.new += 1,
            other => return Err(format!("neither of the two: {other:?}").into()),
        }
        seen.beside += remove_beside(folder)?;
    }
    Ok(seen)
}

/// How long a saving takes, on the average of a few.
fn time_of_saving(path: &Path, index: &Index) -> Result<Duration, ImageError> {
    const TIMES: u32 = 10;
    let start = Instant::now();
    for _ in 0..TIMES {
        index.save(path)?;
    }
    Ok(start.elapsed() / TIMES)
}

/// Starts a program that saves the indexes in turn, over and over, and kills it after a time.
fn kill_one(path: &Path, indexes: [&Index; 2], after: Duration) -> Result<(), Box<dyn Error>> {
    // SAFETY: this process has one thread, so the new one has all that there is.
    let saving = unsafe { fork() };
    if saving == 0 {
        let ended = save_in_turn(path, indexes);
        eprintln!("kill: a saving program ended by itself: {ended:?}");
        process::exit(1);
    }
    if saving < 0 {
        return Err(io::Error::last_os_error().into());
    }
    thread::sleep(after);
    let mut status = 0;
    // SAFETY: the number is that of a process of our own, which has not been waited for; the status is a place of our own.
    let waited = unsafe { (kill(saving, SIGKILL), waitpid(saving, &mut status, 0)) };
    if waited == (0, saving) && status == SIGKILL {
        return Ok(());
    }
    Err(format!("not killed: {waited:?}, status {status}").into())
}

fn save_in_turn(path: &Path, indexes: [&Index; 2]) -> Result<(), ImageError> {
    let start = Instant::now();
    while start.elapsed() < LIFE {
        for index in indexes {
            index.save(path)?;
        }
    }
    Ok(())
}

/// Removes what killed programs left beside the image: new files, by the name that `Index::save` says, and nothing else.
fn remove_beside(folder: &Path) -> Result<usize, Box<dyn Error>> {
    let entries = fs::read_dir(folder)?.collect::<io::Result<Vec<_>>>()?;
    let left: Vec<PathBuf> = entries
        .iter()
        .map(|entry| entry.path())
        .filter(|path| !path.ends_with("image"))
        .collect();
    for path in &left {
        let name = path.file_name().unwrap_or_default().to_string_lossy();
        if !(name.starts_with(".shawltide-") && name.ends_with(".tmp")) {
            return Err(format!("left: {name}").into());
        }
        fs::remove_file(path)?;
    }
    Ok(left.len())
}
