//! A file that is replaced whole.

use std::ffi::OsStr;
use std::fs::{self, File, Metadata, OpenOptions, Permissions};
use std::io::{self, ErrorKind, Write};
use std::os::unix::ffi::OsStrExt;
use std::os::unix::fs::{MetadataExt, OpenOptionsExt, PermissionsExt};
use std::path::{Path, PathBuf};
use std::process;
use std::sync::atomic::{AtomicU64, Ordering};

/// The permissions of any new file, of which the process takes away what its umask says.
const ANY_FILE: u32 = 0o666;

/// So many symbolic links are followed, as many as Linux follows.
const MOST_LINKS: usize = 40;

/// So many looks have to find that links lead elsewhere than they say.
const LOOKS: usize = 100;

/// Writes the bytes to the file of this path, in the place of what it had. Whatever happens meanwhile, the path leads to the old file or to the new one,
/// whole: the new one is written beside it, and takes its name only when it is on the disk.
pub(crate) fn replace(path: &Path, bytes: &[u8]) -> io::Result<()> {
    let (end, old) = followed(path)?;
    let kept = old.map(|old| old.permissions().mode() & 0o777);
    // By its own name: links to it may be turned from here on.
    let folder = folder_of(&end).canonicalize()?;
    let place = folder.join(name_of(&end)?);
    // Opened first: where it cannot be opened, nothing is changed.
    let to_sync = File::open(&folder)?;
    let (new, file) = create_in(&folder, kept.unwrap_or(ANY_FILE))?;
    let renamed = fill(file, bytes, kept).and_then(|()| fs::rename(&new, place));
    if renamed.is_err() {
        // If that fails too, the first error is the one to tell.
        let _ = fs::remove_file(&new);
    }
    renamed?;
    to_sync.sync_all()
}

/// The path to which symbolic links lead, and the file there, where there is one. What is no regular file is not to be replaced.
///
/// A link of /proc leads to a file, and only says where that was: if it is there no longer, nothing is to be replaced, and every look finds that. Of plain
/// links one look may find it too, where others save or turn a link meanwhile.
fn followed(path: &Path) -> io::Result<(PathBuf, Option<Metadata>)> {
    for _ in 0..LOOKS {
        let end = end_of_links(path)?;
        let old = file_at(path)?;
        match &old {
            Some(old) if !old.is_file() => return Err(unfit("it is not a regular file")),
            Some(old) if end != path && Some(number(old)) != file_at(&end)?.as_ref().map(number) => continue,
            _ => return Ok((end, old)),
        }
    }
    Err(unfit("its links do not lead to the file that it is"))
}

/// What the links say.
fn end_of_links(path: &Path) -> io::Result<PathBuf> {
    let mut path = path.to_path_buf();
    for _ in 0..=MOST_LINKS {
        match fs::read_link(&path) {
            Ok(link) => path = folder_of(&path).join(link),
            Err(_) => return Ok(path),
        }
    }
    Err(unfit("its links lead in a circle"))
}

/// The file of this path, where there is one.
fn file_at(path: &Path) -> io::Result<Option<Metadata>> {
    match fs::metadata(path) {
        Ok(file) => Ok(Some(file)),
        Err(error) if error.kind() == ErrorKind::NotFound => Ok(None),
        Err(error) => Err(error),
    }
}

/// The device and the number on it: no two files that are there have both.
fn number(file: &Metadata) -> (u64, u64) {
    (file.dev(), file.ino())
}

/// The name that a path ends in: none where it ends in a slash or in dots.
fn name_of(path: &Path) -> io::Result<&OsStr> {
    match path.file_name() {
        Some(name) if path.as_os_str().as_bytes().ends_with(name.as_bytes()) => Ok(name),
        _ => Err(unfit("it is no name of a file")),
    }
}

fn unfit(why: &str) -> io::Error {
    io::Error::new(ErrorKind::InvalidInput, why)
}

fn folder_of(path: &Path) -> &Path {
    match path.parent() {
        Some(folder) if folder != Path::new("") => folder,
        _ => Path::new("."),
    }
}

/// A new file in a folder, under a name that no other process or thread has.
fn create_in(folder: &Path, permissions: u32) -> io::Result<(PathBuf, File)> {
    static COUNT: AtomicU64 = AtomicU64::new(0);
    loop {
        let count = COUNT.fetch_add(1, Ordering::Relaxed);
        let path = folder.join(format!(".shawltide-{}-{count}.tmp", process::id()));
        let mut new = OpenOptions::new();
        match new.write(true).create_new(true).mode(permissions).open(&path) {
            // That of a process of the same number: of one that was killed, or of another container's.
            Err(error) if error.kind() == ErrorKind::AlreadyExists => continue,
            made => return Ok((path, made?)),
        }
    }
}

/// The bytes are on the disk, and the permissions are those that are to be kept, whatever the umask.
fn fill(mut file: File, bytes: &[u8], kept: Option<u32>) -> io::Result<()> {
    if let Some(permissions) = kept {
        file.set_permissions(Permissions::from_mode(permissions))?;
    }
    file.write_all(bytes)?;
    file.sync_all()
}

#[cfg(test)]
mod tests {
    use super::*;
    use std::env;
    use std::os::unix::fs::symlink;
    use std::sync::atomic::AtomicBool;
    use std::thread;

    const SAVINGS: usize = 400;

    /// Does something in a folder of a test's own, and tells what is in that then.
    fn names_after(test: &str, act: impl FnOnce(&Path) -> io::Result<()>) -> io::Result<Vec<String>> {
        let folder = env::temp_dir().join(format!("shawltide-{test}-{}", process::id()));
        let _ = fs::remove_dir_all(&folder);
        fs::create_dir(&folder)?;
        act(&folder)?;
        let entries = fs::read_dir(&folder)?.collect::<io::Result<Vec<_>>>()?;
        let mut names: Vec<String> = entries
            .iter()
            .map(|entry| entry.file_name().to_string_lossy().into())
            .collect();
        names.sort_unstable();
        fs::remove_dir_all(&folder)?;
        Ok(names)
    }

    /// Saves over and over, while a link is turned from one target to the other and back.
    fn save_while_turning(path: &Path, link: &Path, targets: [&str; 2]) -> io::Result<()> {
        let done = AtomicBool::new(false);
        let turning = link.with_extension("turning");
        thread::scope(|threads| {
            threads.spawn(|| {
                for target in targets.iter().cycle().take_while(|_| !done.load(Ordering::Relaxed)) {
                    symlink(target, &turning).expect("no other has this name");
                    fs::rename(&turning, link).expect("one folder");
                }
            });
            let saved = (0..SAVINGS).try_for_each(|_| replace(path, b"saved"));
            done.store(true, Ordering::Relaxed);
            saved
        })
    }

    #[test]
    fn threads_save_through_a_link() -> io::Result<()> {
        let names = names_after("link", |folder| {
            symlink("image", folder.join("link"))?;
            thread::scope(|threads| {
                for _ in 0..3 {
                    threads.spawn(|| {
                        for _ in 0..SAVINGS {
                            replace(&folder.join("link"), b"saved").expect("a plain link");
                        }
                    });
                }
            });
            Ok(())
        })?;
        assert_eq!(names, ["image", "link"]);
        Ok(())
    }

    /// Each file keeps its own permissions.
    #[test]
    fn a_link_is_turned_meanwhile() -> io::Result<()> {
        let names = names_after("turned", |folder| {
            for (name, mode) in [("a", 0o600), ("b", 0o644)] {
                fs::write(folder.join(name), "old")?;
                fs::set_permissions(folder.join(name), Permissions::from_mode(mode))?;
            }
            symlink("a", folder.join("link"))?;
            save_while_turning(&folder.join("link"), &folder.join("link"), ["a", "b"])?;
            for (name, mode) in [("a", 0o600), ("b", 0o644)] {
                assert_eq!(fs::metadata(folder.join(name))?.permissions().mode() & 0o777, mode);
            }
            Ok(())
        })?;
        assert_eq!(names, ["a", "b", "link"]);
        Ok(())
    }

    /// Nothing is left in either folder.
    #[test]
    fn a_link_to_the_folder_is_turned_meanwhile() -> io::Result<()> {
        let names = names_after("folders", |folder| {
            for name in ["a", "b"] {
                fs::create_dir(folder.join(name))?;
            }
            symlink("a", folder.join("current"))?;
            save_while_turning(&folder.join("current/image"), &folder.join("current"), ["a", "b"])?;
            for name in ["a", "b"] {
                let left = fs::read_dir(folder.join(name))?.collect::<io::Result<Vec<_>>>()?;
                assert!(left.iter().all(|entry| entry.file_name() == "image"), "{left:?}");
            }
            Ok(())
        })?;
        assert_eq!(names, ["a", "b", "current"]);
        Ok(())
    }
}
