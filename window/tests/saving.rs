//! Indexes in files: what `save` leaves and `load` reads, whatever stands at the path. `kill.rs` has what a killed program leaves.

mod ids;
mod plain;

use ids::ids;
use shawltide::{ImageError, Index, Refusal, Room, GAMMA};
use std::error::Error;
use std::ffi::CString;
use std::fs::{self, File, Permissions};
use std::io::{self, ErrorKind};
use std::os::raw::{c_char, c_int, c_uint};
use std::os::unix::ffi::OsStrExt;
use std::os::unix::fs::{symlink, PermissionsExt};
use std::os::unix::io::AsRawFd;
use std::path::{Path, PathBuf};
use std::thread;

extern "C" {
    fn mkfifo(path: *const c_char, mode: c_uint) -> c_int;
}

type Ended = Result<(), Box<dyn Error>>;

/// A folder of a test's own, removed when the test is done.
struct Folder(PathBuf);

impl Folder {
    fn new(test: &str) -> io::Result<Folder> {
        let path = Path::new(env!("CARGO_TARGET_TMPDIR")).join(format!("{test}-{}", std::process::id()));
        // A killed test of the same number may have left it.
        let _ = fs::remove_dir_all(&path);
        fs::create_dir_all(&path)?;
        Ok(Folder(path))
    }

    fn join(&self, name: &str) -> PathBuf {
        self.0.join(name)
    }

    /// The names of all that stands in it, in order.
    fn names(&self) -> io::Result<Vec<String>> {
        let entries = fs::read_dir(&self.0)?.collect::<io::Result<Vec<_>>>()?;
        let mut names: Vec<String> = entries
            .iter()
            .map(|entry| entry.file_name().to_string_lossy().into())
            .collect();
        names.sort_unstable();
        Ok(names)
    }
}

impl Drop for Folder {
    fn drop(&mut self) {
        let _ = fs::remove_dir_all(&self.0);
    }
}

/// An index of so many ids.
fn index(count: u64) -> Result<Index, Refusal> {
    Index::build(&ids(count), GAMMA)
}

/// The refusal behind an error, if one is.
fn refusal(error: &ImageError) -> Option<Refusal> {
    error.source()?.downcast_ref().copied()
}

fn mode(path: &Path) -> io::Result<u32> {
    Ok(fs::metadata(path)?.permissions().mode() & 0o777)
}

#[test]
fn saved_loaded_and_saved_over() -> Ended {
    let folder = Folder::new("saved")?;
    let path = folder.join("an index \u{e9}.image");
    for count in [3, 20_000, 0] {
        let index = index(count)?;
        index.save(&path)?;
        let (head, words, samples) = index.parts();
        assert_eq!(fs::read(&path)?, plain::image(head, words, samples));
        assert_eq!(Index::load(&path)?, index);
        assert_eq!(folder.names()?, ["an index \u{e9}.image"]);
    }
    Ok(())
}

#[test]
fn a_new_file_has_the_permissions_of_any_other() -> Ended {
    let folder = Folder::new("new")?;
    File::create(folder.join("other"))?;
    index(3)?.save(folder.join("image"))?;
    assert_eq!(mode(&folder.join("image"))?, mode(&folder.join("other"))?);
    Ok(())
}

#[test]
fn permissions_stay() -> Ended {
    let folder = Folder::new("permissions")?;
    let path = folder.join("image");
    for permissions in [0o600, 0o666, 0o444] {
        fs::write(&path, "what stood there")?;
        fs::set_permissions(&path, Permissions::from_mode(permissions))?;
        index(3)?.save(&path)?;
        assert_eq!(mode(&path)?, permissions);
        assert_eq!(Index::load(&path)?, index(3)?);
        fs::remove_file(&path)?;
    }
    Ok(())
}

/// Links from one folder to another and on, to a file and to none yet.
#[test]
fn links_are_followed() -> Ended {
    let folder = Folder::new("links")?;
    fs::create_dir(folder.join("far"))?;
    symlink("far/link", folder.join("link"))?;
    symlink("image", folder.join("far/link"))?;
    for count in [3, 4] {
        index(count)?.save(folder.join("link"))?;
        for link in ["link", "far/link"] {
            assert!(fs::symlink_metadata(folder.join(link))?.file_type().is_symlink());
        }
        assert!(fs::symlink_metadata(folder.join("far/image"))?.is_file());
        assert_eq!(Index::load(folder.join("far/image"))?, index(count)?);
    }
    symlink("circle", folder.join("circle"))?;
    assert!(matches!(
        index(3)?.save(folder.join("circle")),
        Err(ImageError::Write { .. })
    ));
    assert_eq!(folder.names()?, ["circle", "far", "link"]);
    Ok(())
}

/// A link of /proc says in words where a file was, and leads to it though it is there no longer, or another is.
#[test]
fn a_file_without_a_name_is_not_replaced() -> Ended {
    let folder = Folder::new("nameless")?;
    let file = File::create(folder.join("image"))?;
    let link = format!("/proc/self/fd/{}", file.as_raw_fd());
    fs::remove_file(folder.join("image"))?;
    assert!(matches!(index(3)?.save(&link), Err(ImageError::Write { .. })));
    assert!(folder.names()?.is_empty());
    let other = fs::read_link(&link)?;
    fs::write(&other, "another file")?;
    assert!(matches!(index(3)?.save(&link), Err(ImageError::Write { .. })));
    assert_eq!(fs::read(other)?, b"another file");
    Ok(())
}

#[test]
fn a_file_that_is_open_is_replaced_where_it_stands() -> Ended {
    let folder = Folder::new("open")?;
    let file = File::create(folder.join("image"))?;
    index(3)?.save(format!("/proc/self/fd/{}", file.as_raw_fd()))?;
    assert_eq!(Index::load(folder.join("image"))?, index(3)?);
    assert_eq!(folder.names()?, ["image"]);
    Ok(())
}

#[test]
fn what_is_no_file_is_not_replaced() -> Ended {
    let folder = Folder::new("no-file")?;
    fs::create_dir(folder.join("folder"))?;
    let pipe = CString::new(folder.join("pipe").as_os_str().as_bytes())?;
    // SAFETY: the path ends with a zero, and is not kept.
    assert_eq!(unsafe { mkfifo(pipe.as_ptr(), 0o600) }, 0);
    symlink("pipe", folder.join("to-pipe"))?;
    for name in ["folder", "pipe", "to-pipe", "folder/.."] {
        let error = index(3)?.save(folder.join(name)).expect_err(name);
        assert!(error.to_string().contains("it is not a regular file"), "{error}");
    }
    assert_eq!(folder.names()?, ["folder", "pipe", "to-pipe"]);
    Ok(())
}

/// A name that ends in a slash is that of no file, which the renaming finds: the new file is there by then.
#[test]
fn after_an_error_nothing_is_left() -> Ended {
    let folder = Folder::new("error")?;
    for path in [folder.join("image/"), folder.join("no/such/image"), PathBuf::new()] {
        let error = index(3)?.save(&path).expect_err("no such path");
        assert!(
            matches!(&error, ImageError::Write { path: told, .. } if *told == path),
            "{error:?}"
        );
    }
    assert!(folder.names()?.is_empty());
    Ok(())
}

#[test]
fn an_index_that_is_refused_changes_no_file() -> Ended {
    let folder = Folder::new("refused")?;
    let path = folder.join("image");
    fs::write(&path, "what stood there")?;
    let (head, _, samples) = index(3)?.into_parts();
    let error = Index::from_parts(head, vec![], samples)
        .save(&path)
        .expect_err("no words");
    assert_eq!(refusal(&error), Some(Refusal::UnfitHead), "{error}");
    assert_eq!(fs::read(&path)?, b"what stood there");
    assert_eq!(folder.names()?, ["image"]);
    Ok(())
}

/// Names that the next new files would have are taken, as by killed processes of the same number.
#[test]
fn what_killed_processes_left_is_gone_around() -> Ended {
    let folder = Folder::new("left")?;
    let left = |count| folder.join(&format!(".shawltide-{}-{count}.tmp", std::process::id()));
    for count in 0..1_000 {
        fs::write(left(count), "left")?;
    }
    index(3)?.save(folder.join("image"))?;
    assert_eq!(Index::load(folder.join("image"))?, index(3)?);
    for count in 0..1_000 {
        assert_eq!(fs::read(left(count))?, b"left");
    }
    assert_eq!(folder.names()?.len(), 1_001);
    Ok(())
}

/// By its own name and by a link. Whichever file another thread has just put there, it is the one to replace.
#[test]
fn threads_save_to_one_path() -> Ended {
    let folder = Folder::new("threads")?;
    symlink("image", folder.join("link"))?;
    let indexes = [index(3)?, index(4)?, index(1_000)?, index(40_000)?];
    indexes[0].save(folder.join("image"))?;
    thread::scope(|threads| {
        for (index, name) in indexes.iter().zip(["image", "link", "link", "image"]) {
            let (path, indexes) = (folder.join(name), &indexes);
            threads.spawn(move || {
                for _ in 0..50 {
                    index.save(&path).expect("the folder may be written");
                    let there = Index::load(&path).expect("whole");
                    assert!(indexes.contains(&there), "{there:?}");
                }
            });
        }
    });
    assert_eq!(folder.names()?, ["image", "link"]);
    Ok(())
}

#[test]
fn files_that_are_no_images() -> Ended {
    let folder = Folder::new("damaged")?;
    let path = folder.join("image");
    let image = index(2_000)?.to_image()?;
    let mut damaged = image.clone();
    damaged[600] ^= 4;
    let cases = [
        (&b""[..], Refusal::UnfitLength),
        (b"4711\n4712\n", Refusal::UnfitLength),
        (&image[..1_025], Refusal::UnfitLength),
        (&damaged, Refusal::BadBlock(1)),
    ];
    for (bytes, wanted) in cases {
        fs::write(&path, bytes)?;
        let error = Index::load(&path).expect_err("no image");
        assert!(matches!(&error, ImageError::Refused { path: told, .. } if *told == path));
        assert_eq!(refusal(&error), Some(wanted));
        assert_eq!(error.to_string(), format!("{}: {wanted}", path.display()));
    }
    Ok(())
}

/// It would not end, if it were read to its end.
#[test]
fn a_file_longer_than_any_image() -> Ended {
    let folder = Folder::new("long")?;
    let path = folder.join("image");
    File::create(&path)?.set_len(Room::largest().image_bytes() as u64 + 10_000)?;
    for path in [&path, Path::new("/dev/zero")] {
        let error = Index::load(path).expect_err("no image");
        assert_eq!(refusal(&error), Some(Refusal::BadBlock(0)), "{error}");
    }
    Ok(())
}

#[test]
fn files_that_cannot_be_read() -> Ended {
    let folder = Folder::new("unread")?;
    for path in [folder.join("none"), folder.join("none/none")] {
        let error = Index::load(&path).expect_err("no file");
        assert!(
            matches!(&error, ImageError::Read { path: told, error: why } if *told == path && why.kind() == ErrorKind::NotFound)
        );
        let (text, source) = (error.to_string(), error.source().expect("it has one").to_string());
        assert!(
            text.starts_with(&format!("{}: cannot be read: {source}; ", path.display())),
            "{text}"
        );
    }
    assert!(matches!(Index::load(&folder.0), Err(ImageError::Read { .. })));
    Ok(())
}
