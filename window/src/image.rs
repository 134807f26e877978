use crate::bounds::BLOCK_BYTES;
use crate::host;
use crate::index::Index;
use crate::refusal::{answer, Refusal};
use crate::replace::replace;
use crate::room::Room;
use std::fs::File;
use std::io::{self, Read};
use std::path::{Path, PathBuf};
use std::{error, fmt};

/// Images, which are an index as bytes, and files that hold one.
impl Index {
    /// The index as an image: bytes in blocks of 512, each with its number and a check. `docs/REFERENCE.md` has the form. The same index has the same
    /// image, on any machine.
    ///
    /// Refused are only indexes that no build made ([`Index::from_parts`]): with a kind that is not known (16), a head that does not fit (7), or a size past
    /// its levels (15).
    ///
    /// ```
    /// use shawltide::{bounds::BLOCK_BYTES, Index};
    /// let index = Index::build(&[10, 20, 30], 2.0)?;
    /// let image = index.to_image()?;
    /// assert_eq!(image.len(), 2 * BLOCK_BYTES);
    /// assert_eq!(Index::from_image(&image)?, index);
    /// # Ok::<(), shawltide::Refusal>(())
    /// ```
    pub fn to_image(&self) -> Result<Vec<u8>, Refusal> {
        let (head, words, samples) = self.parts();
        let mut image = vec![0; self.room().image_bytes()];
        let blocks = answer(host::image_write(head, words, samples, &mut image), 0)?;
        image.truncate(blocks as usize * BLOCK_BYTES);
        Ok(image)
    }

    /// The index of an image: equal to the built one that the image was made of.
    ///
    /// Refused are bytes that are no image: a length that is none (13), a block whose number or check is wrong (14), content that is no index (15); and an
    /// index of a kind that this version does not know (16), which a newer one may have made. Whichever one word of an image is changed, it is refused with
    /// 14 and that word's block.
    ///
    /// An image of the form before kinds ([`FORM`](crate::FORM) 1) is read as [`Kind::Plain`](crate::Kind::Plain): equal to what is built of the same ids
    /// and gamma today. Written again, it has the form of today.
    ///
    /// An image of more than 32 [levels](Index::levels) that version 0.2.0 or an earlier one made has to be built again: ids from level 32 on are no longer
    /// found where it has them, and nothing in it says so. No such image is known.
    ///
    /// ```
    /// use shawltide::{Index, Refusal};
    /// let mut image = Index::build(&[10, 20, 30], 2.0)?.to_image()?;
    /// image[700] ^= 1;
    /// assert_eq!(Index::from_image(&image), Err(Refusal::BadBlock(1)));
    /// assert_eq!(Index::from_image(&image[..1000]), Err(Refusal::UnfitLength));
    /// # Ok::<(), Refusal>(())
    /// ```
    pub fn from_image(image: &[u8]) -> Result<Index, Refusal> {
        let room = Room::of_image(image.len());
        let (mut words, mut samples) = (vec![0; room.words], vec![0; room.samples]);
        let mut out = [0; host::OUT];
        let result = host::image_read(image, &mut words, &mut samples, &mut out);
        answer(result, out[0])?;
        Ok(Index::left_in(&out, words, samples))
    }

    /// Writes the image of the index to a file, in the place of what stands there. When it is done the image is on the disk. At each moment before, also if
    /// the program is killed, the machine fails or this call does, the path leads to the old file or to the new one, whole.
    ///
    /// **How.** The image is written to a new file in the same folder, that file is synced and renamed, and the folder is synced. So the folder must be one
    /// that may be read and in which files may be made and renamed. After an error up to the renaming the new file is removed; after one of the folder's sync
    /// it stands there, whole, but may not be on the disk yet. One is left by a program that was killed, a machine that failed, or a folder that was moved
    /// meanwhile or lets nothing be removed: its name is `.shawltide-`, the process number, `-`, a count, `.tmp`, and it may be removed when no program saves
    /// there.
    ///
    /// **What stays.** The new file may be read, written and executed by whom the old one may, or is as any new file; it belongs to the user that saves, and
    /// has no access list. A symbolic link is followed: it stays, and the file that it leads to is replaced. A folder, a device or a pipe is not replaced.
    /// Other names of the old file, by hard links, keep the old image.
    ///
    /// Several threads or programs may save to one path: the last to rename counts. Refused are the indexes that [`Index::to_image`] refuses.
    ///
    /// ```
    /// use shawltide::{Index, GAMMA};
    /// # let folder = std::env::temp_dir().join(format!("shawltide-doc-{}", std::process::id()));
    /// # std::fs::create_dir_all(&folder)?;
    /// # let path = folder.join("catalogue.image");
    /// let index = Index::build(&[10, 20, 30], GAMMA)?;
    /// index.save(&path)?;
    /// assert_eq!(Index::load(&path)?, index);
    /// # std::fs::remove_dir_all(&folder)?;
    /// # Ok::<(), Box<dyn std::error::Error>>(())
    /// ```
    pub fn save(&self, path: impl AsRef<Path>) -> Result<(), ImageError> {
        let path = path.as_ref();
        let image = self.to_image().map_err(|refusal| ImageError::refused(path, refusal))?;
        replace(path, &image).map_err(|error| ImageError::Write {
            path: path.to_path_buf(),
            error,
        })
    }

    /// The index of a file that [`Index::save`] wrote. Refused is what [`Index::from_image`] refuses.
    ///
    /// Of a file that is longer than any image, no more than a block is read past the longest: it is refused with 13 to 16, for what was read.
    pub fn load(path: impl AsRef<Path>) -> Result<Index, ImageError> {
        let path = path.as_ref();
        let image = read(path).map_err(|error| ImageError::Read {
            path: path.to_path_buf(),
            error,
        })?;
        Index::from_image(&image).map_err(|refusal| ImageError::refused(path, refusal))
    }
}

/// The bytes of a file, but no more than a block past the longest image: so many hold no index.
fn read(path: &Path) -> io::Result<Vec<u8>> {
    let most = (Room::largest().image_bytes() + BLOCK_BYTES) as u64;
    let file = File::open(path)?;
    let mut image = Vec::with_capacity(file.metadata()?.len().min(most) as usize);
    file.take(most).read_to_end(&mut image)?;
    Ok(image)
}

/// Why an index was not saved or loaded: the file cannot be read or written, or it can, and the call was refused. As text, it says what is wrong and
/// what to do about it.
///
/// ```
/// use shawltide::{Index, ImageError};
/// use std::io::ErrorKind;
/// match Index::load("no/such.image") {
///     Err(ImageError::Read { error, .. }) if error.kind() == ErrorKind::NotFound => println!("build it"),
///     Err(ImageError::Refused { refusal, .. }) => println!("build it again: {refusal}"),
///     other => println!("{} ids", other?.len()),
/// }
/// # Ok::<(), ImageError>(())
/// ```
#[derive(Debug)]
pub enum ImageError {
    /// The file cannot be read.
    Read { path: PathBuf, error: io::Error },
    /// The file cannot be written. The old one stands there, or the new one, whole.
    Write { path: PathBuf, error: io::Error },
    /// The image in the file was refused, or the index that was to be saved there.
    Refused { path: PathBuf, refusal: Refusal },
}

impl ImageError {
    fn refused(path: &Path, refusal: Refusal) -> ImageError {
        ImageError::Refused {
            path: path.to_path_buf(),
            refusal,
        }
    }
}

impl fmt::Display for ImageError {
    fn fmt(&self, f: &mut fmt::Formatter) -> fmt::Result {
        match self {
            ImageError::Read { path, error } => write!(
                f,
                "{}: cannot be read: {error}; give an image that is there and may be read",
                path.display()
            ),
            ImageError::Write { path, error } => write!(
                f,
                "{}: cannot be written: {error}; give a file in a folder that may be read and written and has room",
                path.display()
            ),
            ImageError::Refused { path, refusal } => write!(f, "{}: {refusal}", path.display()),
        }
    }
}

impl error::Error for ImageError {
    fn source(&self) -> Option<&(dyn error::Error + 'static)> {
        Some(match self {
            ImageError::Read { error, .. } | ImageError::Write { error, .. } => error,
            ImageError::Refused { refusal, .. } => refusal,
        })
    }
}
