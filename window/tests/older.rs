//! Images of the form before kinds, which a version wrote that had none: `images/README.md` says which and how.

mod damage;
mod ids;
mod plain;

use ids::ids;
use plain::OLDER_FORM;
use shawltide::bounds::{BLOCK_BYTES, BLOCK_CONTENT};
use shawltide::{Index, Kind, Refusal, GAMMA};
use std::collections::BTreeSet;
use std::error::Error;
use std::fs;
use std::path::{Path, PathBuf};

type Ended = Result<(), Box<dyn Error>>;

/// How many ids each was built of, and with which gamma.
const IMAGES: [(u64, f64); 10] = [
    (0, GAMMA),
    (1, GAMMA),
    (3, 2.0),
    (150, GAMMA),
    (171, GAMMA),
    (1_000, 1.0100000000000002),
    (1_000, 4.0),
    (1_000, 16.0),
    (5_000, GAMMA),
    (20_000, 2.0),
];

fn folder() -> PathBuf {
    Path::new(env!("CARGO_MANIFEST_DIR")).join("tests/images")
}

fn name(count: u64, gamma: f64) -> String {
    format!("{count}-ids-gamma-{gamma}.image")
}

/// The same index, written plainly in the older form.
fn older_image(index: &Index) -> Vec<u8> {
    let (head, words, samples) = index.parts();
    plain::blocks(&plain::content(OLDER_FORM, head, words, samples))
}

fn plain_image(index: &Index) -> Vec<u8> {
    let (head, words, samples) = index.parts();
    plain::image(head, words, samples)
}

/// Here, and by the sums, which tools/window-tests checks.
#[test]
fn each_file_is_tried() -> Ended {
    let mut names = BTreeSet::new();
    for entry in fs::read_dir(folder())? {
        names.insert(entry?.file_name().to_string_lossy().into_owned());
    }
    assert!(names.remove("README.md") && names.remove("SHA256SUMS"));
    let wanted: BTreeSet<String> = IMAGES.iter().map(|(count, gamma)| name(*count, *gamma)).collect();
    assert_eq!(names, wanted);
    let sums = fs::read_to_string(folder().join("SHA256SUMS"))?;
    let summed: BTreeSet<&str> = sums.lines().filter_map(|line| line.split_whitespace().nth(1)).collect();
    assert!(wanted.iter().eq(summed));
    Ok(())
}

/// Head, words and samples, and so all that can be asked of it.
#[test]
fn old_images_read_as_what_they_were_made_of() -> Ended {
    for (count, gamma) in IMAGES {
        let (path, ids) = (folder().join(name(count, gamma)), ids(count));
        let built = Index::build(&ids, gamma)?;
        let read = Index::load(&path)?;
        assert_eq!(read, built, "{}", path.display());
        assert_eq!(read.kind()?, Kind::Plain);
        let rows = built.rows(&ids)?;
        assert_eq!(read.rows(&ids)?, rows);
        for (row, id) in rows.iter().enumerate() {
            assert_eq!(read.row(*id)?, Some(row));
        }
        for foreign in 0..1_000 {
            assert_eq!(read.lookup(foreign)?, built.lookup(foreign)?);
        }
    }
    Ok(())
}

/// The old bytes are what the plain writing makes of the older form; the new ones what it makes of today's.
#[test]
fn old_images_are_written_again_in_the_new_form() -> Ended {
    for (count, gamma) in IMAGES {
        let path = folder().join(name(count, gamma));
        let old = fs::read(&path)?;
        let read = Index::from_image(&old)?;
        assert_eq!(older_image(&read), old, "{}", path.display());
        let new = read.to_image()?;
        assert_eq!(new, plain_image(&read), "{}", path.display());
        assert_ne!(new, old);
        let again = Index::from_image(&new)?;
        assert_eq!(again, read);
        assert_eq!(again.to_image()?, new);
    }
    Ok(())
}

/// With the kind the content is one word longer: of 171 ids it filled its blocks before, of 150 it does now.
#[test]
fn the_kind_takes_a_word() -> Ended {
    for (count, old_blocks, new_blocks) in [(150, 2, 2), (171, 2, 3)] {
        let old = fs::read(folder().join(name(count, GAMMA)))?;
        let new = Index::from_image(&old)?.to_image()?;
        assert_eq!((old.len(), new.len()), (512 * old_blocks, 512 * new_blocks));
    }
    Ok(())
}

/// Saved over, an old file has the new form, and is the same index.
#[test]
fn an_old_file_saved_again() -> Ended {
    let path = Path::new(env!("CARGO_TARGET_TMPDIR")).join(format!("older-{}.image", std::process::id()));
    let (count, gamma) = IMAGES[IMAGES.len() - 1];
    fs::copy(folder().join(name(count, gamma)), &path)?;
    let index = Index::load(&path)?;
    index.save(&path)?;
    let saved = fs::read(&path)?;
    let loaded = Index::load(&path);
    fs::remove_file(&path)?;
    assert_eq!(saved, plain_image(&index));
    assert_eq!(loaded?, index);
    Ok(())
}

/// Each bit of one old image by itself: it is refused with the block.
#[test]
fn every_changed_bit_of_an_old_image_is_found() -> Ended {
    damage::every_bit(fs::read(folder().join(name(171, GAMMA)))?);
    Ok(())
}

/// Each length of two old images with a block of zeros behind them, but the image's own, is refused.
#[test]
fn lengths_of_old_images() -> Ended {
    for (count, gamma, blocks) in [(171, GAMMA, 2), (1_000, 4.0, 4)] {
        let old = fs::read(folder().join(name(count, gamma)))?;
        assert_eq!(old.len(), blocks * BLOCK_BYTES);
        damage::lengths(&old, &[0; BLOCK_BYTES]);
    }
    Ok(())
}

/// Of each old image: one block more than it takes, of zeros but for its number and check, is refused as no index.
#[test]
fn a_sound_block_behind_an_old_image() -> Ended {
    for (count, gamma) in IMAGES {
        let old = fs::read(folder().join(name(count, gamma)))?;
        let index = Index::from_image(&old)?;
        let (head, words, samples) = index.parts();
        let mut content = plain::content(OLDER_FORM, head, words, samples);
        content.resize((old.len() / BLOCK_BYTES + 1) * BLOCK_CONTENT, 0);
        let image = plain::blocks(&content);
        assert_eq!((&image[..old.len()], image.len()), (&old[..], old.len() + BLOCK_BYTES));
        assert_eq!(Index::from_image(&image), Err(Refusal::UnfitContent));
    }
    Ok(())
}
