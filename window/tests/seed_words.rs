//! Seed words from level 32 on: those of today, and what images from before they were mended give now. `images-2/README.md` says which these are.

mod ids;
mod plain;

use ids::ids;
use shawltide::bounds::{HEAD_SIZES, MAX_IDS, MIN_BITS};
use shawltide::{Index, Place, Refusal};
use std::error::Error;
use std::fs;
use std::path::{Path, PathBuf};

type Ended = Result<(), Box<dyn Error>>;

/// Those of which every row is as it was.
const SAME: [&str; 4] = [
    "3-ids-gamma-2",
    "171-ids-gamma-1.7",
    "1000-ids-gamma-1.0100000000000002",
    "32-levels",
];

/// The one that has a level 32.
const DEEPER: &str = "33-levels";

fn path(folder: &str, name: &str, ending: &str) -> PathBuf {
    let tests = Path::new(env!("CARGO_MANIFEST_DIR")).join("tests");
    tests.join(folder).join(format!("{name}.{ending}"))
}

/// Each id with its place, in the order of the rows, as version 0.2.0 found it.
fn places(name: &str) -> Result<Vec<(u64, Place)>, Box<dyn Error>> {
    let text = fs::read_to_string(path("images-2", name, "rows"))?;
    let place = |line: &str| {
        let numbers = line.split(' ').map(str::parse).collect::<Result<Vec<u64>, _>>()?;
        match numbers[..] {
            [row, id, level, position] => Ok((id, Place { row, level, position })),
            _ => Err(format!("not four numbers: {line}").into()),
        }
    };
    text.lines().map(place).collect()
}

#[test]
fn each_file_is_tried() -> Ended {
    let mut images = Vec::new();
    for entry in fs::read_dir(path("images-2", DEEPER, "image").with_file_name(""))? {
        let path = entry?.path();
        if path.extension().map_or(false, |ending| ending == "image") {
            images.extend(path.file_stem().map(|name| name.to_string_lossy().into_owned()));
        }
    }
    let mut wanted = [&SAME[..], &[DEEPER]].concat();
    images.sort();
    wanted.sort();
    assert_eq!(images, wanted);
    Ok(())
}

/// The seed words of some levels, 2^(2 level mod 64), worked out by hand.
const SEED_WORDS: [(u64, u64); 8] = [
    (31, 1 << 62),
    (32, 1),
    (33, 4),
    (34, 16),
    (63, 1 << 62),
    (64, 1),
    (96, 1),
    (99, 64),
];

/// The position of an id in a level of 255 bits with this seed word.
fn position(seed_word: u64, id: u64) -> u64 {
    let hash = plain::mixed(id.wrapping_add(seed_word));
    (((hash ^ (hash >> 32)) % (1 << 32)) * MIN_BITS) >> 32
}

/// The image of an index whose last level has one bit, and the others none; each has 255 of them.
fn one_bit(level: u64, position: u64) -> Vec<u8> {
    let levels = level as usize + 1;
    let mut head = vec![0, 1, levels as u64];
    head.extend(vec![MIN_BITS; levels]);
    head.resize(3 + HEAD_SIZES, 0);
    let mut words = vec![0; 4 * levels];
    words[4 * level as usize + position as usize / 64] = 1 << (position % 64);
    plain::image(&head, &words, &vec![0; levels])
}

/// An id's bit at its place there gives it its row; the bit after it gives it none.
#[test]
fn rows_of_late_levels() -> Ended {
    for (level, seed_word) in SEED_WORDS {
        for id in ids(200) {
            let position = position(seed_word, id);
            let row = 0;
            let found = Index::from_image(&one_bit(level, position))?.lookup(id)?;
            assert_eq!(found, Some(Place { row, level, position }));
            let beside = (position + 1) % MIN_BITS;
            assert_eq!(Index::from_image(&one_bit(level, beside))?.lookup(id)?, None);
        }
    }
    Ok(())
}

/// As many ids as there can be, at the least gamma, which gives the most levels.
#[test]
fn a_build_stays_below_level_32() -> Ended {
    assert!(Index::build(&ids(MAX_IDS as u64), 1.0100000000000002)?.levels() <= 32);
    Ok(())
}

/// Row, level and position of each id, and the row list.
#[test]
fn of_at_most_32_levels_each_row_is_as_it_was() -> Ended {
    for name in SAME {
        let index = Index::load(path("images-2", name, "image"))?;
        let places = places(name)?;
        assert!(index.levels() <= 32 && places.len() == index.len(), "{name}");
        for (row, (id, place)) in (0..).zip(&places) {
            assert_eq!((index.lookup(*id)?, row), (Some(*place), place.row), "{name}");
        }
        let ids: Vec<u64> = places.iter().map(|(id, _)| *id).collect();
        assert_eq!(index.rows(&ids)?, ids, "{name}");
    }
    Ok(())
}

/// An image of form 1 from before there were kinds has the same rows, where the same index is here in form 2.
#[test]
fn so_it_is_of_images_of_the_older_form() -> Ended {
    for name in &SAME[..3] {
        let older = Index::load(path("images", name, "image"))?;
        for (id, place) in places(name)? {
            assert_eq!(older.lookup(id)?, Some(place), "{name}");
        }
    }
    Ok(())
}

/// The last level was the first with another seed word: its ids are not found there now, and the row list says so. Nothing in the image does.
#[test]
fn of_33_levels_the_last_is_lost() -> Ended {
    let path = path("images-2", DEEPER, "image");
    let index = Index::load(&path)?;
    let places = places(DEEPER)?;
    for (id, place) in &places {
        let found = (place.level < 32).then_some(*place);
        assert_eq!(index.lookup(*id)?, found);
    }
    let ids: Vec<u64> = places.iter().map(|(id, _)| *id).collect();
    assert_eq!(index.rows(&ids), Err(Refusal::WrongIds));
    assert_eq!(index.to_image()?, fs::read(path)?);
    Ok(())
}
