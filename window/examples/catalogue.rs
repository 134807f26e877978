//! A catalogue's front end in small: paths have ids, an index gives each id a row, and a file's record stands at its row. The index is kept on disk, so that
//! it is built once.
//!
//!     tools/cargo-x86-64 window run --example catalogue

use shawltide::{Index, Refusal, GAMMA};
use std::error::Error;
use std::path::Path;
use std::{env, fs, process};

const FILES: [(u64, &str); 6] = [
    (0x6C65_7474_6572_0001, "letters/2024/january.odt"),
    (0x6C65_7474_6572_0002, "letters/2024/february.odt"),
    (0x6C65_7474_6572_0003, "letters/2024/march.odt"),
    (71, "photos/harbour.jpg"),
    (72, "photos/shawl.jpg"),
    (u64::MAX, "README"),
];

/// The index, the id at each row, and the path at each row.
struct Catalogue {
    index: Index,
    ids: Vec<u64>,
    paths: Vec<&'static str>,
}

impl Catalogue {
    /// The catalogue of some files, whose index is kept in an image. It is built only where there is none yet, where it is damaged, or where it is of
    /// other ids.
    fn open(image: &Path, files: &[(u64, &'static str)]) -> Result<Catalogue, Box<dyn Error>> {
        let given: Vec<u64> = files.iter().map(|(id, _)| *id).collect();
        if let Ok(index) = Index::load(image) {
            if let Ok(ids) = index.rows(&given) {
                return Ok(Catalogue::of(index, ids, files)?);
            }
        }
        let index = Index::build(&given, GAMMA)?;
        index.save(image)?;
        let ids = index.rows(&given)?;
        Ok(Catalogue::of(index, ids, files)?)
    }

    fn of(index: Index, ids: Vec<u64>, files: &[(u64, &'static str)]) -> Result<Catalogue, Refusal> {
        let mut paths = vec![""; files.len()];
        for (id, path) in files {
            if let Some(row) = index.row(*id)? {
                paths[row] = path;
            }
        }
        Ok(Catalogue { index, ids, paths })
    }

    /// The path of an id. A row alone would not do: an id from elsewhere may get the row of another.
    fn path(&self, id: u64) -> Result<Option<&'static str>, Refusal> {
        let row = self.index.row(id)?;
        Ok(row.filter(|row| self.ids[*row] == id).map(|row| self.paths[row]))
    }
}

fn main() -> Result<(), Box<dyn Error>> {
    let folder = env::temp_dir().join(format!("catalogue-{}", process::id()));
    fs::create_dir(&folder)?;
    let shown = show(&folder.join("catalogue.image"));
    fs::remove_dir_all(&folder)?;
    shown
}

/// The first time the index is built, the second time it is there; a damaged image is built again.
fn show(image: &Path) -> Result<(), Box<dyn Error>> {
    for _ in 0..2 {
        let catalogue = Catalogue::open(image, &FILES)?;
        for (id, path) in FILES {
            assert_eq!(catalogue.path(id)?, Some(path));
            println!("{id:#018x} {path}");
        }
        for id in 0..71 {
            assert_eq!(catalogue.path(id)?, None);
        }
    }
    fs::write(image, "no image")?;
    println!("a damaged image: {}", Index::load(image).expect_err("is refused"));
    let catalogue = Catalogue::open(image, &FILES)?;
    assert_eq!(Index::load(image)?, catalogue.index);
    let twice = Catalogue::open(image, &[FILES[0], FILES[1], FILES[0]]);
    println!("an id given twice: {}", twice.err().expect("is refused"));
    Ok(())
}
