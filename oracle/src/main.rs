//! `oracle DIR`: writes every list of answers into DIR, one file each.

use std::{env, fs, path::Path, process};

fn main() {
    let dir = env::args().nth(1).unwrap_or_else(|| {
        eprintln!("usage: oracle DIR");
        process::exit(2)
    });
    for (name, list) in oracle::lists::all() {
        let path = Path::new(&dir).join(name);
        if let Err(error) = fs::write(&path, list.finish()) {
            eprintln!("{}: {error}", path.display());
            process::exit(1);
        }
    }
}
