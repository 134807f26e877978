//! README's table of gammas says what comes out, but for the times.

use oracle::gammas::{ids, Shape, GAMMAS};
use std::fs;

#[test]
fn the_table_of_gammas() {
    let readme = fs::read_to_string("../README.md").expect("it stands in the project's root");
    let ids = ids();
    for gamma in GAMMAS {
        let row = Shape::of(gamma, &ids).to_string();
        assert!(readme.contains(&format!("\n{row} ")), "README has no row {row}");
    }
}
