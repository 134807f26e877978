//! The rows of a file's ids by the Rust, as the command `shawltide rows` writes them.

use crate::builds::found;
use oracle::boomphf::Mphf;
use shawltide::first_repeat;
use std::error::Error;
use std::fs;
use std::io::{self, BufWriter, Write};

pub fn write(file: &str, gamma: &str) -> Result<(), Box<dyn Error>> {
    let gamma = gamma_of(gamma)?;
    let ids = read(file).map_err(|error| format!("{file}: {error}"))?;
    let index = Mphf::new(gamma, &ids);
    let mut lines: Vec<[u64; 4]> = ids
        .iter()
        .map(|id| {
            let [level, position] = found(&index, *id).expect("each id has its bit");
            [index.hash(id), *id, level, position]
        })
        .collect();
    lines.sort_unstable();
    let mut out = BufWriter::new(io::stdout());
    for [row, id, level, position] in lines {
        writeln!(out, "{row} {id} {level} {position}")?;
    }
    Ok(out.flush()?)
}

/// The bounds of `docs/REFERENCE.md`. The Rust panics on gammas that are not above the lower one, and on some far above the upper.
fn gamma_of(text: &str) -> Result<f64, Box<dyn Error>> {
    let gamma: f64 = text.parse().map_err(|error| format!("gamma {text}: {error}"))?;
    if gamma > 1.01 && gamma <= 16.0 {
        Ok(gamma)
    } else {
        Err(format!("gamma {text} is not above 1.01 and at most 16").into())
    }
}

/// An id a line, each once: the Rust panics on ids that it cannot tell apart.
fn read(file: &str) -> Result<Vec<u64>, Box<dyn Error>> {
    let text = fs::read_to_string(file)?;
    let ids = text
        .lines()
        .enumerate()
        .map(|(line, text)| number(text).map_err(|error| format!("line {}: {error}", line + 1)))
        .collect::<Result<Vec<u64>, _>>()?;
    match first_repeat(&ids) {
        Some((first, again)) => Err(format!("lines {} and {} have one id", first + 1, again + 1).into()),
        None => Ok(ids),
    }
}

fn number(text: &str) -> Result<u64, std::num::ParseIntError> {
    match text.strip_prefix("0x") {
        Some(digits) => u64::from_str_radix(digits, 16),
        None => text.parse(),
    }
}
