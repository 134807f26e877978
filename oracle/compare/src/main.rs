//! boomphf, the proved calls of libhost.a and a plain reading of the scope document, side by side. `README.md` of the oracle says more.

mod bench;
mod broken;
mod builds;
mod calls;
mod damage;
mod images;
mod kinds;
mod late;
mod lent;
mod plan;
mod reading;
mod rows;
mod sets;
mod speed;
#[cfg(test)]
mod tests;

use calls::Proved;
use plan::Plan;
use std::error::Error;
use std::process::ExitCode;

/// What the cases are drawn from.
const SEED: u64 = 0x7368_6177_6C00;

/// The words that are known; `tools/compare` reads them too, and itself runs the tests.
const USAGE: &str = include_str!("../usage.txt");

fn main() -> ExitCode {
    let words: Vec<String> = std::env::args().skip(1).collect();
    let words: Vec<&str> = words.iter().map(String::as_str).collect();
    let ended = match words[..] {
        ["quick"] => compare(&plan::QUICK),
        ["long"] => compare(&plan::LONG),
        ["speed"] => speed::measure(),
        ["gammas"] => speed::gammas(),
        ["sets"] => speed::sets::measure().map_err(Into::into),
        ["rows", file, gamma] => rows::write(file, gamma),
        _ => {
            eprint!("{USAGE}");
            return ExitCode::from(2);
        }
    };
    match ended {
        Ok(()) => ExitCode::SUCCESS,
        Err(error) => {
            eprintln!("compare: {error}");
            ExitCode::FAILURE
        }
    }
}

fn compare(plan: &Plan) -> Result<(), Box<dyn Error>> {
    let equal = plan.run(&Proved, SEED)?;
    for (sort, calls) in &equal {
        println!("{calls:>12} {sort}");
    }
    println!("compare: {} calls, all equal", equal.values().sum::<u64>());
    Ok(())
}
