//! What the example programs share.

use norwythai::Formula;
use std::error::Error;
use std::ops::RangeInclusive;
use std::process::ExitCode;

/// What a program comes to: nothing more to say, or what went wrong.
pub type Outcome = Result<(), Box<dyn Error>>;

/// The formula of a file, which has DIMACS text if its name ends in .cnf, else the encoded formula.
pub fn read_formula(file: &str) -> Result<Formula<'static>, Box<dyn Error>> {
    let bytes = std::fs::read(file)?;
    if file.ends_with(".cnf") {
        Ok(Formula::from_dimacs(&bytes)?)
    } else {
        Ok(Formula::from(bytes))
    }
}

/// Runs a program on its arguments, if there are as many as it takes, and says what went wrong.
pub fn run(
    usage: &str,
    counts: RangeInclusive<usize>,
    program: fn(&[&str]) -> Outcome,
) -> ExitCode {
    let arguments: Vec<String> = std::env::args().skip(1).collect();
    let words: Vec<&str> = arguments.iter().map(String::as_str).collect();
    if !counts.contains(&words.len()) {
        eprintln!("usage: {usage}");
        return ExitCode::from(2);
    }
    match program(&words) {
        Ok(()) => ExitCode::SUCCESS,
        Err(error) => {
            eprintln!("{error}");
            ExitCode::FAILURE
        }
    }
}
