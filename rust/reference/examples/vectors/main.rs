//! Test vectors, one JSON object a line, in the request's words: tools/corpus.py makes the corpus of the program `cases` of them.
//!
//!     vectors compare FILE           compares the reference with the vectors of a file
//!     vectors given SEED             writes vectors for the inputs on standard input, in hexadecimal, one a line
//!     vectors generate SEED COUNT    writes vectors for so many generated inputs
//!
//! The seed is for all that is random: the generated inputs, and the assumptions, assignments, buffers, checkpoints and budgets of the
//! calls. A comparison fails if some vector differs, or if there are none.

mod compare;
mod pages;
mod values;
mod write;

use std::io::{self, BufWriter, Read, Write};
use std::process::ExitCode;
use values::{from_hex, number};

const USAGE: &str =
    "usage: vectors compare FILE | vectors given SEED | vectors generate SEED COUNT";

/// The inputs of a text.
fn inputs_of(text: &str) -> Result<Vec<Vec<u8>>, String> {
    text.lines().map(|line| from_hex(line.trim())).collect()
}

fn write_lines(lines: &[String]) -> Result<(), String> {
    let mut output = BufWriter::new(io::stdout().lock());
    lines
        .iter()
        .try_for_each(|line| writeln!(output, "{line}"))
        .and_then(|()| output.flush())
        .map_err(|error| format!("the output can't be written: {error}"))
}

/// Does what the arguments say; false if a comparison finds a difference.
fn run(arguments: &[&str]) -> Result<bool, String> {
    match arguments {
        ["compare", file] => {
            let text = std::fs::read_to_string(file).map_err(|error| format!("{file}: {error}"))?;
            Ok(compare::compare_all(&text))
        }
        ["given", seed] => {
            let mut text = String::new();
            let read = io::stdin().read_to_string(&mut text);
            read.map_err(|error| format!("the inputs can't be read: {error}"))?;
            write_lines(&write::vectors_of(&inputs_of(&text)?, number(seed)?))?;
            Ok(true)
        }
        ["generate", seed, count] => {
            write_lines(&write::generated_vectors(number(seed)?, number(count)?))?;
            Ok(true)
        }
        _ => Err(USAGE.to_string()),
    }
}

fn main() -> ExitCode {
    let arguments: Vec<String> = std::env::args().skip(1).collect();
    let arguments: Vec<&str> = arguments.iter().map(String::as_str).collect();
    match run(&arguments) {
        Ok(true) => ExitCode::SUCCESS,
        Ok(false) => ExitCode::FAILURE,
        Err(error) => {
            eprintln!("vectors: {error}");
            ExitCode::from(2)
        }
    }
}
