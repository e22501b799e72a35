//! The printed walk.

use crate::assumptions::Assumed;
use crate::columns::Columns;
use crate::formula::{decode, Refusal};
use crate::walking::{Answer, Progress, Walker, LIST_BUDGET};
use std::fmt::Write;

/// The program that prints a walk takes this many bytes as the whole input, whatever follows.
const MOST_INPUT: usize = 16_384;

/// After this many models the printed walk says `more`.
const MOST_MODELS: usize = 1000;

/// What the program that prints a walk writes for its standard input (S12).
pub fn print(input: &[u8]) -> String {
    match print_models(&input[..input.len().min(MOST_INPUT)]) {
        Ok(text) => text,
        Err(refusal) => format!("refused {} {}\n", refusal.number, refusal.place),
    }
}

fn print_models(input: &[u8]) -> Result<String, Refusal> {
    let formula = decode(input)?;
    let assumed = Assumed::default();
    let mut walker = Walker::start(&formula, assumed)?;
    let columns = Columns::new(&formula, &assumed);
    let (variables, clauses) = (formula.variables(), formula.clauses().len());
    let mut text = format!("switches {variables} rules {clauses}\n");
    for _ in 0..MOST_MODELS {
        let Progress {
            answer,
            steps,
            expansions,
        } = walker.advance(LIST_BUDGET);
        let first_word = match answer {
            Answer::Model(model) => columns.of(model).collect(),
            _ => "end".to_string(),
        };
        writeln!(text, "{first_word} {steps} {expansions}").expect("writing to a string");
        if answer == Answer::Ended {
            return Ok(text);
        }
    }
    text.push_str("more\n");
    Ok(text)
}
