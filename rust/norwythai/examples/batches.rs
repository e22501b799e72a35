//! batches FILE SIZE [CHECKPOINT]: prints the next models of the formula in a file, SIZE of them, and then the checkpoint to go on with,
//! or `end` if no model is left. A model has a digit for each variable, or a dash if no clause names it. The file has DIMACS text if its
//! name ends in .cnf, else the encoded formula.

mod program;

use norwythai::Checkpoint;
use program::{read_formula, run, Outcome};
use std::process::ExitCode;

fn print_batch(arguments: &[&str]) -> Outcome {
    let formula = read_formula(arguments[0])?;
    let size: usize = arguments[1].parse()?;
    let start = match arguments.get(2) {
        Some(text) => text.parse()?,
        None => Checkpoint::start(),
    };
    let mut models = formula.models_from(start);
    for _ in 0..size {
        match models.next() {
            Some(model) => println!("{}", model?.columns(&formula, &[])),
            None => {
                println!("end");
                return Ok(());
            }
        }
    }
    println!("go on with {}", models.checkpoint());
    Ok(())
}

fn main() -> ExitCode {
    run("batches FILE SIZE [CHECKPOINT]", 2..=3, print_batch)
}
