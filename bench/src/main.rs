//! The benchmark. Without an argument: the proved library beside the plain reference and the tuned baseline, and the waits.
//! With one: `each` (the times of each formula), `growth`, or `stack`. `once` runs one act once, for tools that count.

use norwythai_bench::{growth, measure, once, stack, waits};
use std::process::ExitCode;

const USAGE: &str =
    "usage: norwythai-bench [each | growth | stack | once IMPLEMENTATION FORMULA ACT]";

fn main() -> ExitCode {
    let arguments: Vec<String> = std::env::args().skip(1).collect();
    let words: Vec<&str> = arguments.iter().map(String::as_str).collect();
    match words[..] {
        [] => {
            measure::print_comparison();
            println!();
            waits::print_waits();
        }
        ["each"] => measure::print_each(),
        ["growth"] => growth::print_growth(),
        ["stack"] => stack::print_stack(),
        ["once", implementation, formula, act]
            if once::run_once(implementation, formula, act).is_some() => {}
        _ => {
            eprintln!("{USAGE}");
            return ExitCode::from(2);
        }
    }
    ExitCode::SUCCESS
}
