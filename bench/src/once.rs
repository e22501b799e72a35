//! One act of one implementation on one formula, once: for instructions.py, which counts what `counted` does.

use crate::families::{Case, FAMILIES};
use crate::listers::Lister;
use crate::measure::{deep_checkpoint, judge, list, walk, LISTERS, SHORT};
use crate::pages::page;
use norwythai::PAGE_SIZE;

/// The names of the implementations, in the order of [`LISTERS`].
const NAMES: [&str; 3] = ["proved", "plain", "tuned"];

/// Does what is to be counted, and nothing else.
#[inline(never)]
fn counted(act: &mut dyn FnMut()) {
    act();
}

fn case_named(name: &str) -> Option<Case> {
    let mut cases = FAMILIES.iter().flat_map(|family| family.cases());
    cases.find(|case| case.name == name)
}

fn lister_named(name: &str) -> Option<&'static dyn Lister> {
    let index = NAMES.iter().position(|known| *known == name)?;
    Some(LISTERS[index])
}

/// Runs the act, if there are such names.
pub fn run_once(implementation: &str, formula: &str, act: &str) -> Option<()> {
    let lister = lister_named(implementation)?;
    let case = case_named(formula)?;
    match act {
        "list" => {
            let mut models = vec![0; SHORT];
            counted(&mut || list(lister, &case, &mut models));
        }
        "page" => {
            let from = deep_checkpoint(&case);
            let mut lent = vec![0; PAGE_SIZE];
            counted(&mut || page(lister, &case, &from, &mut lent));
        }
        "walk" => {
            let from = deep_checkpoint(&case);
            counted(&mut || walk(lister, &case, &from));
        }
        "judge" => counted(&mut || judge(lister, &case, &mut [0; 96])),
        _ => return None,
    }
    Some(())
}
