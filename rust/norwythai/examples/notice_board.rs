//! notice_board FILE PAGES: prints the models of the formula in a file as pages to be pinned up, so many pages or all if these are fewer.
//! A line has a serial, a digit for each variable, or a dash if no clause names it, and the steps since the line before. The file has
//! DIMACS text if its name ends in .cnf, else the encoded formula.

mod program;

use norwythai::{Checkpoint, Formula, Refusal, PAGE_LINES, PAGE_SIZE};
use program::{read_formula, run, Outcome};
use std::process::ExitCode;

/// The pages of a formula, one after the other, each of which has a model.
struct Pages<'a> {
    formula: &'a Formula<'a>,
    /// Where the next page begins.
    checkpoint: Checkpoint,
    /// The serial of its first line.
    serial: u32,
    /// Whether there is none: no model is left, or a page was refused.
    ended: bool,
}

impl<'a> Pages<'a> {
    /// All pages, with serials from this one on.
    fn new(formula: &'a Formula, serial: u32) -> Self {
        Pages {
            formula,
            checkpoint: Checkpoint::start(),
            serial,
            ended: false,
        }
    }
}

impl Iterator for Pages<'_> {
    type Item = Result<String, Refusal>;

    fn next(&mut self) -> Option<Self::Item> {
        if self.ended {
            return None;
        }
        let mut page = [0; PAGE_SIZE];
        let paged = self
            .formula
            .page(&[], &mut self.checkpoint, self.serial, &mut page);
        match paged {
            Ok(paged) => {
                self.serial += PAGE_LINES as u32;
                self.ended = paged.is_last();
                (paged.lines > 0).then(|| Ok(String::from_utf8_lossy(&page).into_owned()))
            }
            Err(refusal) => {
                self.ended = true;
                Some(Err(refusal))
            }
        }
    }
}

fn print_pages(arguments: &[&str]) -> Outcome {
    let formula = read_formula(arguments[0])?;
    for page in Pages::new(&formula, 1).take(arguments[1].parse()?) {
        print!("{}", page?);
    }
    Ok(())
}

fn main() -> ExitCode {
    run("notice_board FILE PAGES", 2..=2, print_pages)
}

#[cfg(test)]
mod tests {
    use super::*;

    /// The pages, each as its lines that are not blank.
    fn lines_of(formula: &Formula, serial: u32) -> Vec<Result<Vec<String>, Refusal>> {
        let lines = |page: String| {
            assert_eq!(page.lines().count(), PAGE_LINES);
            let lines = page.lines().map(|line| line.trim_end().to_string());
            lines.filter(|line| !line.is_empty()).collect()
        };
        let pages = Pages::new(formula, serial);
        pages.map(|page| page.map(lines)).collect()
    }

    #[test]
    fn every_model_has_a_line() {
        let input = include_bytes!("../../../examples/velodrome.bin");
        let formula = Formula::from(&input[..]);
        let pages: Result<Vec<_>, _> = lines_of(&formula, 1).into_iter().collect();
        let lines = pages.unwrap().concat();
        let models: Result<Vec<_>, _> = formula.models().collect();
        assert_eq!(lines.len(), 546);
        for (serial, (line, model)) in (1..).zip(lines.iter().zip(models.unwrap())) {
            let columns = model.columns(&formula, &[]);
            assert!(line.starts_with(&format!("{serial:>6} {columns} ")));
        }
    }

    #[test]
    fn the_last_page_has_a_model() {
        let counts = |text: &[u8]| -> Vec<usize> {
            let formula = Formula::from_dimacs(text).unwrap();
            let pages = lines_of(&formula, 1).into_iter();
            pages.map(|lines| lines.unwrap().len()).collect()
        };
        // 63 models, and 50.
        assert_eq!(counts(b"p cnf 6 1\n1 2 3 4 5 6 0\n"), [50, 13]);
        let fifty = b"p cnf 6 3\n1 2 3 0\n-1 4 5 6 0\n-1 2 3 -4 5 0\n";
        assert_eq!(counts(fifty), [50]);
    }

    #[test]
    fn a_refusal_is_the_last_item() {
        let unmatched = Formula::from(&[1, 1, 4, 5][..]);
        let refusal = Refusal::Unmatched { clauses: 1 };
        assert_eq!(lines_of(&unmatched, 1), [Err(refusal)]);
        // Ten variables, of which some is true.
        let many = Formula::from_dimacs(b"p cnf 10 1\n1 2 3 4 5 6 7 8 9 10 0\n").unwrap();
        let mut pages = Pages::new(&many, 999_900);
        assert!(pages.next().unwrap().is_ok());
        assert!(pages.next().unwrap().unwrap().contains("\n999999 "));
        assert_eq!(pages.next(), Some(Err(Refusal::BadSerial)));
        assert_eq!(pages.next(), None);
    }
}
