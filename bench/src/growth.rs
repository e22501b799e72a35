//! How the time of one model and of one walk call grows with the number of variables.

use crate::families::{Case, Family, FAMILIES};
use crate::listers::{Lister, Plain};
use crate::measure::{deep_checkpoint, list_times, mean_times, walk_times, Times, SHORT, START};
use crate::table::{print_table, row, time_text};
use std::fmt::Write;

/// The numbers of variables.
const SIZES: [usize; 4] = [12, 24, 36, 48];

/// Formulas of a family at one size: single ones differ much.
const FORMULAS: usize = 15;

/// The times of a family at one size.
struct Point {
    family: &'static str,
    variables: usize,
    clauses: usize,
    model: Times,
    walk: Times,
}

/// The time of a model: that of a list of 1,000, or of all if there are fewer, by their number.
fn model_times(case: &Case) -> Times {
    let mut models = vec![0; SHORT];
    let listed = Plain.list(
        &case.input,
        &case.assumptions,
        &mut START.clone(),
        &mut models,
    );
    let listed = listed.expect("an accepted formula");
    list_times(case, &mut models).map(|time| time / listed as f64)
}

fn point(family: &Family, variables: usize) -> Point {
    let cases = family.generated(variables, FORMULAS);
    let model: Vec<Times> = cases.iter().map(model_times).collect();
    let walk: Vec<Times> = cases
        .iter()
        .map(|case| walk_times(case, &deep_checkpoint(case)))
        .collect();
    Point {
        family: family.title,
        variables,
        clauses: cases[0].clauses,
        model: mean_times(&model),
        walk: mean_times(&walk),
    }
}

impl Point {
    fn cells(&self) -> Vec<String> {
        let mut cells = row(&[
            self.family,
            &self.variables.to_string(),
            &self.clauses.to_string(),
        ]);
        cells.extend(self.model.map(time_text));
        cells.extend(self.walk.map(time_text));
        cells
    }

    /// Its two lines of the file.
    fn lines(&self) -> String {
        let mut lines = String::new();
        for (act, times) in [("model", self.model), ("walk", self.walk)] {
            let [proved, plain, tuned] = times;
            writeln!(
                lines,
                "{},{},{},{act},{proved:.1},{plain:.1},{tuned:.1}",
                self.family, self.variables, self.clauses
            )
            .expect("writing to a string");
        }
        lines
    }
}

/// The exponent of n by which a time grows from the smallest size to the largest.
fn exponent(smallest: &Point, largest: &Point, time: impl Fn(&Point) -> f64) -> String {
    let sizes = largest.variables as f64 / smallest.variables as f64;
    let times = time(largest) / time(smallest);
    let rounded = (times.ln() / sizes.ln() * 10.0).round() / 10.0;
    // Not as a negative zero.
    format!("{:.1}", rounded + 0.0)
}

/// A row of exponents for the points of one family, from the smallest to the largest.
fn exponents(points: &[Point]) -> Vec<String> {
    let (smallest, largest) = (&points[0], &points[points.len() - 1]);
    let mut cells = row(&[smallest.family]);
    for implementation in 0..3 {
        cells.push(exponent(smallest, largest, |p| p.model[implementation]));
    }
    for implementation in 0..3 {
        cells.push(exponent(smallest, largest, |p| p.walk[implementation]));
    }
    cells
}

/// A table's first row: these columns, and one for each time.
fn head(columns: &[&str]) -> Vec<String> {
    let times = [
        "model: proved",
        "plain",
        "tuned",
        "walk call: proved",
        "plain",
        "tuned",
    ];
    row(&[columns, &times].concat())
}

fn print_times(points: &[Point]) {
    let mut table = vec![head(&["family", "n", "m"])];
    table.extend(points.iter().map(Point::cells));
    print_table(&table);
}

fn print_exponents(points: &[Point]) {
    println!("From n = 12 to n = 48 a time grows as n to the power of:");
    println!();
    let mut table = vec![head(&["family"])];
    table.extend(points.chunks(SIZES.len()).map(exponents));
    print_table(&table);
}

/// Writes growth.csv beside this package's manifest.
fn write_file(points: &[Point]) {
    let mut text = String::from("family,n,m,act,proved_ns,plain_ns,tuned_ns\n");
    text.extend(points.iter().map(Point::lines));
    let path = concat!(env!("CARGO_MANIFEST_DIR"), "/growth.csv");
    if let Err(error) = std::fs::write(path, text) {
        eprintln!("growth.csv is not written: {error}");
    }
}

/// Prints the times and how they grow, and writes them to growth.csv.
pub fn print_growth() {
    let points: Vec<Point> = FAMILIES
        .iter()
        .flat_map(|family| SIZES.map(|variables| point(family, variables)))
        .collect();
    print_times(&points);
    println!();
    print_exponents(&points);
    write_file(&points);
}
