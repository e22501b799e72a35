//! The times of the acts, and the table of ratios.

use crate::deficiencies::deficiency_rows;
use crate::families::{fullest_input, longest_text_input, Case, Family, FAMILIES};
use crate::listers::{Bytes, Lister, Plain, Proved, Refused, Tuned};
use crate::pages::{page_rows, page_times};
use crate::table::{count_text, print_table, row, time_text};
use crate::weights::weigh_rows;
use norwythai::{FORMULA_BUFFER, TEXT_BUFFER};
use std::fmt::Debug;
use std::hint::black_box;
use std::time::Instant;

/// What is compared, in the order of [`Times`].
pub const LISTERS: [&dyn Lister; 3] = [&Proved, &Plain, &Tuned];

/// Nanoseconds of the proved library, of the plain reference and of the tuned baseline.
pub type Times = [f64; 3];

/// The walk's first checkpoint.
pub const START: Bytes = [0; 50];

/// A budget that always brings a model or the end.
pub const BUDGET: u32 = 96;

/// How often a time is taken, at different depths of the stack; the best counts.
const ROUNDS: usize = 12;

/// How often at least, where that lasts longer than the most time, in milliseconds.
const FEWEST_ROUNDS: usize = 3;
const MOST_TIME: u128 = 2_000;

/// Short acts are measured more often, until this time is over, in milliseconds: others use the machine, too.
const LEAST_TIME: u128 = 60;

/// A time is taken over so many calls that they last about this long, in nanoseconds.
const ROUND_TIME: f64 = 40_000.0;

/// The models of the short and of the long lists.
pub const SHORT: usize = 1_000;
const LONG: usize = 100_000;

/// The bar: the largest ratio of a row, and the geometric mean of all.
const BAR: (f64, f64) = (1.5, 1.2);

/// How long this thread has waited for a core so far, in nanoseconds; 0 where the system doesn't say.
fn waited() -> f64 {
    let text = std::fs::read_to_string("/proc/thread-self/schedstat").unwrap_or_default();
    let second = text.split_whitespace().nth(1);
    second.and_then(|field| field.parse().ok()).unwrap_or(0.0)
}

/// The time of one call, from so many. A long call hardly ever has a core to itself where others work, and a short one often has,
/// so that the waits for a core are taken off: what was measured around both questions, less the waits between them. For short
/// calls the time without the questions is the better one.
fn time_of(calls: usize, lister: &dyn Lister, act: &mut dyn FnMut(&dyn Lister)) -> f64 {
    let around = Instant::now();
    let before = waited();
    let start = Instant::now();
    for _ in 0..calls {
        act(lister);
    }
    let alone = start.elapsed().as_nanos() as f64;
    let waits = waited() - before;
    let less_waits = around.elapsed().as_nanos() as f64 - waits;
    // The kernel's count of the waits is coarse: one that leaves nothing of the time says nothing.
    let time = if less_waits > 0.0 {
        alone.min(less_waits)
    } else {
        alone
    };
    time / calls as f64
}

/// Runs something so many levels deeper on the stack. Where a function's frame lies differs from process to process, and changed
/// some times by about a third: at one depth alone they would be a matter of luck.
#[inline(never)]
fn deeper(levels: usize, run: &mut dyn FnMut()) {
    let level = black_box([0_u8; 80]);
    if levels == 0 {
        run();
    } else {
        deeper(levels - 1, run);
    }
    black_box(&level);
}

/// Whether to go on after so many rounds and milliseconds.
fn more_rounds(rounds: usize, time: u128) -> bool {
    rounds < FEWEST_ROUNDS || (rounds < ROUNDS && time < MOST_TIME) || time < LEAST_TIME
}

/// The best times of an act. The implementations take turns, so that what disturbs one disturbs all; the first calls only warm
/// up.
pub fn times(mut act: impl FnMut(&dyn Lister)) -> Times {
    let calls = LISTERS.map(|lister| {
        time_of(1, lister, &mut act);
        let about = time_of(1, lister, &mut act);
        (ROUND_TIME / about).clamp(1.0, 1_000.0) as usize
    });
    let mut best = [f64::INFINITY; 3];
    let start = Instant::now();
    let mut round = 0;
    while more_rounds(round, start.elapsed().as_millis()) {
        for (i, lister) in LISTERS.iter().enumerate() {
            deeper(round % ROUNDS, &mut || {
                best[i] = best[i].min(time_of(calls[i], *lister, &mut act));
            });
        }
        round += 1;
    }
    best
}

/// Lists models from the start. The slice is not cleared before.
pub fn list(lister: &dyn Lister, case: &Case, models: &mut [u64]) {
    let mut checkpoint = START;
    let (input, assumptions) = black_box((&case.input, &case.assumptions));
    let listed = lister.list(input, assumptions, &mut checkpoint, models);
    assert!(black_box(listed).is_ok());
    black_box((&checkpoint, &*models));
}

/// One walk call from a checkpoint.
pub fn walk(lister: &dyn Lister, case: &Case, from: &Bytes) {
    let mut checkpoint = *black_box(from);
    let (input, assumptions) = black_box((&case.input, &case.assumptions));
    let walked = lister.walk(input, assumptions, &mut checkpoint, BUDGET);
    assert!(black_box(walked).is_ok());
    black_box(&checkpoint);
}

/// Judge, with a buffer that is not cleared before.
pub fn judge(lister: &dyn Lister, case: &Case, buffer: &mut [u8; 96]) {
    let (input, assumptions) = black_box((&case.input, &case.assumptions));
    let judged = lister.judge(input, assumptions, buffer);
    assert!(black_box(judged).is_ok());
    black_box(&*buffer);
}

pub fn list_times(case: &Case, models: &mut [u64]) -> Times {
    times(|lister| list(lister, case, models))
}

pub fn walk_times(case: &Case, from: &Bytes) -> Times {
    times(|lister| walk(lister, case, from))
}

fn judge_times(case: &Case) -> Times {
    let mut buffer = [0; 96];
    times(|lister| judge(lister, case, &mut buffer))
}

/// Reads the fullest input whole, and refuses the assignment by 12. The tuned baseline reads and checks by the plain reference.
fn decode_times() -> Times {
    let input = fullest_input();
    times(|lister| {
        let checked = lister.check(black_box(&input), black_box(1 << 63));
        assert_eq!(black_box(checked), Err((12, 0)));
    })
}

/// An act that writes into a lent buffer, and gives how much.
type Conversion = fn(&dyn Lister, &[u8], &mut [u8]) -> Result<usize, Refused>;

/// The times of such an act with a buffer of so many bytes, which is not cleared before.
fn conversion_times(input: &[u8], room: usize, convert: Conversion) -> Times {
    let mut buffer = vec![0; room];
    times(|lister| {
        let written = convert(lister, black_box(input), &mut buffer);
        assert!(black_box(written).is_ok());
        black_box(&buffer);
    })
}

fn from_dimacs_times(text: &[u8]) -> Times {
    conversion_times(text, FORMULA_BUFFER, |lister, text, buffer| {
        lister.read_text(text, buffer)
    })
}

fn to_dimacs_times(input: &[u8]) -> Times {
    conversion_times(input, TEXT_BUFFER, |lister, input, buffer| {
        lister.write_text(input, buffer)
    })
}

/// What all three give, once it is the same.
pub(crate) fn same<T: PartialEq + Debug>(
    what: &str,
    name: &str,
    act: impl Fn(&dyn Lister) -> T,
) -> T {
    let [proved, plain, tuned] = LISTERS.map(act);
    assert!(plain == proved, "{name}: {what}: proved and plain");
    assert!(tuned == proved, "{name}: {what}: proved and tuned");
    proved
}

/// The formula's text, from which it is read again.
fn same_text(name: &str, input: &[u8]) -> Vec<u8> {
    let text = same("to_dimacs", name, |lister| {
        let mut text = vec![0; TEXT_BUFFER];
        let written = lister.write_text(input, &mut text);
        text.truncate(written.expect("a formula"));
        text
    });
    let read = same("from_dimacs", name, |lister| {
        let mut formula = vec![0; FORMULA_BUFFER];
        let written = lister.read_text(&text, &mut formula);
        formula.truncate(written.expect("the text of a formula"));
        formula
    });
    assert!(read == input, "{name}: from_dimacs and to_dimacs");
    text
}

/// The first models, so many at most, and the checkpoint after them.
fn same_models(case: &Case, most: usize) -> (Vec<u64>, Bytes) {
    same("list", &case.name, |lister| {
        let mut models = vec![0; most];
        let mut checkpoint = START;
        let written = lister.list(&case.input, &case.assumptions, &mut checkpoint, &mut models);
        models.truncate(written.expect("an accepted formula"));
        (models, checkpoint)
    })
}

/// The checkpoint after 500 models, or in the middle of a shorter list; the walk call from there gives the same by all three.
pub fn deep_checkpoint(case: &Case) -> Bytes {
    let models = same_models(case, SHORT).0.len();
    let (_, checkpoint) = same_models(case, models / 2);
    same("walk", &case.name, |lister| {
        let mut next = checkpoint;
        let walked = lister.walk(&case.input, &case.assumptions, &mut next, BUDGET);
        (walked, next)
    })
    .0
    .expect("a checkpoint of the walk");
    checkpoint
}

fn require_same_judge(case: &Case) {
    same("judge", &case.name, |lister| {
        let mut buffer = [0; 96];
        let judged = lister.judge(&case.input, &case.assumptions, &mut buffer);
        (judged, buffer)
    })
    .0
    .expect("an accepted formula");
}

/// A row of the table: the times of some formulas for one act.
pub(crate) struct Row {
    pub family: String,
    pub act: String,
    pub times: Vec<Times>,
}

impl Row {
    /// The geometric means of the times.
    fn means(&self) -> Times {
        mean_times(&self.times)
    }

    /// How many times as long the proved library takes as the plain reference.
    fn ratio(&self) -> f64 {
        let [proved, plain, _] = self.means();
        proved / plain
    }

    /// How many times as long the plain reference takes as the tuned baseline.
    fn gain(&self) -> f64 {
        let [_, plain, tuned] = self.means();
        plain / tuned
    }

    fn cells(&self) -> Vec<String> {
        let [proved, plain, tuned] = self.means();
        row(&[
            &self.family,
            &self.act,
            &time_text(proved),
            &time_text(plain),
            &time_text(tuned),
            &format!("{:.2}", proved / plain),
            &format!("{:.2}", proved / tuned),
        ])
    }
}

/// The geometric mean.
pub fn mean(numbers: impl Iterator<Item = f64> + Clone) -> f64 {
    let count = numbers.clone().count();
    (numbers.map(f64::ln).sum::<f64>() / count as f64).exp()
}

/// The geometric means, by implementation.
pub fn mean_times(times: &[Times]) -> Times {
    [0, 1, 2].map(|i| mean(times.iter().map(|t| t[i])))
}

/// The act's name of a list: how many models there are, if not always as many as wanted.
fn list_name(wanted: usize, least: usize) -> String {
    if least == wanted {
        format!("list {}", count_text(wanted as u64))
    } else {
        format!("list {}, or all", count_text(wanted as u64))
    }
}

fn list_row(family: &str, cases: &[Case], wanted: usize) -> Row {
    let mut least = wanted;
    let times = cases
        .iter()
        .map(|case| {
            let mut models = vec![0; wanted];
            least = least.min(same_models(case, wanted).0.len());
            list_times(case, &mut models)
        })
        .collect();
    Row {
        family: family.to_string(),
        act: list_name(wanted, least),
        times,
    }
}

fn walk_row(family: &str, cases: &[Case]) -> Row {
    Row {
        family: family.to_string(),
        act: "walk, deep".to_string(),
        times: cases
            .iter()
            .map(|case| walk_times(case, &deep_checkpoint(case)))
            .collect(),
    }
}

fn judge_row(family: &str, cases: &[Case]) -> Row {
    cases.iter().for_each(require_same_judge);
    Row {
        family: family.to_string(),
        act: "judge".to_string(),
        times: cases.iter().map(judge_times).collect(),
    }
}

/// The rows of texts that are read and written.
fn text_rows(family: &str, inputs: &[Vec<u8>]) -> [Row; 2] {
    let row = |act: &str, times| Row {
        family: family.to_string(),
        act: act.to_string(),
        times,
    };
    let reading = inputs
        .iter()
        .map(|input| from_dimacs_times(&same_text(family, input)))
        .collect();
    let writing = inputs.iter().map(|input| to_dimacs_times(input)).collect();
    [row("from DIMACS", reading), row("to DIMACS", writing)]
}

/// The family whose texts are read and written.
const TEXT_FAMILY: &Family = &FAMILIES[1];

fn family_rows(family: &Family) -> Vec<Row> {
    let cases = family.cases();
    let mut rows = vec![
        list_row(family.title, &cases, SHORT),
        list_row(family.title, &cases, LONG),
    ];
    rows.extend(page_rows(family.title, &cases));
    rows.push(walk_row(family.title, &cases));
    rows.push(judge_row(family.title, &cases));
    rows
}

/// The rows of the same formulas with half of their variables assumed.
fn assumed_rows(family: &Family) -> Vec<Row> {
    let (title, cases) = family.half_assumed();
    vec![
        list_row(&title, &cases, SHORT),
        walk_row(&title, &cases),
        judge_row(&title, &cases),
    ]
}

fn all_rows() -> Vec<Row> {
    let mut rows: Vec<Row> = FAMILIES.iter().flat_map(family_rows).collect();
    rows.extend(FAMILIES.iter().flat_map(assumed_rows));
    rows.extend(weigh_rows());
    rows.extend(deficiency_rows());
    rows.push(Row {
        family: "fullest input".to_string(),
        act: "check".to_string(),
        times: vec![decode_times()],
    });
    let cases = TEXT_FAMILY.cases().into_iter();
    let inputs: Vec<Vec<u8>> = cases.map(|case| case.input).collect();
    rows.extend(text_rows(TEXT_FAMILY.title, &inputs));
    rows.extend(text_rows("longest text", &[longest_text_input()]));
    rows
}

fn print_verdict(rows: &[Row]) {
    let mean_ratio = mean(rows.iter().map(Row::ratio));
    let largest = rows
        .iter()
        .max_by(|a, b| a.ratio().total_cmp(&b.ratio()))
        .expect("there are rows");
    let single = rows
        .iter()
        .flat_map(|row| &row.times)
        .map(|times| times[0] / times[1])
        .fold(0.0, f64::max);
    let mean_gain = mean(rows.iter().map(Row::gain));
    let largest_gain = rows.iter().map(Row::gain).fold(0.0, f64::max);
    println!("- proved/plain, geometric mean of all rows: {mean_ratio:.2}");
    println!(
        "- proved/plain, largest row: {:.2} ({}, {}); largest of a single formula: {single:.2}",
        largest.ratio(),
        largest.family,
        largest.act
    );
    println!(
        "- plain/tuned, geometric mean of all rows: {mean_gain:.2}; largest row: {largest_gain:.2}"
    );
    let holds = largest.ratio() <= BAR.0 && mean_ratio <= BAR.1;
    println!(
        "- the bar, proved/plain at most {} on every row and {} in the geometric mean: {}",
        BAR.0,
        BAR.1,
        if holds { "holds" } else { "does not hold" }
    );
}

/// Prints each formula's times and ratios, and not the means of a family.
pub fn print_each() {
    for family in FAMILIES {
        for case in family.cases().into_iter().chain(family.half_assumed().1) {
            let mut models = vec![0; SHORT];
            let deep = deep_checkpoint(&case);
            let acts = [
                list_times(&case, &mut models),
                page_times(&case, &deep),
                walk_times(&case, &deep),
                judge_times(&case),
            ];
            print!("{:<28}", case.name);
            for (act, [proved, plain, tuned]) in ["list 1,000", "page, deep", "walk, deep", "judge"]
                .iter()
                .zip(acts)
            {
                print!(
                    " | {act}: {} {:.2} {:.2}",
                    time_text(proved),
                    proved / plain,
                    proved / tuned
                );
            }
            println!();
        }
    }
}

/// Prints the table and whether the bar holds.
pub fn print_comparison() {
    let start = Instant::now();
    let rows = all_rows();
    let mut table = vec![row(&[
        "family",
        "act",
        "proved",
        "plain",
        "tuned",
        "proved/plain",
        "proved/tuned",
    ])];
    table.extend(rows.iter().map(Row::cells));
    print_table(&table);
    println!();
    println!("- all three have listed the same models and given the same pages, walk calls, matchings and deficiencies; the proved one and the plain one have checked, weighed and converted alike");
    println!("- best of {ROUNDS} rounds after a warm-up, {FEWEST_ROUNDS} for the longest acts; a time is the geometric mean over a family's formulas");
    println!("- buffers were not cleared between calls; waits for a core are taken off");
    print_verdict(&rows);
    println!(
        "- these measurements took {:.0} seconds",
        start.elapsed().as_secs_f64()
    );
}
