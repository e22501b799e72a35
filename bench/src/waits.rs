//! How long one waits for the next model, in steps and in expansions, beside what is proved of it.

use crate::families::{Case, FAMILIES};
use crate::listers::{Lister, Proved};
use crate::measure::{BUDGET, START};
use crate::table::{count_text, print_table, row};
use norwythai_reference::{decode, Answer, Walker};
use norwythai_samples::{Stop, Waits};

/// The walk of a formula is followed for so many models.
const MODELS: usize = 10_000;

/// For so many waits the library's walk calls are asked, too.
const ASKED: usize = 20;

/// The longest that was seen. Those for the first model and for the end count, too.
#[derive(Clone, Copy, Default)]
struct Seen {
    models: u64,
    /// The steps of all waits.
    all_steps: u64,
    /// Steps before the first model.
    first: u64,
    /// Steps and expansions between two models.
    steps: u64,
    expansions: u64,
    /// Expansions of one choice.
    choice: u64,
}

impl Seen {
    fn longer(self, other: Seen) -> Self {
        Seen {
            models: self.models + other.models,
            all_steps: self.all_steps + other.all_steps,
            first: self.first.max(other.first),
            steps: self.steps.max(other.steps),
            expansions: self.expansions.max(other.expansions),
            choice: self.choice.max(other.choice),
        }
    }

    fn within(&self, bounds: &Seen) -> bool {
        self.first == bounds.first
            && self.steps <= bounds.steps
            && self.expansions <= bounds.expansions
            && self.choice <= bounds.choice
    }
}

/// What is proved for so many variables to assign and so many clauses, whatever the trails are: the first model comes after exactly n steps,
/// and no two are more than 2 n apart.
fn bounds(case: &Case) -> Seen {
    let (n, m) = (case.left_to_assign() as u64, case.clauses as u64);
    Seen {
        models: 0,
        all_steps: 0,
        first: n,
        steps: 2 * n,
        expansions: n * n * m * (m + 1),
        choice: n * m * (m + 1),
    }
}

/// One wait: steps and expansions until the next model or the end.
#[derive(PartialEq, Eq, Debug)]
struct Followed {
    model: Option<u64>,
    steps: u32,
    expansions: u64,
    /// The largest of the expansions of single steps.
    choice: u64,
}

/// Follows the walk to the next model, step by step.
fn next_wait(walker: &mut Walker) -> Followed {
    let mut wait = Followed {
        model: None,
        steps: 0,
        expansions: 0,
        choice: 0,
    };
    loop {
        let progress = walker.advance(1);
        wait.steps += progress.steps;
        wait.expansions += progress.expansions;
        wait.choice = wait.choice.max(progress.expansions);
        match progress.answer {
            Answer::Spent => {}
            Answer::Ended => return wait,
            Answer::Model(model) => {
                wait.model = Some(model);
                return wait;
            }
        }
    }
}

/// The waits of a formula: counted by the reference, whose steps can be made one by one, compared with those that the trails tell, and
/// asked of the library.
fn waits_of(case: &Case) -> Seen {
    let mut formula = decode(&case.input).expect("a formula");
    let assumed = formula.assume(&case.assumptions.rust);
    let assumed = assumed.expect("good assumptions");
    let mut walker = Walker::start(&formula, assumed).expect("an accepted formula");
    let mut checkpoint = START;
    let mut longest = Seen::default();
    let mut waits = Waits::default();
    for index in 0..MODELS {
        let wait = next_wait(&mut walker);
        let stop = wait.model.map_or(Stop::Ended, |_| Stop::Model);
        let exact = waits.call(stop, wait.steps, &walker.checkpoint());
        let exact = exact.expect("a model or the end").told;
        assert_eq!(u64::from(wait.steps), exact, "{}", case.name);
        if index < ASKED {
            let walked = Proved.walk(&case.input, &case.assumptions, &mut checkpoint, BUDGET);
            let walked = walked.expect("a checkpoint of the walk");
            assert_eq!(
                (walked.model, walked.steps, walked.expansions),
                (wait.model, wait.steps, wait.expansions),
                "{}",
                case.name
            );
        }
        longest = longest.longer(Seen {
            models: wait.model.is_some().into(),
            all_steps: wait.steps.into(),
            first: if index == 0 { wait.steps.into() } else { 0 },
            steps: wait.steps.into(),
            expansions: wait.expansions,
            choice: wait.choice,
        });
        if wait.model.is_none() {
            break;
        }
    }
    assert!(longest.within(&bounds(case)), "{}", case.name);
    longest
}

fn waits_row(title: &str, cases: &[Case]) -> Vec<String> {
    let seen = cases
        .iter()
        .map(waits_of)
        .fold(Seen::default(), Seen::longer);
    let bounds = cases.iter().map(bounds).fold(Seen::default(), Seen::longer);
    let beside = |seen, bound| format!("{} of {}", count_text(seen), count_text(bound));
    row(&[
        title,
        &count_text(seen.models),
        &format!("{:.1}", seen.all_steps as f64 / seen.models as f64),
        &beside(seen.first, bounds.first),
        &beside(seen.steps, bounds.steps),
        &beside(seen.expansions, bounds.expansions),
        &beside(seen.choice, bounds.choice),
    ])
}

/// Prints the longest waits of each family beside the bounds.
pub fn print_waits() {
    println!("The longest waits seen, each beside what is proved of it:");
    println!();
    let mut table = vec![row(&[
        "family",
        "models seen",
        "steps a model, mean",
        "first model, steps (n)",
        "between two, steps (2 n)",
        "between two, expansions (n n m (m + 1))",
        "one choice, expansions (n m (m + 1))",
    ])];
    for family in &FAMILIES {
        table.push(waits_row(family.title, &family.cases()));
    }
    for family in &FAMILIES {
        let (title, cases) = family.half_assumed();
        table.push(waits_row(&title, &cases));
    }
    print_table(&table);
}
