//! What was seen of formulas with variables that no clause names.

use crate::assumed::Assumed;
use crate::counts::Seen;
use crate::tally::{listed_without_steps, walked_without_steps};
use norwythai_reference::{decode, Checkpoint, Listed, Progress, Refusal};
use norwythai_samples::named_variables;
use std::fmt;

/// What must be seen of check, walk and list, and of how many calls once at least.
const UNNAMED: [(&str, usize); 15] = [
    ("check: yes to a model that is not listed", 300),
    ("walk: something is to be assigned", 50),
    ("walk: from within", 60),
    ("walk: with trials", 3_000),
    ("walk: an unnamed variable is assumed", 150),
    ("walk: an unnamed variable in the trail is foreign", 200),
    (
        "walk: only satisfied clauses name a variable to assign",
        200,
    ),
    // without assumptions
    ("nothing to assign: the model on budget 0", 50_000),
    ("nothing to assign: the model on another budget", 5_000),
    ("nothing to assign: the end behind it on budget 0", 20_000),
    (
        "nothing to assign: the end behind it on another budget",
        2_000,
    ),
    ("nothing to assign: other checkpoints are foreign", 1_000),
    (
        "nothing to assign: a list without room keeps the model",
        10_000,
    ),
    (
        "nothing to assign: a list without room ends behind it",
        50_000,
    ),
    ("nothing to assign: a list has the model", 2_000),
];

/// What was seen of check, walk and list on formulas with unnamed variables.
#[derive(Default)]
pub struct Unnamed {
    calls: usize,
    /// By the words of [`UNNAMED`].
    seen: Seen,
}

/// The variables that no clause of a readable formula names, as a mask.
fn unnamed_variables(input: &[u8]) -> u64 {
    !named_variables(input) & ((1 << input[1]) - 1)
}

/// Whether some variable to assign is named by satisfied clauses only.
fn names_no_more(input: &[u8], assumed: &Assumed) -> bool {
    let mut remaining = decode(input).unwrap();
    let masks = remaining.assume(&assumed.reference).unwrap();
    let clauses = remaining.clauses().iter();
    let named = clauses.fold(0, |all, clause| all | clause.named());
    masks.to_assign(&remaining) & !named != 0
}

impl Unnamed {
    pub fn checked(&mut self, input: &[u8], assignment: u64, answer: Result<bool, Refusal>) {
        self.calls += 1;
        if answer == Ok(true) {
            let unlisted = assignment & unnamed_variables(input) != 0;
            let what = "check: yes to a model that is not listed";
            self.seen.see(what, unlisted);
        }
    }

    pub fn walked(
        &mut self,
        input: &[u8],
        assumed: &Assumed,
        given: &Checkpoint,
        budget: u32,
        walked: Result<Progress, Refusal>,
    ) {
        self.calls += 1;
        let foreign = match walked {
            Ok(_) => false,
            Err(Refusal { number: 11, .. }) => true,
            Err(_) => return,
        };
        let unnamed = unnamed_variables(input);
        if unnamed == 0 {
            return;
        }
        let is_unnamed = |v: u8| (1..=48).contains(&v) && unnamed >> (v - 1) & 1 == 1;
        let length = usize::from(given[1]).min(48);
        let in_trail = given[2..2 + length].iter().any(|b| is_unnamed(b & 127));
        assert!(foreign || !in_trail, "{input:02x?} {given:02x?}");
        let what = "walk: an unnamed variable in the trail is foreign";
        self.seen.see(what, in_trail && (1..=3).contains(&given[0]));

        let nothing = assumed.to_assign(input) == Some(0);
        if nothing && assumed.is_empty() {
            let answer = walked.map(|progress| progress.answer);
            if let Some(what) = walked_without_steps(given, budget, answer) {
                self.seen.see(what, true);
            }
        }
        if let Ok(progress) = walked {
            let seen = &mut self.seen;
            seen.see("walk: something is to be assigned", !nothing);
            seen.see("walk: from within", given[1] > 0);
            seen.see("walk: with trials", progress.expansions > 0);
            let is_assumed = assumed.list.iter().any(|a| is_unnamed(a.variable));
            seen.see("walk: an unnamed variable is assumed", is_assumed);
            seen.see(
                "walk: only satisfied clauses name a variable to assign",
                names_no_more(input, assumed),
            );
        }
    }

    pub fn listed(
        &mut self,
        input: &[u8],
        assumed: &Assumed,
        given: &Checkpoint,
        room: usize,
        listed: Listed,
    ) {
        self.calls += 1;
        if assumed.is_empty() && assumed.to_assign(input) == Some(0) {
            if let Some(what) = listed_without_steps(given, room, listed) {
                self.seen.see(what, true);
            }
        }
    }

    /// Fails if something was seen too seldom.
    pub fn require_enough(&self) {
        self.seen.require_enough(&UNNAMED, self.calls);
    }
}

impl fmt::Display for Unnamed {
    fn fmt(&self, f: &mut fmt::Formatter) -> fmt::Result {
        write!(f, "of {} calls{}", self.calls, self.seen)
    }
}
