//! What was seen of the order in which variables are tried at the root, where stripping leaves something.

use crate::assumed::Assumed;
use crate::counts::Seen;
use norwythai_reference::bits::{bit, lowest, numbers};
use norwythai_reference::{decode, is_matched, Checkpoint, Clause};
use std::cmp::Reverse;
use std::fmt;

/// What must be seen of walk calls that are not refused, and of how many of them once at least.
const ORDER: [(&str, usize); 6] = [
    ("something is left", 5),
    ("the busiest is not the lowest", 40),
    ("the busiest fails", 40),
    ("others are as busy", 10),
    ("of all that remain another is named most", 50),
    ("a checkpoint of the walk that tries upward is foreign", 300),
];

/// What was seen of the order.
#[derive(Default)]
pub struct Order {
    calls: usize,
    /// By the words of [`ORDER`].
    seen: Seen,
}

/// The clauses that remain under the assumptions, under which the formula is accepted.
fn remaining_clauses(input: &[u8], assumed: &Assumed) -> Vec<Clause> {
    let mut formula = decode(input).unwrap();
    formula.assume(&assumed.reference).unwrap();
    formula.clauses().to_vec()
}

fn named(clauses: &[Clause]) -> u64 {
    clauses.iter().fold(0, |all, clause| all | clause.named())
}

/// What stripping leaves. The clauses of all pure variables may be dropped at once: that leaves the same.
fn strip(mut clauses: Vec<Clause>) -> Vec<Clause> {
    loop {
        let positive = clauses.iter().fold(0, |all, clause| all | clause.positive);
        let negative = clauses.iter().fold(0, |all, clause| all | clause.negative);
        let pure = positive ^ negative;
        if pure == 0 {
            return clauses;
        }
        clauses.retain(|clause| clause.named() & pure == 0);
    }
}

/// How many clauses name the variable.
fn naming(clauses: &[Clause], variable: usize) -> usize {
    let names = |clause: &&Clause| clause.named() & bit(variable) != 0;
    clauses.iter().filter(names).count()
}

/// The variable of the set that most of the clauses name, the lowest such.
fn busiest(clauses: &[Clause], variables: u64) -> usize {
    let most_first = numbers(variables).min_by_key(|v| Reverse(naming(clauses, *v)));
    most_first.expect("some variable")
}

/// Whether the clauses can be matched with the variable false and with it true.
fn passes(clauses: &[Clause], variable: usize) -> bool {
    let with = |satisfied: fn(&Clause) -> u64| {
        let open = clauses
            .iter()
            .filter(|clause| satisfied(clause) & bit(variable) == 0);
        let named: Vec<u64> = open.map(|clause| clause.named() & !bit(variable)).collect();
        is_matched(&named)
    };
    with(|clause| clause.negative) && with(|clause| clause.positive)
}

/// The checkpoint behind the first step of a walk that tries the variables upward, as walks once did. None if stripping leaves nothing.
pub fn upward(input: &[u8], assumed: &Assumed) -> Option<Checkpoint> {
    let left = strip(remaining_clauses(input, assumed));
    let first = numbers(named(&left)).find(|variable| passes(&left, *variable))?;
    let mut checkpoint = [0; 50];
    checkpoint[..3].copy_from_slice(&[1, 1, first as u8 + 1]);
    Some(checkpoint)
}

impl Order {
    /// A walk call that was not refused, and the checkpoint that it returned.
    pub fn walked(&mut self, input: &[u8], assumed: &Assumed, returned: &Checkpoint) {
        self.calls += 1;
        let remaining = remaining_clauses(input, assumed);
        let left = strip(remaining.clone());
        let candidates = named(&left);
        self.seen.see("something is left", candidates != 0);
        if candidates == 0 || returned[1] == 0 {
            return;
        }
        let first = usize::from(returned[2] & 127) - 1;
        let busiest_left = busiest(&left, candidates);
        let most = naming(&left, busiest_left);
        let as_busy = numbers(candidates).filter(|v| naming(&left, *v) == most);
        let seen = &mut self.seen;
        seen.see(
            "the busiest is not the lowest",
            busiest_left != lowest(candidates),
        );
        seen.see("the busiest fails", first != busiest_left);
        seen.see("others are as busy", as_busy.count() > 1);
        seen.see(
            "of all that remain another is named most",
            busiest(&remaining, candidates) != busiest_left,
        );
    }

    /// A walk call with what [`upward`] gives.
    pub fn walked_upward(&mut self, taken: bool) {
        let what = "a checkpoint of the walk that tries upward is foreign";
        self.seen.see(what, !taken);
    }

    /// Fails if something was seen too seldom.
    pub fn require_enough(&self) {
        self.seen.require_enough(&ORDER, self.calls);
    }
}

impl fmt::Display for Order {
    fn fmt(&self, f: &mut fmt::Formatter) -> fmt::Result {
        write!(f, "of {} calls{}", self.calls, self.seen)
    }
}
