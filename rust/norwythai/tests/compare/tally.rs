//! What a run has seen.

use crate::assumed::Assumed;
use crate::counts::{write_refusals, Outcomes, Refusals, Seen};
use crate::deficiencies::Deficiencies;
use crate::is_accepted;
use crate::order::Order;
use crate::pages::Pages;
use crate::unnamed::Unnamed;
use crate::weights::Weights;
use norwythai_reference::{decode, Answer, Checkpoint, Listed, Progress, Refusal, Size};
use std::fmt;

/// What must be seen under assumptions, and of how many calls under them once at least.
const WANTED: [(&str, usize); 27] = [
    ("judge: a clause is satisfied", 100),
    ("judge: only the assumptions make it accepted", 2_000),
    ("judge: more than 48 clauses are accepted", 3_000),
    ("judge: only the assumptions make it refused", 200),
    ("judge: they leave a clause empty", 500),
    ("bad: variable 0", 1_000),
    ("bad: a variable above n", 1_000),
    ("bad: assumed before with the same value", 1_000),
    ("bad: assumed before with the other value", 1_000),
    ("bad: the first of the list", 1_000),
    ("bad: behind good ones", 1_000),
    ("bad: in a list of more than 255", 2_000),
    ("walk: from within", 100),
    ("walk: with trials", 500),
    ("walk: on a formula of more than 48 clauses", 2_000),
    ("walk: a checkpoint of another list is taken", 2_000),
    ("walk: a checkpoint of another list is foreign", 500),
    ("walk: an assumed variable in the trail is foreign", 500),
    ("walk: mode 1 at length 0 is foreign", 500),
    ("nothing to assign: the model on budget 0", 5_000),
    ("nothing to assign: the model on another budget", 1_000),
    ("nothing to assign: the end behind it on budget 0", 5_000),
    (
        "nothing to assign: the end behind it on another budget",
        1_000,
    ),
    ("nothing to assign: other checkpoints are foreign", 500),
    (
        "nothing to assign: a list without room keeps the model",
        2_000,
    ),
    (
        "nothing to assign: a list without room ends behind it",
        10_000,
    ),
    ("nothing to assign: a list has the model", 500),
];

/// What was seen of judge, walk and list under a list of assumptions that is not empty.
#[derive(Default)]
pub struct Assuming {
    calls: usize,
    refusals: Refusals,
    /// By the words of [`WANTED`].
    seen: Seen,
}

impl Assuming {
    fn see(&mut self, what: &'static str, seen: bool) {
        self.seen.see(what, seen);
    }

    pub fn judged(
        &mut self,
        input: &[u8],
        assumed: &Assumed,
        answer: Result<Size, Refusal>,
        buffer: &[u8],
    ) {
        if assumed.is_empty() {
            return;
        }
        self.calls += 1;
        match answer {
            Ok(size) => {
                let satisfied = buffer[..size.clauses].contains(&0);
                self.see("judge: a clause is satisfied", satisfied);
                let alone = !is_accepted(input);
                self.see("judge: only the assumptions make it accepted", alone);
                let many = size.clauses > 48;
                self.see("judge: more than 48 clauses are accepted", many);
            }
            Err(Refusal { number: 10, place }) => {
                let alone = is_accepted(input);
                self.see("judge: only the assumptions make it refused", alone);
                self.see("judge: they leave a clause empty", alone && place == 1);
            }
            Err(Refusal { number: 16, place }) => self.saw_bad(input, assumed, place),
            Err(_) => {}
        }
    }

    fn saw_bad(&mut self, input: &[u8], assumed: &Assumed, place: usize) {
        let bad = assumed.list[place];
        let same = assumed.list[..place].contains(&bad);
        let kind = match bad.variable {
            0 => "bad: variable 0",
            variable if variable > input[1] => "bad: a variable above n",
            _ if same => "bad: assumed before with the same value",
            _ => "bad: assumed before with the other value",
        };
        self.see(kind, true);
        self.see("bad: the first of the list", place == 0);
        self.see("bad: behind good ones", place > 0);
        let long = assumed.list.len() > 255;
        self.see("bad: in a list of more than 255", long);
    }

    pub fn walked(
        &mut self,
        input: &[u8],
        assumed: &Assumed,
        given: &Checkpoint,
        budget: u32,
        walked: Result<Progress, Refusal>,
    ) {
        if assumed.is_empty() {
            return;
        }
        self.calls += 1;
        let foreign = match walked {
            Ok(_) => false,
            Err(Refusal { number: 11, .. }) => true,
            Err(_) => return,
        };
        if assumed.to_assign(input) == Some(0) {
            let answer = walked.map(|progress| progress.answer);
            if let Some(what) = walked_without_steps(given, budget, answer) {
                self.see(what, true);
            }
            return;
        }
        if let Ok(progress) = walked {
            self.see("walk: from within", given[1] > 0);
            self.see("walk: with trials", progress.expansions > 0);
            let many = decode(input).is_ok_and(|formula| formula.clauses().len() > 48);
            self.see("walk: on a formula of more than 48 clauses", many);
        }
        let length = usize::from(given[1]).min(48);
        let mut trail = given[2..2 + length].iter();
        let assumed_in_trail = trail.any(|byte| assumed.has(byte & 127));
        assert!(foreign || !assumed_in_trail);
        self.see(
            "walk: an assumed variable in the trail is foreign",
            assumed_in_trail && given[0] < 4,
        );
        let behind_nothing = *given == checkpoint(1);
        assert!(foreign || !behind_nothing);
        self.see("walk: mode 1 at length 0 is foreign", behind_nothing);
    }

    /// A walk call with a checkpoint that was made under another list, be it the empty one; the start is every list's.
    pub fn walked_on(&mut self, assumed: &Assumed, given: &Checkpoint, taken: bool) {
        if !assumed.is_empty() && given[0] != 0 && given[0] != 4 {
            self.see("walk: a checkpoint of another list is taken", taken);
            self.see("walk: a checkpoint of another list is foreign", !taken);
        }
    }

    pub fn listed(
        &mut self,
        input: &[u8],
        assumed: &Assumed,
        given: &Checkpoint,
        room: usize,
        listed: Listed,
    ) {
        if assumed.is_empty() {
            return;
        }
        self.calls += 1;
        if assumed.to_assign(input) == Some(0) {
            if let Some(what) = listed_without_steps(given, room, listed) {
                self.see(what, true);
            }
        }
    }

    /// Fails if something was seen too seldom.
    fn require_enough(&self) {
        self.seen.require_enough(&WANTED, self.calls);
        for number in (1..=11).chain([16]) {
            let seen = self.refusals[number];
            assert!(seen > self.calls / 5_000, "refusal {number}: only {seen}");
        }
    }
}

impl fmt::Display for Assuming {
    fn fmt(&self, f: &mut fmt::Formatter) -> fmt::Result {
        write!(f, "under assumptions: {} (refused", self.calls)?;
        write_refusals(f, &self.refusals)?;
        write!(f, "){}", self.seen)
    }
}

/// What must be seen of formulas that are accepted by stripping, and of how many calls without assumptions, or under some, once at least.
const STRIPPED: [(&str, usize); 10] = [
    ("judge: all that remains is dropped", 500),
    ("judge: something is left", 2_000),
    ("judge: more than 48 clauses", 2_000),
    ("judge: more noted variables than one", 500),
    ("walk: from the start", 1_000),
    ("walk: from within", 200),
    ("walk: with trials", 3_000),
    ("walk: a foreign checkpoint", 200),
    ("list: from the start", 500),
    ("list: from within", 2_000),
];

/// What was seen of judge, walk and list on formulas that are accepted by stripping: some byte of judge's row is that of a dropped clause.
#[derive(Default)]
pub struct Stripped {
    calls: usize,
    /// By the words of [`STRIPPED`].
    seen: Seen,
}

impl Stripped {
    pub fn judged(&mut self, answer: Result<Size, Refusal>, buffer: &[u8]) {
        self.calls += 1;
        let Ok(size) = answer else {
            return;
        };
        let mut row = buffer[..size.clauses].to_vec();
        row.retain(|byte| *byte != 0);
        row.sort();
        row.dedup();
        let dropped = row.iter().filter(|byte| **byte > 128).count();
        if dropped > 0 {
            let left = dropped < row.len();
            self.seen.see("judge: all that remains is dropped", !left);
            self.seen.see("judge: something is left", left);
            let many = size.clauses > 48;
            self.seen.see("judge: more than 48 clauses", many);
            let several = dropped > 1;
            self.seen
                .see("judge: more noted variables than one", several);
        }
    }

    pub fn walked(
        &mut self,
        input: &[u8],
        assumed: &Assumed,
        given: &Checkpoint,
        walked: Result<Progress, Refusal>,
    ) {
        self.calls += 1;
        if !assumed.drops_clauses(input) {
            return;
        }
        match walked {
            Ok(progress) => {
                self.seen.see("walk: from the start", given[0] == 0);
                self.seen.see("walk: from within", given[1] > 0);
                let trials = progress.expansions > 0;
                self.seen.see("walk: with trials", trials);
            }
            Err(refusal) => {
                assert_eq!(refusal.number, 11);
                self.seen.see("walk: a foreign checkpoint", true);
            }
        }
    }

    pub fn listed(&mut self, input: &[u8], assumed: &Assumed, given: &Checkpoint, listed: Listed) {
        self.calls += 1;
        if listed.written > 0 && assumed.drops_clauses(input) {
            self.seen.see("list: from the start", given[0] == 0);
            self.seen.see("list: from within", given[1] > 0);
        }
    }
}

impl fmt::Display for Stripped {
    fn fmt(&self, f: &mut fmt::Formatter) -> fmt::Result {
        write!(f, "of {} calls{}", self.calls, self.seen)
    }
}

/// The checkpoint of this mode at length 0.
fn checkpoint(mode: u8) -> Checkpoint {
    let mut checkpoint = [0; 50];
    checkpoint[0] = mode;
    checkpoint
}

/// What a walk call shows where nothing is to be assigned, in the words of a tally.
pub fn walked_without_steps(
    given: &Checkpoint,
    budget: u32,
    answer: Result<Answer, Refusal>,
) -> Option<&'static str> {
    Some(match answer {
        Ok(Answer::Model(_)) if budget == 0 => "nothing to assign: the model on budget 0",
        Ok(Answer::Model(_)) => "nothing to assign: the model on another budget",
        Ok(Answer::Spent) => panic!("a walk without steps is spent"),
        Ok(Answer::Ended) if *given == checkpoint(4) => return None,
        Ok(Answer::Ended) if budget == 0 => "nothing to assign: the end behind it on budget 0",
        Ok(Answer::Ended) => "nothing to assign: the end behind it on another budget",
        Err(_) => "nothing to assign: other checkpoints are foreign",
    })
}

/// What a list with room for so many models shows there.
pub fn listed_without_steps(
    given: &Checkpoint,
    room: usize,
    listed: Listed,
) -> Option<&'static str> {
    if *given == checkpoint(0) && room == 0 {
        let kept = listed.answer == Answer::Spent && listed.checkpoint == *given;
        kept.then_some("nothing to assign: a list without room keeps the model")
    } else if *given == checkpoint(0) {
        (listed.written == 1).then_some("nothing to assign: a list has the model")
    } else if *given == checkpoint(1) && room == 0 {
        let ended = listed.answer == Answer::Ended && listed.checkpoint == checkpoint(4);
        ended.then_some("nothing to assign: a list without room ends behind it")
    } else {
        None
    }
}

/// How often what was seen, so that a run that tests little fails.
#[derive(Default)]
pub struct Tally {
    pub checks: usize,
    pub judges: usize,
    pub weights: Weights,
    pub deficiencies: Deficiencies,
    pub starts: usize,
    pub walks: usize,
    pub chain_calls: usize,
    pub lists: usize,
    pub pages: Pages,
    pub from_dimacs: Outcomes,
    pub to_dimacs: Outcomes,
    /// Formulas that were written and read again.
    pub round_trips: usize,
    pub wrong_lengths: usize,
    /// Calls with an odd number of bytes of assumptions.
    pub odd_lengths: usize,
    /// Answers of check.
    pub yes: usize,
    pub no: usize,
    /// Answers of judge.
    pub accepted: usize,
    /// Answers of walk calls, alone and in chains, and of list.
    models: usize,
    spent: usize,
    ended: usize,
    /// Walk calls whose steps needed trials.
    pub with_trials: usize,
    /// Models handed out by list.
    pub listed: usize,
    /// Refusals of all acts but weigh, deficiency, page and those between formulas and texts.
    refusals: Refusals,
    pub assuming: Assuming,
    pub unnamed: Unnamed,
    /// Of walk calls that are not in chains.
    pub order: Order,
    /// Without assumptions, and under some.
    stripped: [Stripped; 2],
    /// Readable inputs in which a literal comes again in its clause, and those that are longer than the printing program takes.
    repeats: usize,
    long: usize,
}

impl Tally {
    pub fn calls(&self) -> usize {
        self.checks
            + self.judges
            + self.weights.calls()
            + self.deficiencies.calls()
            + self.starts
            + self.walks
            + self.chain_calls
            + self.lists
            + self.pages.calls()
            + self.from_dimacs.calls()
            + self.to_dimacs.calls()
            + self.wrong_lengths
            + self.odd_lengths
    }

    pub fn input(&mut self, input: &[u8]) {
        let Ok(formula) = decode(input) else {
            return;
        };
        let clauses = formula.clauses().iter();
        let without_repeats: u32 = clauses.map(|c| 2 * c.named().count_ones() + 1).sum();
        self.repeats += usize::from(input.len() > 3 + without_repeats as usize);
        self.long += usize::from(input.len() > 16_384);
    }

    pub fn stripped(&mut self, assumed: &Assumed) -> &mut Stripped {
        &mut self.stripped[usize::from(!assumed.is_empty())]
    }

    pub fn refused(&mut self, assumed: &Assumed, refusal: Refusal) {
        let number = usize::from(refusal.number);
        self.refusals[number] += 1;
        self.assuming.refusals[number] += usize::from(!assumed.is_empty());
    }

    pub fn answered(&mut self, answer: Answer) {
        match answer {
            Answer::Model(_) => self.models += 1,
            Answer::Spent => self.spent += 1,
            Answer::Ended => self.ended += 1,
        }
    }

    /// Fails if something was seen too seldom.
    pub fn require_enough(&self) {
        let calls = self.calls();
        let least = [
            ("check", self.checks, calls / 12),
            ("judge", self.judges, calls / 20),
            ("weigh", self.weights.calls(), calls / 20),
            ("deficiency", self.deficiencies.calls(), calls / 50),
            ("start", self.starts, calls / 200),
            ("walk", self.walks, calls / 5),
            ("chains", self.chain_calls, calls / 20),
            ("list", self.lists, calls / 20),
            ("page", self.pages.calls(), calls / 20),
            ("from_dimacs", self.from_dimacs.calls(), calls / 30),
            ("to_dimacs", self.to_dimacs.calls(), calls / 50),
            ("round trips", self.round_trips, calls / 100),
            ("wrong lengths", self.wrong_lengths, calls / 100),
            ("odd lengths", self.odd_lengths, calls / 200),
            ("yes", self.yes, calls / 100),
            ("no", self.no, calls / 100),
            ("accepted", self.accepted, calls / 100),
            ("model", self.models, calls / 20),
            ("spent", self.spent, calls / 25),
            ("ended", self.ended, calls / 100),
            ("with trials", self.with_trials, calls / 100),
            ("models listed", self.listed, calls / 20),
            ("inputs with repeats", self.repeats, calls / 400),
            ("long inputs", self.long, calls / 50_000),
        ];
        for (what, seen, wanted) in least {
            assert!(seen >= wanted, "{what}: only {seen}");
        }
        for (number, seen) in self.refusals[..=12].iter().enumerate().skip(1) {
            assert!(*seen >= calls / 2000, "refusal {number}: only {seen}");
        }
        self.assuming.require_enough();
        self.unnamed.require_enough();
        self.order.require_enough();
        self.weights.require_enough();
        self.deficiencies.require_enough();
        self.pages.require_enough();
        for Stripped { calls, seen } in &self.stripped {
            seen.require_enough(&STRIPPED, *calls);
        }
        let reading = [1, 2, 5, 6, 7, 8, 13, 14, 15];
        self.from_dimacs.require_enough("from_dimacs", &reading);
        let writing = [1, 2, 3, 4, 5, 6, 7, 8, 9];
        self.to_dimacs.require_enough("to_dimacs", &writing);
    }
}

impl fmt::Display for Tally {
    fn fmt(&self, f: &mut fmt::Formatter) -> fmt::Result {
        writeln!(f, "{} calls, 0 differences", self.calls())?;
        writeln!(
            f,
            "check: {} (yes {}, no {})",
            self.checks, self.yes, self.no
        )?;
        writeln!(f, "judge: {} (accepted {})", self.judges, self.accepted)?;
        writeln!(f, "weigh: {}", self.weights)?;
        writeln!(f, "deficiency: {}", self.deficiencies)?;
        writeln!(f, "start: {}", self.starts)?;
        writeln!(
            f,
            "walk: {}, and {} in chains",
            self.walks, self.chain_calls
        )?;
        writeln!(f, "list: {} (models listed {})", self.lists, self.listed)?;
        writeln!(f, "page: {}", self.pages)?;
        writeln!(f, "from_dimacs: {}", self.from_dimacs)?;
        writeln!(f, "to_dimacs: {}", self.to_dimacs)?;
        writeln!(f, "written and read again: {}", self.round_trips)?;
        writeln!(
            f,
            "wrong lengths: {}, and {} odd ones of assumptions",
            self.wrong_lengths, self.odd_lengths
        )?;
        writeln!(
            f,
            "answers of walk and list: model {}, spent {}, ended {}; walks with trials: {}",
            self.models, self.spent, self.ended, self.with_trials
        )?;
        writeln!(
            f,
            "inputs read: with repeats {}, of more than 16,384 bytes {}",
            self.repeats, self.long
        )?;
        write!(f, "refusals of the other acts:")?;
        write_refusals(f, &self.refusals)?;
        let [without, under] = &self.stripped;
        write!(f, "\naccepted by stripping, without assumptions: {without}")?;
        write!(f, "\naccepted by stripping, under assumptions: {under}")?;
        write!(f, "\nwith unnamed variables: {}", self.unnamed)?;
        write!(f, "\nwalks by what is left at the root: {}", self.order)?;
        write!(f, "\n{}", self.assuming)
    }
}
