//! The waits between models, to the step: over lists of walk calls, whatever their budgets, and on the lines of pages.

use norwythai::{
    page, walk, Answer, Assignment, Assumption, Checkpoint, LINE_SIZE, PAGE_LINES, PAGE_SIZE,
};
use norwythai_reference as reference;
use norwythai_samples::{
    encode, named_variables, shared, some_accepted_formula, some_assumptions, some_budget,
    trail_in, Random, Stop, Wait, Waits,
};

/// The example of the specification, S12.3: (1, 2) and (not 1, not 2).
const EXAMPLE: &[u8] = &[1, 2, 2, 1, 2, 2, 4, 3, 1, 3, 2, 4, 5];

fn is_accepted(input: &[u8]) -> bool {
    reference::judge(input, &[], &mut [0; 96]).is_ok()
}

fn stop_of(answer: Answer) -> Stop {
    match answer {
        Answer::Model(_) => Stop::Model,
        Answer::Spent => Stop::Spent,
        Answer::Ended => Stop::Ended,
    }
}

/// Walks from the start, with these budgets one after the other and the last of them again and again, up to the end. Gives the steps of
/// each wait, each of them the one that the trails tell.
fn waits_of(input: &[u8], assumptions: &[Assumption], budgets: &[u32]) -> Vec<u64> {
    let last = budgets.last().unwrap();
    let mut budgets = budgets.iter();
    let mut checkpoint = Checkpoint::start();
    let mut waits = Waits::default();
    let mut steps = Vec::new();
    loop {
        let budget = *budgets.next().unwrap_or(last);
        let walked = walk(input, assumptions, &mut checkpoint, budget).unwrap();
        let stop = stop_of(walked.answer);
        if let Some(wait) = waits.call(stop, walked.steps, checkpoint.as_bytes()) {
            assert_eq!(wait.steps, wait.told);
            steps.push(wait.steps);
        }
        if stop == Stop::Ended {
            return steps;
        }
    }
}

#[test]
fn the_waits_do_not_depend_on_the_budgets() {
    let pairs = encode(3, &[vec![1, 2], vec![1, 3], vec![2, 3]]);
    let turn = encode(2, &[vec![1, 2], vec![1, -2]]);
    let stripped = encode(1, &[vec![1], vec![1]]);
    let unnamed = encode(5, &[vec![2, 4]]);
    let cases: [(&[u8], &[Assumption], &[u64]); 10] = [
        (&pairs, &[], &[3, 6, 4, 2, 3]),
        (&pairs, &[Assumption::positive(3)], &[2, 4, 2, 2]),
        (&turn, &[], &[2, 4, 2]),
        (&stripped, &[], &[1, 1]),
        (EXAMPLE, &[], &[2, 4, 2]),
        (EXAMPLE, &[Assumption::positive(1)], &[1, 1]),
        // Nothing is to be assigned.
        (
            EXAMPLE,
            &[Assumption::positive(1), Assumption::negative(2)],
            &[0, 0],
        ),
        (&[1, 3, 5], &[], &[0, 0]),
        // Two of five variables are named; where one of them is assumed, the other is to be assigned.
        (&unnamed, &[], &[2, 4, 2, 2]),
        (&unnamed, &[Assumption::positive(4)], &[1, 2, 1]),
    ];
    let budgets: [&[u32]; 7] = [
        &[1],
        &[2],
        &[95],
        &[96],
        &[97],
        &[u32::MAX],
        &[2, 0, 7, 1, 0, 0, 3, 1],
    ];
    for (input, assumptions, expected) in cases {
        for budgets in budgets {
            let waits = waits_of(input, assumptions, budgets);
            assert_eq!(waits, expected, "{input:?} {assumptions:?} {budgets:?}");
        }
    }
}

/// The variables that a walk assigns, as a mask: those that some clause names and that are not assumed.
fn to_assign(input: &[u8], assumptions: &[Assumption]) -> u64 {
    let assumed = |mask, a: &Assumption| mask | 1 << (a.variable - 1);
    named_variables(input) & !assumptions.iter().fold(0, assumed)
}

/// An accepted formula and a list of assumptions under which it is accepted, often an empty one; and whether stripping drops some clause.
fn some_accepted(random: &mut Random) -> (Vec<u8>, Vec<Assumption>, bool) {
    let input = some_accepted_formula(random, is_accepted);
    let mut list = some_assumptions(random, &input);
    let mut row = [0; 96];
    let assumed: Vec<reference::Assumption> = list.iter().map(|a| (*a).into()).collect();
    if reference::judge(&input, &assumed, &mut row).is_err() {
        list.clear();
        reference::judge(&input, &[], &mut row).unwrap();
    }
    let assumptions = list
        .into_iter()
        .map(|(variable, value)| Assumption { variable, value })
        .collect();
    (input, assumptions, row.iter().any(|byte| *byte > 128))
}

/// What was seen along some chains.
#[derive(Debug, Default)]
struct Seen {
    firsts: usize,
    between: usize,
    ends: usize,
    divided: usize,
    assuming: usize,
    unnamed: usize,
    nothing_to_assign: usize,
    stripped: usize,
}

impl Seen {
    /// Makes calls on one input from the start, and compares each wait with the trails, and each trail with its model.
    fn chain(&mut self, random: &mut Random, input: &[u8], assumptions: &[Assumption]) {
        let to_assign = to_assign(input, assumptions);
        let left = to_assign.count_ones() as usize;
        let mut checkpoint = Checkpoint::start();
        let mut waits = Waits::default();
        let small = random.percent(50);
        for _ in 0..random.between(1, 60) {
            let budget = match random.below(8) {
                0 => 97,
                _ if small => random.below(8) as u32,
                _ => some_budget(random),
            };
            let earlier = waits.trail().map(<[u8]>::to_vec);
            let walked = walk(input, assumptions, &mut checkpoint, budget).unwrap();
            let stop = stop_of(walked.answer);
            let Some(wait) = waits.call(stop, walked.steps, checkpoint.as_bytes()) else {
                continue;
            };
            assert_eq!(wait.steps, wait.told, "{input:02x?} {assumptions:?}");
            self.divided += usize::from(wait.calls > 1);
            if let Answer::Model(model) = walked.answer {
                let (bytes, earlier) = (checkpoint.as_bytes(), earlier.as_deref());
                self.model(model, bytes, earlier, wait, to_assign);
            } else {
                assert_eq!(wait.steps, left as u64);
                self.ends += 1;
            }
        }
    }

    /// A model, with the checkpoint that came with it and the trail of the one before.
    fn model(
        &mut self,
        model: Assignment,
        checkpoint: &[u8; Checkpoint::LENGTH],
        earlier: Option<&[u8]>,
        wait: Wait,
        to_assign: u64,
    ) {
        let left = to_assign.count_ones() as usize;
        let later = trail_in(checkpoint);
        assert_eq!((checkpoint[0], later.len()), (1, left));
        let mut assigned = 0;
        for byte in later {
            let variable = 1 << ((byte & 127) - 1);
            assert_eq!(model.bits() & variable != 0, *byte > 128);
            assigned |= variable;
        }
        // Each variable to assign, once.
        assert_eq!(assigned, to_assign);
        let Some(earlier) = earlier else {
            assert_eq!(wait.steps, left as u64);
            self.firsts += 1;
            return;
        };
        // Where they part, the variable was false and is true.
        let parting = shared(earlier, later);
        assert_eq!(later[parting], earlier[parting] + 128);
        assert!(wait.steps >= 2 && wait.steps.is_multiple_of(2) && wait.steps <= 2 * left as u64);
        self.between += 1;
    }
}

#[test]
fn along_ten_thousand_chains_the_waits_are_those_of_the_trails() {
    let mut random = Random::new(8);
    let mut seen = Seen::default();
    for _ in 0..10_000 {
        let (input, assumptions, stripped) = some_accepted(&mut random);
        seen.chain(&mut random, &input, &assumptions);
        seen.assuming += usize::from(!assumptions.is_empty());
        let named = named_variables(&input).count_ones();
        seen.unnamed += usize::from(named < u32::from(input[1]));
        seen.nothing_to_assign += usize::from(to_assign(&input, &assumptions) == 0);
        seen.stripped += usize::from(stripped);
    }
    println!("{seen:?}");
    assert!(seen.firsts > 8_000 && seen.between > 20_000 && seen.ends > 1_000);
    assert!(seen.divided > 10_000 && seen.assuming > 2_000);
    assert!(seen.unnamed > 2_000 && seen.unnamed < 8_000);
    assert!(seen.nothing_to_assign > 100 && seen.stripped > 500);
}

/// The steps on the lines of a page.
fn steps_on(page: &[u8; PAGE_SIZE], lines: usize) -> Vec<u64> {
    page.chunks(LINE_SIZE)
        .take(lines)
        .map(|line| {
            let steps = std::str::from_utf8(&line[56..59]).unwrap();
            steps.trim().parse().unwrap()
        })
        .collect()
}

#[test]
fn the_lines_of_pages_have_the_waits() {
    let mut random = Random::new(9);
    let (mut lines, mut within, mut behind, mut assuming) = (0, 0, 0, 0);
    while lines < 20_000 {
        let (input, assumptions, _) = some_accepted(&mut random);
        let mut waits = Waits::default();
        let mut checkpoint = Checkpoint::start();
        // Some pages begin after a call: at a model, or within a gap, of which some steps are made then.
        let mut made = 0;
        if random.percent(50) {
            let budget = some_budget(&mut random);
            let call = walk(&input, &assumptions, &mut checkpoint, budget).unwrap();
            let stop = stop_of(call.answer);
            if waits
                .call(stop, call.steps, checkpoint.as_bytes())
                .is_none()
            {
                made = u64::from(call.steps);
            }
        }
        let mut walked = checkpoint;
        // The second page begins at the checkpoint of a model, the last of the first.
        for number in 0..2 {
            let mut text = [0; PAGE_SIZE];
            let paged = page(&input, &assumptions, &mut checkpoint, 1, &mut text).unwrap();
            for steps in steps_on(&text, paged.lines) {
                let call = walk(&input, &assumptions, &mut walked, 96).unwrap();
                let wait = waits.call(stop_of(call.answer), call.steps, walked.as_bytes());
                assert_eq!(
                    steps + made,
                    wait.unwrap().told,
                    "{input:02x?} {assumptions:?}"
                );
                within += usize::from(made > 0);
                made = 0;
                lines += 1;
                behind += number;
            }
            if paged.lines < PAGE_LINES {
                break;
            }
        }
        assuming += usize::from(!assumptions.is_empty());
    }
    println!("{lines} lines, {behind} on second pages, {within} first ones within a gap; {assuming} formulas under assumptions");
    assert!(within > 20 && behind > 1_000 && assuming > 100);
}
