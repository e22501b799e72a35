//! Formulas of which stripping drops clauses: which are accepted, what judge writes, and their walks.

mod clauses;

use clauses::{clauses_of, names, strip};
use norwythai_reference::{
    check, decode, judge, list, print, start_checkpoint, walk, Answer, Assumption, Refusal, Walker,
    LIST_BUDGET,
};
use norwythai_samples::{
    encode, listed_models, some_accepted_formula, some_assumptions, some_checkpoint, some_input,
    Clauses, Random, Stop, Waits,
};
use std::collections::BTreeMap;

fn is_accepted(input: &[u8]) -> bool {
    judge(input, &[], &mut [0; 96]).is_ok()
}

fn some_list(random: &mut Random, input: &[u8]) -> Vec<Assumption> {
    let list = some_assumptions(random, input);
    list.into_iter().map(Into::into).collect()
}

/// Judge's answer and the bytes that it writes, of a readable input under good assumptions.
fn judged(input: &[u8], assumptions: &[Assumption]) -> (Result<(), Refusal>, Vec<u8>) {
    let mut buffer = [170; 97];
    let answer = judge(input, assumptions, &mut buffer).map(|_| ());
    let clauses = decode(input).unwrap().clauses().len();
    assert!(buffer[clauses..].iter().all(|byte| *byte == 170));
    (answer, buffer[..clauses].to_vec())
}

/// The number of variables, the clauses, the assumptions, and the bytes that judge writes.
type Accepted<'a> = (usize, &'a [&'a [i8]], &'a [Assumption], &'a [u8]);

#[test]
fn dropped_clauses_have_the_noted_variable() {
    let first = [Assumption::from((1, true))];
    let second = [Assumption::from((2, true))];
    let pair: [&[i8]; 4] = [&[1], &[1], &[2, 3], &[-2, -3]];
    let cases: [Accepted; 9] = [
        (1, &[&[1], &[1]], &[], &[129, 129]),
        (2, &[&[1], &[1], &[1, 2], &[-2]], &[], &[129, 129, 129, 130]),
        // What is left is matched; under the assumption it is (not 3), which is dropped.
        (3, &pair, &[], &[129, 129, 2, 3]),
        (3, &pair, &second, &[129, 129, 0, 131]),
        // 1 is pure only once 2 is noted.
        (
            2,
            &[&[-1, 2], &[1, 2], &[1], &[1]],
            &[],
            &[130, 130, 129, 129],
        ),
        // 3 is noted first, and then 1 and 2.
        (
            3,
            &[&[3, -1], &[3, -2], &[1, 2], &[1, -2], &[2]],
            &[],
            &[131, 131, 129, 129, 130],
        ),
        // As a whole it is matched, so that nothing is stripped.
        (2, &[&[1], &[1, 2]], &[], &[1, 2]),
        // The third is satisfied, and what remains is (1) (1), which is dropped.
        (2, &[&[1], &[1], &[2]], &second, &[129, 129, 0]),
        // What remains is (2) (2). Without the assumption no variable is pure.
        (2, &[&[-1, 2], &[-1, 2], &[1, -2]], &first, &[130, 130, 0]),
    ];
    for (variables, clauses, assumptions, row) in cases {
        let clauses: Clauses = clauses.iter().map(|clause| clause.to_vec()).collect();
        let input = encode(variables, &clauses);
        let found = judged(&input, assumptions);
        assert_eq!(found, (Ok(()), row.to_vec()), "{clauses:?}");
    }
    let most = encode(1, &vec![vec![1]; 96]);
    assert_eq!(judged(&most, &[]), (Ok(()), vec![129; 96]));
}

#[test]
fn marks_are_those_of_the_left_clauses() {
    let cases: [(&[&[i8]], &[u8]); 5] = [
        // Nothing is dropped.
        (&[&[-1, 2], &[-1, 2], &[1, -2]], &[1, 1, 1]),
        // As a whole the first two would be marked.
        (&[&[2], &[2], &[1], &[-1]], &[0, 0, 1, 1]),
        (&[&[1], &[-1], &[2], &[-1], &[2]], &[1, 1, 0, 0, 0]),
        (&[&[2], &[], &[2]], &[0, 1, 0]),
        (
            &[&[3, 1], &[3, 2], &[1], &[3], &[-1, 3], &[-1]],
            &[0, 0, 1, 0, 0, 1],
        ),
    ];
    for (clauses, marks) in cases {
        let clauses: Clauses = clauses.iter().map(|clause| clause.to_vec()).collect();
        let input = encode(3, &clauses);
        let place = marks.iter().filter(|mark| **mark == 1).count();
        let refusal = Refusal::new(10, place);
        assert_eq!(judged(&input, &[]), (Err(refusal), marks.to_vec()));
        assert_eq!(walk(&input, &[], &[9; 50], 0), Err(refusal));
        assert_eq!(list(&input, &[], &[9; 50], &mut [0; 3]), Err(refusal));
        assert_eq!(print(&input), format!("refused 10 {place}\n"));
    }
}

#[test]
fn stripped_formulas_are_walked_and_printed() {
    let twice = encode(1, &[vec![1], vec![1]]);
    assert_eq!(print(&twice), "switches 1 rules 2\n1 1 0\nend 1 0\n");
    let walked = walk(&twice, &[], &start_checkpoint(), LIST_BUDGET).unwrap();
    assert_eq!(walked.progress.answer, Answer::Model(1));
    assert_eq!(walked.checkpoint[..4], [1, 1, 129, 0]);
    // Something is left: its variables are tried.
    let partly = encode(3, &[vec![1], vec![1], vec![2, 3], vec![-2, -3]]);
    assert_eq!(
        print(&partly),
        "switches 3 rules 4\n101 3 2\n110 6 0\nend 3 0\n"
    );
    let mut models = [0; 3];
    let listed = list(&partly, &[], &start_checkpoint(), &mut models).unwrap();
    assert_eq!((listed.answer, listed.written), (Answer::Ended, 2));
    assert_eq!(models[..2], [0b101, 0b011]);
    let most = encode(1, &vec![vec![1]; 96]);
    assert_eq!(print(&most), "switches 1 rules 96\n1 1 0\nend 1 0\n");
}

/// Gives the clause a variable, and those whose variable it takes another one, if that can be.
fn give(
    clauses: &[&Vec<i8>],
    clause: usize,
    seen: &mut Vec<i8>,
    owner: &mut [Option<usize>; 49],
) -> bool {
    for literal in clauses[clause] {
        let variable = literal.abs();
        if seen.contains(&variable) {
            continue;
        }
        seen.push(variable);
        let free = match owner[variable as usize] {
            None => true,
            Some(other) => give(clauses, other, seen, owner),
        };
        if free {
            owner[variable as usize] = Some(clause);
            return true;
        }
    }
    false
}

fn is_matched(clauses: &[&Vec<i8>]) -> bool {
    let mut owner = [None; 49];
    (0..clauses.len()).all(|clause| give(clauses, clause, &mut Vec::new(), &mut owner))
}

/// Whether the bytes are different variables, each named by its clause.
fn is_matching(clauses: &[&Vec<i8>], bytes: &[u8]) -> bool {
    let own = |i: usize| names(clauses[i], bytes[i] as i8) && !bytes[..i].contains(&bytes[i]);
    (0..clauses.len()).all(own)
}

/// Requires the clauses not to be matched, and to be so without any single one of them.
fn require_each_needed(clauses: &[&Vec<i8>]) {
    assert!(!is_matched(clauses));
    for struck in 0..clauses.len() {
        assert!(is_matched(
            &[&clauses[..struck], &clauses[struck + 1..]].concat()
        ));
    }
}

/// The kinds of what remains under a list, good or empty.
const KINDS: [&str; 6] = [
    "matched, nothing to strip",
    "matched, though some would be dropped",
    "dropped wholly",
    "dropped in part",
    "refused, none dropped",
    "refused, some dropped",
];

/// A row with clauses of all three kinds.
const THREE: &str = "satisfied, dropped and left clauses";

/// Of formulas with dropped clauses under a list: what they are without it.
const DROPPED_UNDER: &str = "dropped under a list, and without";

/// Requires the answer and the bytes of the clauses that remain to be those of the definition, and says of which kind they are.
fn require_accepted(clauses: &Clauses, answer: Result<(), Refusal>, bytes: &[u8]) -> &'static str {
    let all: Vec<&Vec<i8>> = clauses.iter().collect();
    let (left, noted) = strip(clauses);
    let left_clauses: Vec<&Vec<i8>> = left.iter().map(|i| &clauses[*i]).collect();
    let left_bytes: Vec<u8> = left.iter().map(|i| bytes[*i]).collect();
    if is_matched(&all) {
        assert_eq!(answer, Ok(()));
        assert!(is_matching(&all, bytes));
        return KINDS[usize::from(!noted.is_empty())];
    }
    let mut dropped = (0..clauses.len()).filter(|i| !left.contains(i));
    if is_matched(&left_clauses) {
        assert_eq!(answer, Ok(()));
        assert!(is_matching(&left_clauses, &left_bytes));
        let first = |i: usize| noted.iter().find(|v| names(&clauses[i], **v)).unwrap();
        assert!(dropped.all(|i| bytes[i] == 128 + *first(i) as u8));
        return KINDS[if left.is_empty() { 2 } else { 3 }];
    }
    let marked: Vec<&Vec<i8>> = left_clauses
        .iter()
        .zip(&left_bytes)
        .filter_map(|(clause, byte)| (*byte == 1).then_some(*clause))
        .collect();
    assert_eq!(answer, Err(Refusal::new(10, marked.len())));
    assert!(left_bytes.iter().all(|byte| *byte <= 1));
    let named = (1..=48).filter(|v| marked.iter().any(|clause| names(clause, *v)));
    assert_eq!(named.count() + 1, marked.len());
    require_each_needed(&marked);
    assert!(dropped.all(|i| bytes[i] == 0));
    KINDS[if noted.is_empty() { 4 } else { 5 }]
}

#[test]
fn acceptance_is_that_of_the_definition() {
    let mut random = Random::new(5);
    let mut seen: BTreeMap<(&str, &str), usize> = BTreeMap::new();
    let mut see =
        |list: &'static str, kind: &'static str| *seen.entry((list, kind)).or_default() += 1;
    let mut inputs = 0;
    while inputs < 5_000 {
        let input = some_input(&mut random, is_accepted);
        let Ok(whole) = decode(&input) else {
            continue;
        };
        inputs += 1;
        let (answer, row) = judged(&input, &[]);
        let alone = require_accepted(&clauses_of(&whole), answer, &row);
        see("without", alone);

        let assumptions = some_list(&mut random, &input);
        let mut formula = whole.clone();
        if assumptions.is_empty() || formula.assume(&assumptions).is_err() {
            continue;
        }
        let (answer, row) = judged(&input, &assumptions);
        let satisfied = |i: &usize| {
            let clause = whole.clauses()[*i];
            assumptions.iter().any(|a| {
                let literals = if a.value {
                    clause.positive
                } else {
                    clause.negative
                };
                literals >> (a.variable - 1) & 1 == 1
            })
        };
        let (gone, remain): (Vec<usize>, Vec<usize>) = (0..row.len()).partition(satisfied);
        assert!(gone.iter().all(|i| row[*i] == 0));
        let bytes: Vec<u8> = remain.iter().map(|i| row[*i]).collect();
        let under = require_accepted(&clauses_of(&formula), answer, &bytes);
        see("under a list", under);
        if under == "dropped wholly" || under == "dropped in part" {
            see(DROPPED_UNDER, alone);
        }
        if under == "dropped in part" && !gone.is_empty() {
            see("under a list", THREE);
        }
    }
    for ((list, kind), count) in &seen {
        println!("{list}: {kind}: {count}");
    }
    let lists = ["without", "under a list"];
    let kinds = lists
        .iter()
        .flat_map(|list| KINDS.map(|kind| (*list, kind)));
    let kinds = kinds.chain([("under a list", THREE)]);
    for (list, kind) in kinds {
        let count = seen.get(&(list, kind)).copied().unwrap_or(0);
        assert!(count >= inputs / 100, "{list}: {kind}: only {count}");
    }
    // The inputs are generated as those of the vectors are, of which rust/README.md says: about one in five.
    let stripped = [KINDS[2], KINDS[3]].map(|kind| seen[&("without", kind)]);
    let percent = 100 * stripped.iter().sum::<usize>() / inputs;
    assert!((17..=24).contains(&percent), "{percent} of a hundred");
    // Without the list refused and none dropped: that never came by chance, and stands among the cases above.
    let without = [(0, 1), (1, 10), (2, 100), (3, 50), (5, 5)];
    for (kind, least) in without.map(|(kind, least)| (KINDS[kind], least)) {
        let count = seen.get(&(DROPPED_UNDER, kind)).copied().unwrap_or(0);
        assert!(count >= least, "{DROPPED_UNDER}: {kind}: only {count}");
    }
}

/// A formula under assumptions, often none, with clauses that stripping drops, so that it is accepted. It has at most so many variables.
fn some_dropped(random: &mut Random, most: u8) -> (Vec<u8>, Vec<Assumption>) {
    loop {
        let input = some_accepted_formula(random, is_accepted);
        if input[1] > most {
            continue;
        }
        let mut assumptions = some_list(random, &input);
        if judge(&input, &assumptions, &mut [0; 96]).is_err() {
            assumptions.clear();
        }
        let (_, row) = judged(&input, &assumptions);
        if row.iter().any(|byte| *byte > 128) {
            return (input, assumptions);
        }
    }
}

#[test]
fn a_walk_lists_all_models_and_waits_as_long_as_others() {
    let mut random = Random::new(6);
    let (mut assuming, mut models, mut with_trials) = (0, 0, 0);
    for _ in 0..1_000 {
        let (input, assumptions) = some_dropped(&mut random, 10);
        let mut formula = decode(&input).unwrap();
        let assumed = formula.assume(&assumptions).unwrap();
        let mut walker = Walker::start(&formula, assumed).unwrap();
        let to_assign = assumed.to_assign(&formula).count_ones();
        let mut waits = Waits::default();
        let mut found = Vec::new();
        loop {
            let checkpoint = walker.checkpoint();
            let progress = walker.advance(LIST_BUDGET);
            let walked = walk(&input, &assumptions, &checkpoint, LIST_BUDGET).unwrap();
            assert_eq!(walked.progress, progress, "{input:?} {assumptions:?}");
            assert_eq!(walked.checkpoint, walker.checkpoint());
            with_trials += usize::from(progress.expansions > 0);
            let Answer::Model(model) = progress.answer else {
                assert_eq!(progress.steps, to_assign);
                break;
            };
            assert!(progress.steps == to_assign || !found.is_empty());
            let wait = waits.call(Stop::Model, progress.steps, &walked.checkpoint);
            assert_eq!(u64::from(progress.steps), wait.unwrap().told);
            found.push(model);
        }
        found.sort();
        let list: Vec<(u8, bool)> = assumptions.iter().map(|a| (a.variable, a.value)).collect();
        let all = listed_models(&input, &list, |assignment| {
            check(&input, assignment) == Ok(true)
        });
        assert_eq!(found, all, "{input:?} {assumptions:?}");
        assuming += usize::from(!assumptions.is_empty());
        models += all.len();
    }
    println!("{models} models, {assuming} walks under assumptions, {with_trials} with trials");
    assert!(models > 5_000 && assuming > 100 && with_trials > 100);
}

#[test]
fn a_checkpoint_is_taken_exactly_if_the_walk_has_it() {
    let mut random = Random::new(7);
    let (mut taken, mut foreign) = (0, 0);
    for _ in 0..500 {
        let (input, assumptions) = some_dropped(&mut random, 6);
        let mut had = vec![start_checkpoint()];
        // Calls of budget 1 stop wherever a call can.
        while had[had.len() - 1][0] != 4 {
            let walked = walk(&input, &assumptions, &had[had.len() - 1], 1).unwrap();
            had.push(walked.checkpoint);
        }
        for _ in 0..20 {
            let given = some_checkpoint(&mut random, &had);
            let walked = walk(&input, &assumptions, &given, 1);
            if had.contains(&given) {
                assert!(walked.is_ok(), "{input:?} {assumptions:?} {given:?}");
                taken += 1;
            } else {
                let refusal = Refusal::new(11, 0);
                assert_eq!(walked, Err(refusal), "{input:?} {assumptions:?} {given:?}");
                foreign += 1;
            }
        }
    }
    println!("{taken} taken, {foreign} foreign");
    assert!(taken > 2_000 && foreign > 2_000);
}
