//! Compares every act of the library, through this crate and through its C functions, with the reference.
//!
//! The inputs are the same in every run. NORWYTHAI_CALLS is how many calls are made, at least 100,000.

mod acts;
mod assumed;
mod counts;
mod deficiencies;
mod order;
mod pages;
mod raw;
mod tally;
mod unnamed;
mod weights;

use acts::{
    answer_of, compare_chain, compare_check, compare_judge, compare_list, compare_round_trip,
    compare_start, compare_walk, compare_wrong_lengths, FROM_DIMACS, TO_DIMACS,
};
use assumed::Assumed;
use deficiencies::compare_deficiencies;
use norwythai::{Answer, Assumption, Checkpoint, Formula, Models, Refusal, LINE_SIZE, PAGE_SIZE};
use norwythai_reference as reference;
use norwythai_samples::{
    encode, listed_models, longest_path, named_variables, some_accepted_formula, some_assignment,
    some_budget, some_checkpoint, some_input, some_text, with_unnamed, Random,
};
use pages::compare_pages;
use tally::Tally;
use weights::compare_weights;

const FEWEST_CALLS: usize = 100_000;

fn is_accepted_under(input: &[u8], assumptions: &[reference::Assumption]) -> bool {
    reference::judge(input, assumptions, &mut [0; 96]).is_ok()
}

fn is_accepted(input: &[u8]) -> bool {
    is_accepted_under(input, &[])
}

/// Judge, weigh, walk, list and page on one input under assumptions, with checkpoints of their own walk and, at times, those of a walk
/// of another input or under another list.
fn compare_assuming(
    tally: &mut Tally,
    random: &mut Random,
    input: &[u8],
    assumed: &Assumed,
    others: &[reference::Checkpoint],
) -> Vec<reference::Checkpoint> {
    for _ in 0..3 {
        let length = random.pick(&[0, 1, 95, 96, 96, 96, 96, 97, 200]);
        let fill = random.byte();
        compare_judge(tally, input, assumed, length, fill);
    }
    compare_weights(tally, random, input, assumed);
    let mut pool = Vec::new();
    if is_accepted_under(input, &assumed.reference) {
        pool = compare_chain(tally, random, input, assumed);
        for _ in 0..others.len().min(3) {
            let given = random.pick(others);
            let taken = compare_walk(tally, input, assumed, &given, some_budget(random));
            tally.assuming.walked_on(assumed, &given, taken.is_some());
        }
        if let Some(given) = order::upward(input, assumed) {
            let taken = compare_walk(tally, input, assumed, &given, 96).is_some();
            tally.order.walked_upward(taken);
        }
        if let Some(given) = with_unnamed(random, input, &pool) {
            compare_walk(tally, input, assumed, &given, some_budget(random));
            compare_list(tally, input, assumed, &given, 2);
        }
    }
    for _ in 0..10 {
        let given = some_checkpoint(random, &pool);
        let budget = some_budget(random);
        pool.extend(compare_walk(tally, input, assumed, &given, budget));
    }
    for call in 0..4 {
        let given = if call < 2 {
            reference::start_checkpoint()
        } else {
            some_checkpoint(random, &pool)
        };
        let length = random.pick(&[0, 1, 2, 3, 10, 40]);
        pool.extend(compare_list(tally, input, assumed, &given, length));
    }
    compare_pages(tally, random, input, assumed, &mut pool);
    pool
}

/// All acts on one input, without assumptions and under two lists. Gives the checkpoints of the walk without.
fn compare_input(
    tally: &mut Tally,
    random: &mut Random,
    input: &[u8],
    others: &[reference::Checkpoint],
) -> Vec<reference::Checkpoint> {
    for _ in 0..12 {
        let assignment = some_assignment(random, input);
        compare_check(tally, input, assignment);
    }
    let pool = compare_assuming(tally, random, input, &Assumed::default(), others);
    for _ in 0..2 {
        let assumed = Assumed::some(random, input);
        compare_assuming(tally, random, input, &assumed, &pool);
    }
    pool
}

/// The acts between formulas and texts: the input is written, and read again, and so are texts that are no input's.
fn compare_texts(tally: &mut Tally, random: &mut Random, input: &[u8]) {
    if let Some(text) = TO_DIMACS.compare(tally, random, input) {
        FROM_DIMACS.compare(tally, random, &text);
    }
    compare_round_trip(tally, input);
    for _ in 0..4 {
        let text = some_text(random);
        if let Some(formula) = FROM_DIMACS.compare(tally, random, &text) {
            TO_DIMACS.compare(tally, random, &formula);
            compare_round_trip(tally, &formula);
        }
    }
}

fn wanted_calls() -> usize {
    match std::env::var("NORWYTHAI_CALLS") {
        Ok(text) => text.parse().expect("NORWYTHAI_CALLS is a number"),
        Err(_) => FEWEST_CALLS,
    }
}

#[test]
fn every_act_answers_as_the_reference() {
    let wanted = wanted_calls().max(FEWEST_CALLS);
    let mut random = Random::new(2026);
    // What deficiency gets beside the input has random numbers of its own, so that the other acts get what they got before, in somewhat
    // fewer rounds.
    let mut crowded = Random::new(9);
    let mut tally = Tally::default();
    let mut others = Vec::new();
    let mut round = 0;
    while tally.calls() < wanted {
        let input = some_input(&mut random, is_accepted);
        tally.input(&input);
        others = compare_input(&mut tally, &mut random, &input, &others);
        compare_texts(&mut tally, &mut random, &input);
        compare_deficiencies(&mut tally, &mut crowded, &input);
        compare_start(&mut tally, &mut random);
        if round % 20 == 0 {
            compare_wrong_lengths(&mut tally, &mut random, &input);
        }
        round += 1;
    }
    println!("{tally}");
    tally.require_enough();
}

#[test]
fn a_path_of_any_length_is_rematched() {
    for links in 1..=48_u8 {
        let input = encode(links.into(), &longest_path(links.into()));
        let matching = norwythai::judge(&input, &[]).unwrap();
        let second_variables: Vec<u8> = (2..=links).chain([1]).collect();
        assert_eq!(matching.matched(), second_variables);
    }
}

/// The models that a walk lists under the assumptions, by a trial of all assignments.
fn all_models(input: &[u8], assumed: &Assumed) -> Vec<u64> {
    let list = assumed.list.iter();
    let pairs: Vec<(u8, bool)> = list.map(|a| (a.variable, a.value)).collect();
    let formula = reference::decode(input).unwrap();
    listed_models(input, &pairs, |assignment| formula.is_model(assignment))
}

/// A list under which the formula is accepted; often the empty one.
fn some_accepted(random: &mut Random, input: &[u8]) -> Assumed {
    let assumed = Assumed::some(random, input);
    if is_accepted_under(input, &assumed.reference) {
        assumed
    } else {
        Assumed::default()
    }
}

#[test]
fn list_and_models_give_exactly_all_models() {
    let mut random = Random::new(1);
    let (mut formulas, mut models, mut resumed) = (0, 0, 0);
    // Lists under assumptions, those where nothing is to be assigned, and lists of formulas that are accepted by stripping or have unnamed
    // variables.
    let (mut assuming, mut nothing, mut stripped, mut unnamed) = (0, 0, 0, 0);
    while formulas < 800 {
        let input = some_accepted_formula(&mut random, is_accepted);
        if input[1] > 10 {
            continue;
        }
        let assumed = some_accepted(&mut random, &input);
        let all = all_models(&input, &assumed);

        let mut slice = vec![0; 1 << input[1]];
        let length = all.len() + random.below(slice.len() - all.len() + 1);
        let mut checkpoint = Checkpoint::start();
        let room = &mut slice[..length];
        let listed = norwythai::list(&input, &assumed.list, &mut checkpoint, room).unwrap();
        assert_eq!(listed.written, all.len(), "{input:02x?}");
        let listing = slice[..listed.written].to_vec();
        slice.truncate(listed.written);
        slice.sort();
        assert_eq!(slice, all, "{input:02x?}");

        // The iterator, stopped now and then, kept as text and taken up again.
        let mut found = Vec::new();
        let mut walk = Models::under(&input, &assumed.list);
        while let Some(model) = walk.next() {
            found.push(model.unwrap().bits());
            if random.percent(20) {
                let text = walk.checkpoint().to_string();
                walk = Models::resume_under(&input, &assumed.list, text.parse().unwrap());
                resumed += 1;
            }
        }
        assert_eq!(found, listing, "{input:02x?}");
        assert!(walk.next().is_none());
        assert_eq!(walk.checkpoint().as_bytes()[0], 4, "{input:02x?}");
        let mut ended = Models::resume_under(&input, &assumed.list, walk.checkpoint());
        assert!(ended.next().is_none());
        formulas += 1;
        models += all.len();
        assuming += usize::from(!assumed.is_empty());
        nothing += usize::from(assumed.to_assign(&input) == Some(0));
        stripped += usize::from(assumed.drops_clauses(&input));
        unnamed += usize::from(named_variables(&input).count_ones() < input[1].into());
    }
    println!("{formulas} formulas, {models} models, taken up again {resumed} times");
    println!("{assuming} under assumptions, {nothing} with nothing to assign");
    println!("{stripped} accepted by stripping, {unnamed} with unnamed variables");
    assert!(models > 5_000 && resumed > 1_000);
    assert!(assuming > 200 && nothing > 50 && stripped > 50 && unnamed > 100);
}

/// Clauses over six variables with exactly 50 models, as many as a page has lines.
const FULL_PAGE: [&[i8]; 3] = [&[1, 2, 3], &[-1, 4, 5, 6], &[-1, 2, 3, -4, 5]];

/// Walks a formula page by page to its end, with each line under the next serial and with the iterator's next model. Gives how many lines
/// each page has.
fn page_by_page(input: &[u8], assumed: &Assumed, first: u32) -> Vec<usize> {
    let formula = Formula::from(input);
    let mut models = formula.models_under(&assumed.list);
    let mut checkpoint = Checkpoint::start();
    let mut serial = first;
    let mut lines = Vec::new();
    loop {
        let mut page = [0; PAGE_SIZE];
        let paged =
            norwythai::page(input, &assumed.list, &mut checkpoint, serial, &mut page).unwrap();
        for line in page.chunks(LINE_SIZE).take(paged.lines) {
            let model = models.next().unwrap().unwrap();
            let columns = model.columns(&formula, &assumed.list).to_string();
            let start = format!("{serial:>6} {columns:<48} ");
            assert!(line.starts_with(start.as_bytes()), "{input:02x?}");
            serial += 1;
        }
        lines.push(paged.lines);
        if paged.is_last() {
            break;
        }
    }
    assert_eq!(models.next(), None, "{input:02x?}");
    assert_eq!(checkpoint, models.checkpoint());
    lines
}

#[test]
fn pages_have_all_models_under_rising_serials() {
    let mut random = Random::new(4);
    let (mut formulas, mut lines) = (0, 0);
    while formulas < 300 {
        let input = some_accepted_formula(&mut random, is_accepted);
        if !(4..=10).contains(&input[1]) {
            continue;
        }
        let assumed = some_accepted(&mut random, &input);
        let first = random.between(1, 990_000) as u32;
        lines += page_by_page(&input, &assumed, first).iter().sum::<usize>();
        formulas += 1;
    }
    println!("{lines} lines");
    assert!(lines > 5_000);
}

#[test]
fn behind_a_full_page_the_last_one_is_blank() {
    let mut clauses: Vec<Vec<i8>> = FULL_PAGE.map(<[i8]>::to_vec).into();
    // Variables that no clause names make no difference.
    for (variables, first) in [(6, 1), (6, 9_990), (6, 999_900), (9, 1)] {
        let lines = page_by_page(&encode(variables, &clauses), &Assumed::default(), first);
        assert_eq!(lines, [50, 0]);
    }
    // Two more variables, which have all values where variable 9 is true: four full pages, and a blank one.
    clauses.push(vec![7, 8, 9]);
    let mut last = Assumed::default();
    last.push(9, true, 1);
    let lines = page_by_page(&encode(9, &clauses), &last, 1);
    assert_eq!(lines, [50, 50, 50, 50, 0]);
}

#[test]
fn without_assumptions_the_iterator_is_the_same() {
    let mut random = Random::new(2);
    for _ in 0..100 {
        let input = some_accepted_formula(&mut random, is_accepted);
        let mut models = Models::new(&input);
        assert!(models
            .by_ref()
            .take(20)
            .eq(Models::under(&input, &[]).take(20)));
        let from = models.checkpoint();
        assert!(Models::resume(&input, from)
            .take(20)
            .eq(Models::resume_under(&input, &[], from).take(20)));
    }
}

#[test]
fn the_iterator_has_the_checkpoint_of_each_model() {
    let mut random = Random::new(3);
    let mut compared = 0;
    for _ in 0..60 {
        let input = some_accepted_formula(&mut random, is_accepted);
        let assumed = some_accepted(&mut random, &input);
        let mut formula = reference::decode(&input).unwrap();
        let masks = formula.assume(&assumed.reference).unwrap();
        let mut walker = reference::Walker::start(&formula, masks).unwrap();
        let mut models = Models::under(&input, &assumed.list);
        assert_eq!(models.checkpoint().as_bytes(), &walker.checkpoint());
        for _ in 0..300 {
            let expected = walker.advance(96).answer;
            let found = models
                .next()
                .map_or(Answer::Ended, |model| Answer::Model(model.unwrap()));
            assert_eq!(found, answer_of(expected), "{input:02x?}");
            assert_eq!(
                models.checkpoint().as_bytes(),
                &walker.checkpoint(),
                "{input:02x?}"
            );
            compared += 1;
        }
    }
    assert!(compared == 60 * 300);
}

#[test]
fn a_refusal_is_the_only_item_of_the_iterator() {
    let unmatched = [1, 1, 2, 1, 4, 3, 1, 4, 5];
    let mut models = Models::new(&unmatched);
    assert_eq!(models.next(), Some(Err(Refusal::Unmatched { clauses: 2 })));
    assert_eq!(models.next(), None);
    assert_eq!(models.checkpoint(), Checkpoint::start());

    let foreign = Checkpoint::from_bytes([9; 50]);
    let mut models = Models::resume(&[1, 2, 5], foreign);
    assert_eq!(models.next(), Some(Err(Refusal::ForeignCheckpoint)));
    assert_eq!(models.next(), None);
    assert_eq!(models.checkpoint(), foreign);

    let twice = [Assumption::positive(2); 2];
    let mut models = Models::under(&[1, 2, 5], &twice);
    let refusal = Refusal::BadAssumption { index: 1 };
    assert_eq!(models.next(), Some(Err(refusal)));
    assert_eq!(models.next(), None);
    assert_eq!(models.checkpoint(), Checkpoint::start());
}
