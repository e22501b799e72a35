//! The waits between models, to the step.

use norwythai_reference::{
    decode, judge, print, start_checkpoint, walk, Answer, Assumption, Walker, LIST_BUDGET,
};
use norwythai_samples::{
    some_accepted_formula, some_assumptions, some_budget, Random, Stop, Waits,
};

fn is_accepted(input: &[u8]) -> bool {
    judge(input, &[], &mut [0; 96]).is_ok()
}

fn stop_of(answer: Answer) -> Stop {
    match answer {
        Answer::Model(_) => Stop::Model,
        Answer::Spent => Stop::Spent,
        Answer::Ended => Stop::Ended,
    }
}

#[test]
fn the_walker_has_the_waits_of_its_trails() {
    let mut random = Random::new(8);
    let (mut chains, mut waited, mut divided) = (0, 0, 0);
    while chains < 2_000 {
        let input = some_accepted_formula(&mut random, is_accepted);
        let list = some_assumptions(&mut random, &input);
        let list: Vec<Assumption> = list.into_iter().map(Assumption::from).collect();
        let mut formula = decode(&input).unwrap();
        let Ok(masks) = formula.assume(&list) else {
            continue;
        };
        let Ok(mut walker) = Walker::start(&formula, masks) else {
            continue;
        };
        let mut waits = Waits::default();
        for _ in 0..random.between(1, 40) {
            let budget = some_budget(&mut random).min(random.pick(&[3, 20, u32::MAX]));
            let progress = walker.advance(budget);
            let stop = stop_of(progress.answer);
            if let Some(wait) = waits.call(stop, progress.steps, &walker.checkpoint()) {
                assert_eq!(wait.steps, wait.told, "{input:02x?} {list:?}");
                waited += 1;
                divided += usize::from(wait.calls > 1);
            }
        }
        chains += 1;
    }
    println!("{chains} chains, {waited} waits, {divided} of them divided over calls");
    assert!(waited > 10_000 && divided > 1_000);
}

#[test]
fn the_print_has_them_on_its_lines() {
    let mut random = Random::new(9);
    let (mut lines, mut ends) = (0, 0);
    for _ in 0..300 {
        let input = some_accepted_formula(&mut random, is_accepted);
        let mut checkpoint = start_checkpoint();
        let mut waits = Waits::default();
        let printed = print(&input);
        for line in printed.lines().skip(1) {
            if line == "more" {
                break;
            }
            let walked = walk(&input, &[], &checkpoint, LIST_BUDGET).unwrap();
            checkpoint = walked.checkpoint;
            let progress = walked.progress;
            let wait = waits.call(stop_of(progress.answer), progress.steps, &checkpoint);
            let steps = line.split(' ').nth(1).unwrap();
            assert_eq!(steps.parse(), Ok(wait.unwrap().told), "{input:02x?}");
            lines += 1;
            ends += usize::from(line.starts_with("end "));
        }
    }
    println!("{lines} lines, {ends} of them ends");
    assert!(lines > 10_000 && ends > 50);
}
