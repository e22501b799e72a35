//! The cases at the edges, and a trial of all assignments.

use norwythai_reference::{
    check, decode, judge, list, print, start_checkpoint, walk, Answer, Assumed, Refusal, Size,
    Walker, LIST_BUDGET,
};
use norwythai_samples::{encode, listed_models};

/// The specification's example, S12.3: clauses (1, 2) and (not 1, not 2).
const EXAMPLE: &[u8] = &[1, 2, 2, 1, 2, 2, 4, 3, 1, 3, 2, 4, 5];

fn refusal(number: u8, place: usize) -> Refusal {
    Refusal { number, place }
}

#[test]
fn the_example_is_matched_and_printed() {
    let mut buffer = [170; 96];
    let size = Size {
        variables: 2,
        clauses: 2,
    };
    assert_eq!(judge(EXAMPLE, &[], &mut buffer), Ok(size));
    assert_eq!(buffer[..3], [1, 2, 170]);
    assert!(buffer[3..].iter().all(|byte| *byte == 170));
    assert_eq!(
        print(EXAMPLE),
        "switches 2 rules 2\n01 2 2\n10 4 0\nend 2 0\n"
    );
}

#[test]
fn walks_without_trials() {
    assert_eq!(
        print(&encode(3, &[vec![1, 2], vec![1, 3], vec![2, 3]])),
        "switches 3 rules 3\n110 3 0\n101 6 0\n011 4 0\n111 2 0\nend 3 0\n"
    );
    assert_eq!(
        print(&encode(2, &[vec![1, 2], vec![1, -2]])),
        "switches 2 rules 2\n10 2 0\n11 4 0\nend 2 0\n"
    );
    assert_eq!(print(&[1, 2, 5]), "switches 2 rules 0\n-- 0 0\nend 0 0\n");
}

#[test]
fn refusals_of_reading() {
    let cases: [(&[u8], Refusal); 5] = [
        (&[], refusal(2, 0)),
        (&[1, 2, 2, 1, 3, 1, 4, 5], refusal(7, 4)),
        (&[1, 1, 2, 1, 5], refusal(4, 4)),
        (&[1, 1, 5, 0], refusal(9, 3)),
        (&[1, 0x31, 5], refusal(5, 0)),
    ];
    for (input, expected) in cases {
        assert_eq!(decode(input).unwrap_err(), expected, "{input:?}");
        assert_eq!(check(input, !0), Err(expected), "{input:?}");
        assert_eq!(judge(input, &[], &mut [0; 96]), Err(expected), "{input:?}");
        let walked = walk(input, &[], &[9; 50], 1);
        assert_eq!(walked, Err(expected), "{input:?}");
    }
    assert_eq!(decode(&[1, 0x30, 5]).unwrap().variables(), 48);
}

#[test]
fn a_literal_counts_once() {
    // Clauses as they are written, and the same without repeats.
    let cases: [(&[i8], &[i8]); 5] = [
        (&[1, 1], &[1]),
        (&[-1, -1], &[-1]),
        (&[1, 2, 1], &[1, 2]),
        (&[-2, 1, -2, 1, 1], &[-2, 1]),
        (&[-1; 50], &[-1]),
    ];
    for (written, counted) in cases {
        let [written, counted] = [written, counted].map(|clause| encode(2, &[clause.to_vec()]));
        assert_eq!(
            decode(&written).unwrap().clauses(),
            decode(&counted).unwrap().clauses()
        );
        assert_eq!(print(&written), print(&counted));
    }
    // In two clauses it counts in both.
    assert_eq!(
        judge(&encode(1, &[vec![1, 1], vec![-1]]), &[], &mut [0; 96]),
        Err(refusal(10, 2))
    );
}

#[test]
fn refusals_among_repeats() {
    let behind_96 = |end: &[u8]| [&[1, 1], &[4; 96][..], end].concat();
    let cases: [(&[u8], Refusal); 11] = [
        // both ways: at the record that has the other sign
        (&[1, 2, 2, 1, 2, 1, 3, 1, 4, 5], refusal(7, 6)),
        (&[1, 2, 3, 1, 3, 1, 2, 2, 2, 1, 2, 1], refusal(7, 8)),
        // a number that no variable has
        (&[1, 2, 2, 1, 2, 1, 2, 0], refusal(6, 6)),
        (&[1, 2, 3, 3, 3, 3, 4, 5], refusal(6, 2)),
        // the end within a clause
        (&[1, 1, 2, 1, 2, 1, 5], refusal(4, 6)),
        // cut behind a repeat and within one
        (&[1, 1, 2, 1, 2, 1], refusal(2, 6)),
        (&[1, 1, 2, 1, 2], refusal(2, 5)),
        // behind 96 clauses
        (&behind_96(&[2, 1, 2, 1, 4, 5]), refusal(8, 102)),
        (&behind_96(&[2, 1, 2, 1, 3, 1, 4, 5]), refusal(7, 102)),
        (&behind_96(&[2, 1, 2, 1, 2, 2, 4, 5]), refusal(6, 102)),
        (&behind_96(&[2, 1, 2, 1, 5]), refusal(4, 102)),
    ];
    for (input, expected) in cases {
        assert_eq!(decode(input).unwrap_err(), expected, "{input:?}");
    }
}

#[test]
fn an_input_may_have_any_length() {
    // The most without repeats: 96 clauses that name every variable.
    let wide: Vec<i8> = (1..=48).collect();
    let fullest = encode(48, &vec![wide; 96]);
    assert_eq!(fullest.len(), 9315);
    assert!(decode(&fullest).is_ok());
    for length in [9_316, 16_386, 2_000_000] {
        let input = encode(2, &[vec![1; (length - 4) / 2]]);
        assert_eq!(input.len(), length);
        assert_eq!(check(&input, 1), Ok(true));
        assert_eq!(check(&input, 2), Ok(false));
    }
}

#[test]
fn print_takes_16_384_bytes_as_the_whole() {
    let text = "switches 2 rules 1\n1- 1 0\nend 1 0\n";
    let mut input = encode(2, &[vec![1; 8190]]);
    assert_eq!(input.len(), 16_384);
    assert_eq!(print(&input), text);
    input.push(9);
    assert_eq!(print(&input), text);
    assert_eq!(decode(&input).unwrap_err(), refusal(9, 16_384));
    assert_eq!(print(&encode(2, &[vec![1; 8191]])), "refused 2 16384\n");
}

#[test]
fn formulas_that_are_not_accepted_have_a_violator() {
    let mut buffer = [170; 96];
    assert_eq!(judge(&[1, 1, 4, 5], &[], &mut buffer), Err(refusal(10, 1)));
    assert_eq!(buffer[..2], [1, 170]);
    let both = encode(1, &[vec![1], vec![-1]]);
    assert_eq!(judge(&both, &[], &mut buffer), Err(refusal(10, 2)));
    assert_eq!(buffer[..3], [1, 1, 170]);
    // The checkpoint is tested only once the formula is accepted.
    assert_eq!(walk(&both, &[], &[9; 50], 0), Err(refusal(10, 2)));
    assert_eq!(check(&both, 1), Ok(false));
}

#[test]
fn ninety_six_clauses_and_one_more() {
    let most = encode(1, &vec![vec![1]; 96]);
    assert_eq!(check(&most, 1), Ok(true));
    assert_eq!(check(&most, 0), Ok(false));
    let more = encode(1, &vec![vec![1]; 97]);
    assert_eq!(check(&more, 1), Err(refusal(8, 292)));
}

#[test]
fn buffers_of_95_and_96_bytes() {
    let mut buffer = [170; 95];
    assert_eq!(judge(EXAMPLE, &[], &mut buffer), Err(refusal(1, 0)));
    // A short buffer is refused before anything is read.
    assert_eq!(judge(&[], &[], &mut buffer), Err(refusal(1, 0)));
    assert_eq!(buffer, [170; 95]);
    assert!(judge(EXAMPLE, &[], &mut [0; 96]).is_ok());
}

#[test]
fn stray_variables() {
    assert_eq!(check(&[1, 2, 5], 3), Ok(true));
    assert_eq!(check(&[1, 2, 5], 4), Err(refusal(12, 0)));
}

#[test]
fn budget_zero_from_the_start_is_spent() {
    let walked = walk(EXAMPLE, &[], &start_checkpoint(), 0).unwrap();
    assert_eq!(walked.progress.answer, Answer::Spent);
    assert_eq!((walked.progress.steps, walked.progress.expansions), (0, 0));
    assert_eq!(walked.checkpoint, start_checkpoint());
}

#[test]
fn the_end_comes_with_the_last_undo() {
    let mut checkpoint = start_checkpoint();
    let mut seen = Vec::new();
    for _ in 0..9 {
        let walked = walk(EXAMPLE, &[], &checkpoint, 1).unwrap();
        checkpoint = walked.checkpoint;
        seen.push((walked.progress.answer, checkpoint[..4].to_vec()));
    }
    let expected = [
        (Answer::Spent, vec![1, 1, 1, 0]),
        (Answer::Model(2), vec![1, 2, 1, 130]),
        (Answer::Spent, vec![3, 1, 1, 0]),
        (Answer::Spent, vec![2, 0, 0, 0]),
        (Answer::Spent, vec![1, 1, 129, 0]),
        (Answer::Model(1), vec![1, 2, 129, 2]),
        (Answer::Spent, vec![2, 1, 129, 0]),
        (Answer::Ended, vec![4, 0, 0, 0]),
        (Answer::Ended, vec![4, 0, 0, 0]),
    ];
    assert_eq!(seen, expected);
    let again = walk(EXAMPLE, &[], &checkpoint, 0).unwrap();
    assert_eq!(again.progress.answer, Answer::Ended);
}

#[test]
fn checkpoints_that_the_walk_never_has() {
    let mut last_byte = start_checkpoint();
    last_byte[49] = 1;
    assert_eq!(walk(EXAMPLE, &[], &last_byte, 5), Err(refusal(11, 0)));
    // By mode, length and the first two bytes of the trail.
    let cases: [[u8; 4]; 12] = [
        [0, 1, 1, 0],
        [1, 0, 0, 0],
        [1, 1, 2, 0],   // another variable
        [1, 1, 0, 0],   // no variable
        [1, 2, 1, 2],   // a closed value
        [1, 1, 1, 130], // a byte past the length
        [2, 1, 1, 0],   // false is closed there
        [2, 2, 1, 130], // no variable is left to undo
        [3, 0, 0, 0],   // that is the end
        [3, 1, 129, 0], // true is closed there
        [4, 2, 129, 2], // the end with a trail
        [5, 0, 0, 0],
    ];
    for case in cases {
        let mut checkpoint = start_checkpoint();
        checkpoint[..4].copy_from_slice(&case);
        assert_eq!(
            walk(EXAMPLE, &[], &checkpoint, 5),
            Err(refusal(11, 0)),
            "{case:?}"
        );
    }
}

#[test]
fn list_gives_every_model_once() {
    let formulas = [
        encode(
            4,
            &[vec![1, 2, 3], vec![-1, -2], vec![2, -3, 4], vec![-4, 1]],
        ),
        encode(
            5,
            &[
                vec![1, 2],
                vec![-2, 3],
                vec![-3, 1],
                vec![4, -5],
                vec![-4, 5],
            ],
        ),
        encode(
            6,
            &[vec![1, -2, 3], vec![-1, 2, -3], vec![4, 5], vec![-5, -4]],
        ),
    ];
    for input in formulas {
        let formula = decode(&input).unwrap();
        let mut models = [0; 64];
        let listed = list(&input, &[], &start_checkpoint(), &mut models).unwrap();
        assert_eq!(listed.answer, Answer::Ended);
        let mut found = models[..listed.written].to_vec();
        found.sort();
        let all = listed_models(&input, &[], |assignment| formula.is_model(assignment));
        assert_eq!(found, all);
        assert!(!all.is_empty());
    }
}

#[test]
fn an_empty_list_makes_no_step() {
    let listed = list(EXAMPLE, &[], &start_checkpoint(), &mut []).unwrap();
    assert_eq!((listed.answer, listed.written), (Answer::Spent, 0));
    assert_eq!(listed.checkpoint, start_checkpoint());
    let mut ended = start_checkpoint();
    ended[0] = 4;
    let listed = list(EXAMPLE, &[], &ended, &mut []).unwrap();
    assert_eq!((listed.answer, listed.written), (Answer::Ended, 0));
}

#[test]
fn a_walker_goes_on_where_its_checkpoint_says() {
    // A ring of both signs: every choice near the root needs trials.
    let clauses: Vec<Vec<i8>> = (0..12)
        .map(|i| vec![i + 1, -((i + 1) % 12 + 1), (i + 4) % 12 + 1])
        .collect();
    let input = encode(12, &clauses);
    let formula = decode(&input).unwrap();
    let mut walker = Walker::start(&formula, Assumed::default()).unwrap();
    let mut expansions = 0;
    loop {
        let checkpoint = walker.checkpoint();
        let progress = walker.advance(LIST_BUDGET);
        let walked = walk(&input, &[], &checkpoint, LIST_BUDGET).unwrap();
        assert_eq!(walked.progress, progress);
        assert_eq!(walked.checkpoint, walker.checkpoint());
        expansions += progress.expansions;
        if progress.answer == Answer::Ended {
            break;
        }
    }
    assert!(expansions > 0);
}
