//! Violators, none of whose clauses is marked without need, and what marks weigh.

use norwythai::{
    judge, judge_into, weigh, Assumption, Formula, JudgeError, Refusal, Violator, Weight,
};

/// (1, 2) (not 2, 3) (2, not 3) (not 2, not 3) (3)
const FIVE: &[u8] = &[
    1, 3, 2, 1, 2, 2, 4, 3, 2, 2, 3, 4, 2, 2, 3, 3, 4, 3, 2, 3, 3, 4, 2, 3, 4, 5,
];

/// Formulas that are not accepted: the assumptions, the marks, and the sentence that the violator displays.
type Unmatched<'a> = (&'a [u8], &'a [Assumption], &'a [u8], &'a str);

/// Weighs by the function and by the formula's own one, which are the same.
fn weigh_both(input: &[u8], assumptions: &[Assumption], buffer: &[u8]) -> Result<Weight, Refusal> {
    let weight = weigh(input, assumptions, buffer);
    assert_eq!(Formula::from(input).weigh(assumptions, buffer), weight);
    weight
}

#[test]
fn a_violator_names_one_variable_fewer() {
    let off = [Assumption::negative(1)];
    let cases: [Unmatched; 5] = [
        (&[1, 1, 4, 5], &[], &[1], "rule 1 names no switch"),
        (
            &[1, 1, 2, 1, 4, 3, 1, 4, 5],
            &[],
            &[1, 1],
            "rules 1, 2 name 1 switch",
        ),
        // Stripping drops the first two.
        (
            &[1, 3, 2, 2, 4, 2, 2, 4, 2, 1, 4, 3, 1, 4, 5],
            &[],
            &[0, 0, 1, 1],
            "rules 3, 4 name 1 switch",
        ),
        // Nothing is left of the clause.
        (&[1, 2, 2, 1, 4, 5], &off, &[1], "rule 1 names no switch"),
        (
            FIVE,
            &off,
            &[1, 1, 1, 0, 0],
            "rules 1, 2, 3 name 2 switches",
        ),
    ];
    for (input, assumptions, marks, sentence) in cases {
        let clauses: Vec<usize> = (0..marks.len()).filter(|i| marks[*i] == 1).collect();
        let (marked, variables) = (clauses.len(), clauses.len() - 1);
        let mut buffer = [7; 96];
        let judged = judge_into(input, assumptions, &mut buffer);
        assert_eq!(judged, Err(Refusal::Unmatched { clauses: marked }));
        assert_eq!(buffer[..marks.len()], *marks);
        // What stands behind the marks plays no part.
        assert!(buffer[marks.len()..].iter().all(|byte| *byte == 7));
        let weight = weigh_both(input, assumptions, &buffer).unwrap();
        assert_eq!((weight.clauses, weight.variables), (marked, variables));

        for struck in &clauses {
            let mut others = buffer;
            others[*struck] = 0;
            let weight = weigh_both(input, assumptions, &others).unwrap();
            assert_eq!((weight.clauses, weight.variables), (variables, variables));
        }

        let violator = Violator { clauses, variables };
        let displayed = format!("{sentence}, fixed ones not counted");
        assert_eq!(violator.to_string(), displayed);
        let error = judge(input, assumptions).unwrap_err();
        assert_eq!(error.refusal(), Refusal::Unmatched { clauses: marked });
        assert_eq!(error, JudgeError::Unmatched { violator });
    }
}

#[test]
fn any_byte_but_0_is_a_mark() {
    let weighed = |assumptions: &[Assumption], marks: [u8; 5]| {
        let mut buffer = [255; 97];
        buffer[..5].copy_from_slice(&marks);
        let Weight { clauses, variables } = weigh_both(FIVE, assumptions, &buffer).unwrap();
        (clauses, variables)
    };
    assert_eq!(weighed(&[], [0; 5]), (0, 0));
    assert_eq!(weighed(&[], [1, 0, 0, 0, 0]), (1, 2));
    assert_eq!(weighed(&[], [0, 0, 0, 2, 0]), (1, 2));
    assert_eq!(weighed(&[], [0, 0, 0, 0, 255]), (1, 1));
    assert_eq!(weighed(&[], [1, 128, 3, 4, 5]), (5, 3));
    // A clause that an assumption satisfies counts as any other.
    let first = [Assumption::positive(1)];
    assert_eq!(weighed(&first, [1, 0, 0, 0, 0]), (1, 1));
    assert_eq!(weighed(&first, [1; 5]), (5, 2));
    let all = [1, 2, 3].map(Assumption::negative);
    assert_eq!(weighed(&all, [1; 5]), (5, 0));

    // The most of both.
    let clause: Vec<u8> = (1..=48).flat_map(|variable| [3, variable]).collect();
    let fullest = [&[1, 48], &[&clause[..], &[4]].concat().repeat(96)[..], &[5]].concat();
    let weight = weigh_both(&fullest, &[], &[1; 96]).unwrap();
    assert_eq!((weight.clauses, weight.variables), (96, 48));
}

#[test]
fn weigh_refuses_as_judge_but_for_unmatched_formulas() {
    let twice = [Assumption::positive(1); 2];
    let refused = |input: &[u8], assumptions: &[Assumption], length: usize| {
        let mut buffer = vec![1; length];
        let refusal = weigh_both(input, assumptions, &buffer).unwrap_err();
        let judged = judge_into(input, assumptions, &mut buffer);
        assert_eq!(judged, Err(refusal));
        refusal
    };
    for length in [0, 1, 95] {
        assert_eq!(refused(&[], &twice, length), Refusal::ShortBuffer);
        assert_eq!(refused(FIVE, &[], length), Refusal::ShortBuffer);
    }
    assert_eq!(refused(&[], &twice, 96), Refusal::Truncated { place: 0 });
    assert_eq!(
        refused(&[1, 1, 5, 5], &twice, 97),
        Refusal::TrailingByte { place: 3 }
    );
    assert_eq!(
        refused(&[1, 1, 4, 5], &twice, 96),
        Refusal::BadAssumption { index: 1 }
    );
    assert_eq!(
        judge_into(FIVE, &[], &mut [1; 96]).map_err(|r| r.number()),
        Err(10)
    );
    assert!(weigh_both(FIVE, &[], &[1; 96]).is_ok());
}
