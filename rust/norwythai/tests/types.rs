//! The crate's own types: texts, errors and the builder.

use norwythai::{
    check, from_dimacs, judge, to_dimacs, Answer, Assignment, Assumption, BuildError, Checkpoint,
    Formula, FormulaBuilder, JudgeError, Literal, ParseCheckpointError, Refusal, FORMULA_BUFFER,
    PAGE_SIZE, TEXT_BUFFER,
};

#[test]
fn checkpoints_are_read_from_text() {
    let mut bytes = [0; 50];
    for (i, byte) in bytes.iter_mut().enumerate() {
        *byte = 5 * i as u8 + 3;
    }
    let checkpoint = Checkpoint::from_bytes(bytes);
    let text = checkpoint.to_string();
    assert!(text.starts_with("03080d12"));
    assert_eq!(text.parse(), Ok(checkpoint));
    assert_eq!(text.to_uppercase().parse(), Ok(checkpoint));
    assert_eq!(format!("  {text}\r\n").parse(), Ok(checkpoint));
}

#[test]
fn other_texts_are_no_checkpoints() {
    let text = Checkpoint::start().to_string();
    let wrong_length = |digits| Err(ParseCheckpointError::WrongLength { digits });
    assert_eq!("".parse::<Checkpoint>(), wrong_length(0));
    assert_eq!(text[1..].parse::<Checkpoint>(), wrong_length(99));
    assert_eq!(text[2..].parse::<Checkpoint>(), wrong_length(98));
    assert_eq!(format!("{text}0").parse::<Checkpoint>(), wrong_length(101));
    assert_eq!(text.repeat(50).parse::<Checkpoint>(), wrong_length(5000));

    let not_a_digit = |at, found| Err(ParseCheckpointError::NotADigit { at, found });
    let inside = text.replacen("00", "0 ", 1);
    assert_eq!(inside.parse::<Checkpoint>(), not_a_digit(1, ' '));
    assert_eq!(
        format!("{text}g").parse::<Checkpoint>(),
        not_a_digit(100, 'g')
    );
    assert_eq!(
        format!("é{text}").parse::<Checkpoint>(),
        not_a_digit(0, 'é')
    );
    assert_eq!("+1".parse::<Checkpoint>(), not_a_digit(0, '+'));
    let error = format!("{text}g").parse::<Checkpoint>().unwrap_err();
    assert_eq!(
        error.to_string(),
        "a marker has hexadecimal digits only, but after 100 of them comes 'g'"
    );
}

#[test]
fn refusals_have_numbers_places_and_sentences() {
    let mut sentences = Vec::new();
    for number in 1..=18 {
        let at_zero = matches!(number, 1 | 11 | 17 | 18);
        let place = if at_zero { 0 } else { 31 };
        let refusal = Refusal::from_parts(number, place).unwrap();
        assert_eq!(
            (u64::from(refusal.number()), refusal.place()),
            (number, place)
        );
        let sentence = refusal.to_string();
        // At 12 the place is no offset in the sheet.
        let shown = place == 31 && number != 12;
        assert_eq!(sentence.contains("31"), shown, "{sentence}");
        assert!(!sentences.contains(&sentence));
        sentences.push(sentence);
    }
    assert_eq!(Refusal::from_parts(0, 0), None);
    assert_eq!(Refusal::from_parts(19, 0), None);
    for number in [1, 11, 17, 18] {
        assert_eq!(Refusal::from_parts(number, 1), None);
    }
}

#[test]
fn sentences_name_the_rules_that_cannot_be_paired() {
    let error = judge(&[1, 2, 2, 1, 4, 2, 2, 4, 3, 2, 4, 5], &[]).unwrap_err();
    assert_eq!(
        error.to_string(),
        "the rules that stripping leaves can't be paired with switches: 2 of them name only 1 altogether, fixed ones not counted (rules 2, 3)"
    );
    let error = judge(&[1, 1, 4, 5], &[]).unwrap_err();
    assert_eq!(
        error.to_string(),
        "the rules that stripping leaves can't be paired with switches: one names no switch, fixed ones not counted (rule 1)"
    );
    let error = judge(&[], &[]).unwrap_err();
    assert_eq!(error, JudgeError::Refused(Refusal::Truncated { place: 0 }));
}

#[test]
fn assumptions_are_literals() {
    let assumption = Assumption {
        variable: 7,
        value: false,
    };
    assert_eq!(Assumption::negative(7), assumption);
    assert_eq!(Assumption::from(Literal::negative(7)), assumption);
    assert_eq!(
        Assumption::positive(7),
        Assumption::from(Literal::positive(7))
    );
}

#[test]
fn every_act_of_a_formula_takes_assumptions() {
    // Of three switches, 1 or 2 is on, and 1 or 3.
    let formula = Formula::from_dimacs(b"p cnf 3 2\n1 2 0\n1 3 0\n").unwrap();
    let off = [Assumption::negative(1)];
    assert_eq!(formula.judge(&off).unwrap().matched(), [2, 3]);
    assert_eq!(
        formula.judge(&[Assumption::positive(1)]).unwrap().matched(),
        [0, 0]
    );
    let weight = formula.weigh(&off, &[1; 96]).unwrap();
    assert_eq!((weight.clauses, weight.variables), (2, 2));

    let only = Assignment::from_bits(0b110);
    let mut checkpoint = Checkpoint::start();
    let walked = formula.walk(&off, &mut checkpoint, 96).unwrap();
    assert_eq!((walked.answer, walked.steps), (Answer::Model(only), 2));
    let mut models = [0; 2];
    let mut from = Checkpoint::start();
    let listed = formula.list(&off, &mut from, &mut models).unwrap();
    assert_eq!((listed.answer, listed.written), (Answer::Ended, 1));
    assert_eq!(models, [0b110, 0]);
    let mut page = [0; PAGE_SIZE];
    let mut from = Checkpoint::start();
    let paged = formula.page(&off, &mut from, 1, &mut page).unwrap();
    assert_eq!((paged.lines, &page[6..11]), (1, &b" 011 "[..]));

    assert!(formula.models_under(&off).eq([Ok(only)]));
    assert_eq!(formula.models_under_from(&off, checkpoint).count(), 0);
    assert_eq!(formula.models_under(&[]).count(), formula.models().count());
    // No trail has an assumed variable.
    let other = [Assumption::positive(3)];
    let refusal = formula.models_under_from(&other, checkpoint).next();
    assert_eq!(refusal, Some(Err(Refusal::ForeignCheckpoint)));
}

#[test]
fn a_bad_assumption_has_its_index() {
    let formula = Formula::from(vec![1, 2, 5]);
    let (first, second) = (Assumption::positive(1), Assumption::negative(2));
    let bad = [0, 1, 2, 3, 255].map(Assumption::positive);
    for again in bad {
        let list = [first, second, again];
        let refusal = Refusal::BadAssumption { index: 2 };
        let judged = formula.judge(&list).unwrap_err();
        assert_eq!(judged, JudgeError::Refused(refusal));
        assert_eq!(formula.weigh(&list, &[1; 96]), Err(refusal));
        let mut checkpoint = Checkpoint::from_bytes([9; 50]);
        assert_eq!(formula.walk(&list, &mut checkpoint, 1), Err(refusal));
        assert_eq!(formula.list(&list, &mut checkpoint, &mut []), Err(refusal));
        let mut page = [9; PAGE_SIZE];
        let paged = formula.page(&list, &mut checkpoint, 1, &mut page);
        assert_eq!((paged, page), (Err(refusal), [9; PAGE_SIZE]));
        assert_eq!(checkpoint.as_bytes(), &[9; 50]);
        assert_eq!(
            refusal.to_string(),
            "fixed setting 2 (counted from 0) is of a switch that the kit doesn't have, or that is fixed before it"
        );
    }

    // A list may have any length, but then some variable stands in it twice.
    let largest = Formula::from(vec![1, 48, 5]);
    let all: Vec<Assumption> = (1..=48).map(Assumption::positive).collect();
    assert_eq!(largest.models_under(&all).count(), 1);
    for length in [49, 128, 129, 256, 257, 65_536, 65_537] {
        let list: Vec<Assumption> = all.iter().copied().cycle().take(length).collect();
        let refusal = largest.models_under(&list).next();
        let expected = Refusal::BadAssumption { index: 48 };
        assert_eq!(refusal, Some(Err(expected)), "{length}");
    }
}

#[test]
fn texts_are_read_and_written() {
    assert_eq!((FORMULA_BUFFER, TEXT_BUFFER), (9_315, 18_636));
    let text = b"c \xff\np cnf 48 2\r\n-48 -48 9\r\nc\r\n0\r\n0";
    let formula = Formula::from_dimacs(text).unwrap();
    assert_eq!(formula.as_bytes(), [1, 48, 3, 48, 2, 9, 4, 4, 5]);
    let written = formula.to_dimacs().unwrap();
    assert_eq!(written, "p cnf 48 2\n-48 9 0\n0\n");
    assert_eq!(Formula::from_dimacs(written.as_bytes()), Ok(formula));

    // The longest text that is written.
    let mut builder = FormulaBuilder::new(48).unwrap();
    let literals: Vec<Literal> = (1..=48).map(Literal::negative).collect();
    for _ in 0..96 {
        builder.clause(&literals).unwrap();
    }
    let fullest = builder.build();
    let longest = fullest.to_dimacs().unwrap();
    assert_eq!(longest.len(), 17_772);
    assert_eq!(Formula::from_dimacs(longest.as_bytes()), Ok(fullest));
}

#[test]
fn refusals_of_texts_say_where() {
    let refused = |text: &str| from_dimacs(text.as_bytes()).unwrap_err().to_string();
    assert_eq!(
        refused("\np cnf 2 1\n1 0"),
        "the text has no line `p cnf SWITCHES RULES` where it must begin, at byte 0 (counted from 0)"
    );
    assert_eq!(
        refused("p cnf 49 0"),
        "the number of switches is not 1 to 48, at byte 6 (counted from 0)"
    );
    assert_eq!(
        refused("p cnf 2 1\n1 two 0"),
        "the text has a word that is neither a switch, with or without a minus, nor the end of a rule, at byte 12 (counted from 0)"
    );
    assert_eq!(
        refused("p cnf 2 2\n1 2 0"),
        "the text has more or fewer rules than its p line says, at byte 8 (counted from 0)"
    );
    assert_eq!(
        refused("p cnf 2 1\n1 2"),
        "the sheet is cut short: its 13 bytes stop before the end of the sheet or of a rule"
    );
    let refusal = to_dimacs(&[1, 2, 2, 3, 4, 5]).unwrap_err();
    assert_eq!(refusal, Refusal::NoSuchVariable { place: 2 });
}

#[test]
fn the_builder_writes_what_can_be_read() {
    let mut builder = FormulaBuilder::new(48).unwrap();
    let literals: Vec<Literal> = (1..=48)
        .map(|v| {
            if v % 2 == 0 {
                Literal::positive(v)
            } else {
                Literal::negative(v)
            }
        })
        .collect();
    for _ in 0..96 {
        builder.clause(&literals).unwrap();
    }
    // No input without repeats is longer.
    let fullest = builder.build();
    assert_eq!(fullest.as_bytes().len(), 9315);
    assert_eq!(fullest.check(Assignment::from_bits(1 << 1)), Ok(true));
    let odd = 0x5555_5555_5555;
    assert_eq!(fullest.check(Assignment::from_bits(odd)), Ok(false));
    assert_eq!(builder.clause(&[]).unwrap_err(), BuildError::TooManyClauses);
    assert_eq!(builder.build(), fullest);
}

#[test]
fn a_literal_that_comes_again_is_written_once() {
    let (first, second) = (Literal::negative(2), Literal::positive(1));
    let build = |literals: &[Literal]| {
        let mut builder = FormulaBuilder::new(2).unwrap();
        builder.clause(literals).unwrap().build()
    };
    let once = build(&[first, second]);
    assert_eq!(once.as_bytes(), [1, 2, 3, 2, 2, 1, 4, 5]);
    assert_eq!(build(&[first, first, second]), once);
    assert_eq!(build(&[first, second, first, second, first]), once);
    assert_eq!(build(&[first, second].repeat(10_000)), once);
}

#[test]
fn a_literal_that_comes_again_is_read_and_counts_once() {
    let once = Formula::from(vec![1, 2, 3, 2, 2, 1, 4, 5]);
    let again = Formula::from(vec![1, 2, 3, 2, 3, 2, 2, 1, 3, 2, 4, 5]);
    assert_eq!(again.judge(&[]), once.judge(&[]));
    assert_eq!(again.check(Assignment::from_bits(0b10)), Ok(false));
    assert_eq!(again.check(Assignment::from_bits(0b11)), Ok(true));
    assert!(again.models().eq(once.models()));

    // There is no longest input.
    let long = [&[1, 2][..], &[2, 1].repeat(50_000), &[4, 5]].concat();
    assert_eq!(check(&long, Assignment::from_bits(0b01)), Ok(true));
    let both_ways = [&[1, 2][..], &[2, 1].repeat(50_000), &[3, 1, 4, 5]].concat();
    let refusal = check(&both_ways, Assignment::default()).unwrap_err();
    assert_eq!(refusal, Refusal::ComplementaryLiteral { place: 100_002 });
    assert_eq!(
        refusal.to_string(),
        "a rule names a switch both as on and as off, at byte 100002 (counted from 0)"
    );
}

#[test]
fn the_builder_refuses_what_cannot_be_read() {
    for variables in [0, 49, 255] {
        let error = FormulaBuilder::new(variables).unwrap_err();
        assert_eq!(error, BuildError::BadVariableCount { variables });
        let refused = check(&[1, variables, 5], Assignment::default());
        assert_eq!(refused, Err(Refusal::BadVariableCount { place: 0 }));
    }
    let mut builder = FormulaBuilder::new(2).unwrap();
    for variable in [0, 3, 255] {
        let error = builder.clause(&[Literal::positive(1), Literal::negative(variable)]);
        assert_eq!(
            error.unwrap_err(),
            BuildError::NoSuchVariable {
                clause: 0,
                variable
            }
        );
    }
    builder.clause(&[Literal::positive(1)]).unwrap();
    let (on, off) = (Literal::positive(2), Literal::negative(2));
    for literals in [&[on, off][..], &[off, on], &[off, off, on]] {
        assert_eq!(
            builder.clause(literals).unwrap_err(),
            BuildError::ComplementaryLiteral {
                clause: 1,
                variable: 2
            }
        );
    }
    assert_eq!(builder.build(), Formula::from(vec![1, 2, 2, 1, 4, 5]));
}

#[test]
fn errors_of_the_builder_name_clause_and_variable() {
    let error = FormulaBuilder::new(49).unwrap_err();
    assert_eq!(error.to_string(), "a formula has 1 to 48 variables, not 49");
    let mut builder = FormulaBuilder::new(2).unwrap();
    let error = builder.clause(&[Literal::negative(3)]).unwrap_err();
    assert_eq!(
        error.to_string(),
        "clause 1 names variable 3, which the formula doesn't have"
    );
    builder.clause(&[Literal::positive(1)]).unwrap();
    let error = builder.clause(&[Literal::positive(1), Literal::negative(1)]);
    assert_eq!(
        error.unwrap_err().to_string(),
        "clause 2 names variable 1 both ways"
    );
    for _ in 1..96 {
        builder.clause(&[]).unwrap();
    }
    assert_eq!(
        builder.clause(&[]).unwrap_err().to_string(),
        "a formula has at most 96 clauses"
    );
}

#[test]
fn assignments_have_no_other_variables() {
    let all = Assignment::from_bits(u64::MAX);
    assert!(all.is_true(1) && all.is_true(64));
    assert!(!all.is_true(0) && !all.is_true(65) && !all.is_true(255));
}
