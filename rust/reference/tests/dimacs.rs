//! DIMACS CNF text at its edges: what is read, what is refused at which place, and what is written.

use norwythai_reference::{
    decode, from_dimacs, read_text, to_dimacs, write_text, Refusal, FORMULA_BUFFER, TEXT_BUFFER,
};
use norwythai_samples::{encode, some_input, some_text, Random};

/// More than a word of the machine holds: 2^64, and one more.
const LARGE: [&str; 2] = ["18446744073709551616", "18446744073709551617"];

fn require_refused(text: &str, number: u8, place: usize) {
    let found = read_text(text.as_bytes());
    assert_eq!(found, Err(Refusal { number, place }), "{text:?}");
}

fn require_read(text: &str, variables: usize, clauses: &[&[i8]]) {
    let clauses: Vec<Vec<i8>> = clauses.iter().map(|clause| clause.to_vec()).collect();
    let found = read_text(text.as_bytes());
    assert_eq!(found, Ok(encode(variables, &clauses)), "{text:?}");
}

#[test]
fn the_first_other_line_is_the_p_line() {
    for (text, place) in [
        // none
        ("", 0),
        ("c", 1),
        ("c x\n", 4),
        ("c\nc x\nc", 7),
        // a line without words is another line
        ("\np cnf 1 0\n", 0),
        (" \t\r\np cnf 1 0\n", 0),
        ("c x\n\np cnf 1 0\n", 4),
        ("c x\n ", 4),
        // so is one that does not start with c, and a carriage return ends no line
        (" c x\np cnf 1 0\n", 0),
        ("\rc x\np cnf 1 0\n", 0),
        ("C x\np cnf 1 0\n", 0),
        ("# x\np cnf 1 0\n", 0),
        ("c x\rp cnf 1 0\r", 14),
        // four words
        ("p cnf 1", 0),
        ("p cnf 1\n0\n", 0),
        ("p\ncnf 1 0\n", 0),
        ("p cnf 1 0 0\n", 0),
        ("p cnf 1 0 c x\n", 0),
        ("c\n  p cnf 1\n", 2),
        // of this form
        ("P cnf 1 0", 0),
        ("p CNF 1 0", 0),
        ("p cnf2 1 0", 0),
        ("pp cnf 1 0", 0),
        ("p cnf +1 0", 0),
        ("p cnf 1 -0", 0),
        ("p cnf 1a 0", 0),
        ("p cnf 1\u{c}0", 0),
        ("p cnf\u{b}1 0 0", 0),
        // before the number of variables is judged
        ("p cnf 0 x", 0),
        ("p cnf 49 -1", 0),
        ("c\np cnf 0 0 0", 2),
    ] {
        require_refused(text, 13, place);
    }
    for text in [
        "p cnf 1 0",
        "p cnf 1 0\n",
        "p cnf 1 0\r\n",
        " p cnf 1 0\n",
        "\t p\tcnf \t1\t\t0\t\n",
        "\rp\rcnf\r1\r0\r",
        "p cnf 0001 000\n",
        "cnf 1 1\np cnf 1 0\n",
        "c1 2 0\nc\ncp cnf 3 3\np cnf 1 0\n",
        "p cnf 1 0\n\n \t\r\n\n",
        "p cnf 1 0\nc x",
    ] {
        require_read(text, 1, &[]);
    }
    // A comment has any bytes.
    let comment = read_text(b"c\xff\x00\x0c\x80\np cnf 1 0\n");
    assert_eq!(comment, Ok(vec![1, 1, 5]));
}

#[test]
fn the_number_of_variables_is_judged_before_the_words() {
    for (text, place) in [
        ("p cnf 0 0\n", 6),
        ("p cnf 000 0\n", 6),
        ("p cnf 49 0\n", 6),
        ("p cnf 49 1\nx 50", 6),
        ("c\n\tp cnf 49 0", 9),
    ] {
        require_refused(text, 5, place);
    }
    for large in LARGE {
        require_refused(&format!("p cnf {large} 0\n"), 5, 6);
    }
    require_read("p cnf 48 0\n", 48, &[]);
    require_read(&format!("p cnf {}48 0\n", "0".repeat(100)), 48, &[]);
}

#[test]
fn words_are_numbers_with_or_without_one_minus() {
    for word in [
        "-0", "-000", "-", "--1", "+1", "1a", "1-", "-1-", "0x1", "1.", "%", "c", "C", "p",
        "1\u{b}2", "\u{c}", "\0", "é",
    ] {
        for text in [
            format!("p cnf 2 1\n1 {word} 0\n"),
            format!("p cnf 2 1\n1\t{word}"),
            format!("p cnf 2 9\n1 {word} 3 -1 0 x"),
            format!("p cnf 2 9\n0\n {word}"),
        ] {
            require_refused(&text, 14, if text.contains("\n ") { 13 } else { 12 });
        }
    }
    let high = [&b"p cnf 2 1\n1 "[..], &[0x80], b"2 0\n"].concat();
    assert_eq!(
        read_text(&high),
        Err(Refusal {
            number: 14,
            place: 12
        })
    );
    // A minus that stands alone, and a comment that does not start its line.
    require_refused("p cnf 2 1\n- 1 0\n", 14, 10);
    require_refused("p cnf 2 0\n c x\n", 14, 11);
    require_refused("p cnf 2 0\n\rc x\n", 14, 11);
    require_refused("p cnf 2 1\n1 0 c x\n", 14, 14);
    require_read("p cnf 7 1\n-007 0001 0\n", 7, &[&[-7, 1]]);
    require_read("p cnf 2 3\n00 1 000\n0", 2, &[&[], &[1], &[]]);
    let zeros = "0".repeat(1000);
    require_read(
        &format!("p cnf 2 1\n{zeros}1 -{zeros}2 {zeros}\n"),
        2,
        &[&[1, -2]],
    );
}

#[test]
fn words_stand_anywhere_but_in_comments() {
    require_read("p cnf 2 2\r\n1 2 0\r\n-1 0\r\n", 2, &[&[1, 2], &[-1]]);
    require_read("p cnf 2 2\n1\n\n2\t0 -1\n 0", 2, &[&[1, 2], &[-1]]);
    require_read("p cnf 2 2\n1 2 0 -1 0", 2, &[&[1, 2], &[-1]]);
    require_read("p cnf 2 1\n1\nc1 2 0\ncomment\nc\n-2 0\nc", 2, &[&[1, -2]]);
    require_read("p cnf 1 1\nc p cnf 2 2\n1 0", 1, &[&[1]]);
    require_refused("p cnf 1 1\np cnf 1 1\n1 0", 14, 10);
}

#[test]
fn literals_count_once_and_not_both_ways() {
    require_read("p cnf 2 1\n1 1 -2 1 0\n", 2, &[&[1, -2]]);
    require_read("p cnf 2 2\n-2 1 -2 -02 0 1 1 0", 2, &[&[-2, 1], &[1]]);
    require_refused("p cnf 2 1\n1 -1 0\n", 7, 12);
    require_refused("p cnf 2 1\n-2 -2 1 2 x", 7, 18);
    require_refused("p cnf 2 1\n1 3 0\n", 6, 12);
    require_refused("p cnf 2 1\n-3 x", 6, 10);
    for large in LARGE {
        require_refused(&format!("p cnf 2 1\n1 {large} 0"), 6, 12);
        require_refused(&format!("p cnf 2 1\n-{large} -1 1 0"), 6, 10);
    }
}

#[test]
fn a_text_ends_between_clauses_and_has_as_many_as_it_says() {
    for (text, place) in [
        ("p cnf 2 1\n1 2", 13),
        ("p cnf 2 1\n1 2 \n", 15),
        ("p cnf 2 7\n0 1", 13),
        ("p cnf 1 1\n1\nc 0\n", 16),
    ] {
        require_refused(text, 2, place);
    }
    for (text, place) in [
        ("p cnf 2 2\n1 2 0", 8),
        ("p cnf 2 0\n1 2 0", 8),
        ("c\n p  cnf 2\t1\n", 12),
    ] {
        require_refused(text, 15, place);
    }
    for large in LARGE {
        require_refused(&format!("p cnf 2 {large}\n"), 15, 8);
        require_refused(&format!("p cnf 2 {large}\n1 0"), 15, 8);
    }
    require_read("p cnf 2 00002\n0 0", 2, &[&[], &[]]);
}

#[test]
fn texts_of_96_clauses_and_more() {
    let text = |count: usize, words: &str| format!("p cnf 1 {count}\n{}{words}", "0 ".repeat(96));
    require_read(&text(96, ""), 1, &[&[][..]; 96]);
    require_refused(&text(97, ""), 15, 8);
    require_refused(&text(96, "0"), 8, 203);
    require_refused(&text(97, "0"), 8, 203);
    require_refused(&text(10, "1 1 00 x"), 8, 207);
    // The words of a 97th clause are judged before its end.
    require_refused(&text(97, "x 0"), 14, 203);
    require_refused(&text(97, "2 0"), 6, 203);
    require_refused(&text(97, "1 -1 0"), 7, 205);
    require_refused(&text(97, "1"), 2, 204);
}

#[test]
fn a_text_is_written() {
    let written = |input: &[u8]| String::from_utf8(write_text(input).unwrap()).unwrap();
    let cases: [(&[u8], &str); 5] = [
        (
            &[1, 2, 2, 1, 2, 2, 4, 3, 1, 3, 2, 4, 5],
            "p cnf 2 2\n1 2 0\n-1 -2 0\n",
        ),
        (&[1, 2, 5], "p cnf 2 0\n"),
        (&[1, 48, 4, 4, 5], "p cnf 48 2\n0\n0\n"),
        (
            &[1, 48, 3, 48, 2, 9, 2, 10, 4, 5],
            "p cnf 48 1\n-48 9 10 0\n",
        ),
        (
            &[1, 2, 3, 2, 2, 1, 3, 2, 2, 1, 4, 2, 1, 2, 1, 4, 5],
            "p cnf 2 2\n-2 1 0\n1 0\n",
        ),
    ];
    for (input, text) in cases {
        assert_eq!(written(input), text);
    }
    let longest = encode(48, &vec![(1..=48).map(|v| -v).collect(); 96]);
    let text = written(&longest);
    assert_eq!((longest.len(), text.len()), (9_315, 17_772));
    assert_eq!(read_text(text.as_bytes()), Ok(longest));

    // Refused as everywhere, by 2 to 9.
    let many = [&[1, 1][..], &[4; 97], &[5]].concat();
    let refused: [(&[u8], u8, usize); 8] = [
        (&[1, 1], 2, 2),
        (&[1, 1, 6], 3, 2),
        (&[1, 1, 1], 4, 2),
        (&[1, 49, 5], 5, 0),
        (&[1, 2, 2, 3, 4, 5], 6, 2),
        (&[1, 2, 2, 1, 2, 1, 3, 1, 4, 5], 7, 6),
        (&many, 8, 98),
        (&[1, 1, 5, 0], 9, 3),
    ];
    for (input, number, place) in refused {
        assert_eq!(write_text(input), Err(Refusal { number, place }));
    }
}

#[test]
fn buffers_are_long_enough_or_left_alone() {
    let input = [1, 2, 2, 1, 2, 1, 4, 5];
    let text = b"p cnf 2 1\n1 0\n";
    let short = Err(Refusal {
        number: 1,
        place: 0,
    });
    assert_eq!((FORMULA_BUFFER, TEXT_BUFFER), (9_315, 18_636));
    for length in [0, 6, 9_314] {
        let mut buffer = vec![170; length];
        assert_eq!(from_dimacs(text, &mut buffer), short);
        // before anything is read
        assert_eq!(from_dimacs(b"", &mut buffer), short);
        assert_eq!(buffer, vec![170; length]);
    }
    for length in [0, 14, 17_772, 18_635] {
        let mut buffer = vec![170; length];
        assert_eq!(to_dimacs(&input, &mut buffer), short);
        assert_eq!(to_dimacs(&[], &mut buffer), short);
        assert_eq!(buffer, vec![170; length]);
    }
    let mut buffer = vec![170; 9_315];
    assert!(from_dimacs(b"p cnf 2 1\n1 2", &mut buffer).is_err());
    assert_eq!(buffer, vec![170; 9_315]);
    assert_eq!(from_dimacs(text, &mut buffer), Ok(6));
    assert_eq!(buffer[..6], [1, 2, 2, 1, 4, 5]);
    assert_eq!(buffer[6..], [170; 9_309]);
    let mut buffer = vec![170; 18_637];
    assert!(to_dimacs(&input[..7], &mut buffer).is_err());
    assert_eq!(buffer, vec![170; 18_637]);
    assert_eq!(to_dimacs(&input, &mut buffer), Ok(14));
    assert_eq!(buffer[..14], text[..]);
    assert_eq!(buffer[14..], [170; 18_623]);
}

#[test]
fn what_is_written_is_read_again() {
    let mut random = Random::new(2);
    let (mut formulas, mut texts) = (0, 0);
    for _ in 0..3_000 {
        let input = some_input(&mut random, |_| true);
        if let Ok(text) = write_text(&input) {
            let again = read_text(&text).unwrap();
            let [before, after] = [&input, &again].map(|input| decode(input).unwrap());
            assert_eq!(before.variables(), after.variables());
            assert_eq!(before.clauses(), after.clauses());
            assert!(text.len() <= 17_772 && again.len() <= input.len().min(FORMULA_BUFFER));
            assert_eq!(write_text(&again), Ok(text));
            formulas += 1;
        }
        if let Ok(formula) = read_text(&some_text(&mut random)) {
            assert_eq!(read_text(&write_text(&formula).unwrap()), Ok(formula));
            texts += 1;
        }
    }
    assert!(formulas > 1_500 && texts > 1_000, "{formulas} {texts}");
}

#[test]
fn each_example_is_encoded_from_its_text() {
    let folder = concat!(env!("CARGO_MANIFEST_DIR"), "/../../examples");
    let mut texts = 0;
    for entry in std::fs::read_dir(folder).unwrap() {
        let path = entry.unwrap().path();
        if path.extension().is_some_and(|end| end == "cnf") {
            let formula = read_text(&std::fs::read(&path).unwrap());
            let encoded = std::fs::read(path.with_extension("bin")).unwrap();
            assert_eq!(formula, Ok(encoded), "{}", path.display());
            texts += 1;
        }
    }
    assert!(texts >= 5, "{texts}");
}
