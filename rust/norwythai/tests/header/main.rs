//! The C header: programs in C and C++ compile against it without a warning and find the library's answers as it says, and a
//! returned number that is ignored brings a warning.

use std::path::{Path, PathBuf};
use std::process::{Command, Output};

/// A compiler, and the options for the language that the header is read as.
type Language = (&'static str, &'static [&'static str]);

const C: [Language; 3] = [
    ("cc", &["-std=c90"]),
    ("cc", &["-std=c99"]),
    ("cc", &["-std=c11"]),
];

const CPP: Language = ("c++", &["-xc++", "-std=c++17"]);

const STRICT: [&str; 4] = ["-Wall", "-Wextra", "-Werror", "-pedantic"];

/// C, and C++ if there is a compiler for it.
fn languages() -> Vec<Language> {
    let mut languages = C.to_vec();
    if Command::new(CPP.0).arg("--version").output().is_ok() {
        languages.push(CPP);
    } else {
        println!("there is no {}: the header is tested as C only", CPP.0);
    }
    languages
}

fn package() -> &'static Path {
    Path::new(env!("CARGO_MANIFEST_DIR"))
}

/// A file of the repository.
fn repository(name: &str) -> PathBuf {
    package().join("../..").join(name)
}

/// A program of this test.
fn source(name: &str) -> PathBuf {
    package().join("tests/header").join(name)
}

/// A place for what is compiled.
fn temporary(name: &str) -> PathBuf {
    Path::new(env!("CARGO_TARGET_TMPDIR")).join(name)
}

fn run(command: &mut Command) -> Output {
    let output = command.output();
    output.unwrap_or_else(|error| panic!("{command:?}: {error}"))
}

/// Runs a command that must succeed, and gives what it prints.
fn run_well(command: &mut Command) -> String {
    let output = run(command);
    let errors = String::from_utf8_lossy(&output.stderr);
    assert!(output.status.success(), "{command:?}: {errors}");
    String::from_utf8(output.stdout).expect("plain text")
}

/// Compiles a program, with no warning, and links it with the library.
fn compile(compiler: &str, options: &[&str], source: &Path, program: &Path) {
    run_well(
        Command::new(compiler)
            .args(options)
            .args(STRICT)
            .arg("-I")
            .arg(repository("include"))
            .arg(source)
            // The library is no source, whatever language is set for those.
            .arg("-xnone")
            .arg(env!("NORWYTHAI_LIBRARY"))
            .arg("-o")
            .arg(program),
    );
}

#[test]
fn every_function_answers_as_the_header_says() {
    for (index, (compiler, options)) in languages().into_iter().enumerate() {
        let program = temporary(&format!("acts{index}"));
        compile(compiler, options, &source("acts.c"), &program);
        run_well(&mut Command::new(program));
    }
}

#[test]
fn an_ignored_result_brings_a_warning() {
    for (compiler, options) in languages() {
        let output = run(Command::new(compiler)
            .args(options)
            .arg("-I")
            .arg(repository("include"))
            .arg("-c")
            .arg(source("ignored.c"))
            .arg("-o")
            .arg(temporary("ignored.o")));
        let text = String::from_utf8_lossy(&output.stderr);
        assert!(output.status.success(), "{compiler} {options:?}: {text}");
        let warnings = text.matches("warning: ignoring return value").count();
        assert_eq!(warnings, 10, "{compiler} {options:?}: {text}");
    }
}

#[test]
fn the_example_lists_models_in_batches() {
    let program = temporary("batches");
    let source = repository("examples/c/batches.c");
    compile("cc", &["-std=c99"], &source, &program);
    let batches = |file: PathBuf, size: &str| run(Command::new(&program).arg(file).arg(size));
    let output = batches(repository("examples/two_variables.bin"), "1");
    assert!(output.status.success());
    assert_eq!(output.stdout, b"batch 1\n01\nbatch 2\n10\n");

    let output = batches(repository("examples/unnamed.bin"), "2");
    assert!(output.status.success());
    assert_eq!(output.stdout, b"batch 1\n0-0-\n1-0-\nbatch 2\n1-1-\n");

    let output = batches(repository("examples/busiest.bin"), "2");
    assert!(output.status.success());
    assert_eq!(output.stdout, b"batch 1\n000\n100\nbatch 2\n011\n");

    let output = batches(repository("examples/unmatched.bin"), "1");
    assert!(!output.status.success());
    assert_eq!(output.stderr, b"batches: refused 10 at 3\n");

    // A text, and one that ends within a clause.
    let [text, encoded] = ["examples/velodrome.cnf", "examples/velodrome.bin"]
        .map(|f| batches(repository(f), "1000"));
    assert!(text.status.success());
    // a line for the batch, and 546 models
    assert_eq!(String::from_utf8_lossy(&text.stdout).lines().count(), 547);
    assert_eq!(text.stdout, encoded.stdout);
    let file = temporary("input.cnf");
    std::fs::write(&file, "p cnf 2 1\n1 2").unwrap();
    let output = batches(file, "2");
    assert!(!output.status.success());
    assert_eq!(output.stderr, b"batches: refused 2 at 13\n");

    // An empty file, and one with the clause (1) in very many records.
    let file = temporary("input.bin");
    std::fs::write(&file, []).unwrap();
    let output = batches(file.clone(), "2");
    assert!(!output.status.success());
    assert_eq!(output.stderr, b"batches: refused 2 at 0\n");
    let input = [&[1, 2][..], &[2, 1].repeat(50_000), &[4, 5]].concat();
    std::fs::write(&file, input).unwrap();
    let output = batches(file, "2");
    assert!(output.status.success());
    assert_eq!(output.stdout, b"batch 1\n1-\n");
}

#[test]
fn the_example_says_what_cannot_be_matched() {
    let program = temporary("unmatched");
    let source = repository("examples/c/unmatched.c");
    compile("cc", &["-std=c99"], &source, &program);
    let unmatched = |file: PathBuf| run(Command::new(&program).arg(file));
    let output = unmatched(repository("examples/unmatched.bin"));
    assert!(output.status.success());
    assert_eq!(
        output.stdout,
        b"clause 1\nclause 2\nclause 4\n3 clauses name 2 variables\ndeficiency 1\n"
    );

    // Accepted, as a whole and by stripping.
    for (example, deficiency) in [("two_variables", 0), ("athletics", 2)] {
        let output = unmatched(repository(&format!("examples/{example}.bin")));
        assert!(output.status.success());
        let printed = format!("accepted\ndeficiency {deficiency}\n");
        assert_eq!(output.stdout, printed.as_bytes());
    }

    // An empty file, one that is too long, and none.
    let file = temporary("unmatched.bin");
    for (input, error) in [
        (vec![], "refused 2 at 0"),
        (vec![1; 9_316], "the file is too long"),
    ] {
        std::fs::write(&file, input).unwrap();
        let output = unmatched(file.clone());
        assert!(!output.status.success());
        assert_eq!(output.stderr, format!("unmatched: {error}\n").as_bytes());
    }
    let output = unmatched(temporary("missing.bin"));
    assert!(!output.status.success());
    assert_eq!(output.stderr, b"unmatched: the file can't be read\n");
}
