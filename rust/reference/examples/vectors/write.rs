//! Writing vectors: what is given to an act, and what the reference answers.

use crate::pages::some_page_lines;
use crate::values::to_hex;
use norwythai_reference::{
    check, decode, deficiency, from_dimacs, judge, print, start_checkpoint, to_dimacs, walk,
    write_text, Answer, Assumption, Checkpoint, Progress, Refusal, Walker, FORMULA_BUFFER,
    LIST_BUDGET, TEXT_BUFFER,
};
use norwythai_samples::{
    some_assignment, some_assumptions, some_budget, some_checkpoint, some_crowded_input,
    some_input, some_length, some_text, with_unnamed, Random,
};

/// A longer input or printed walk takes much of a file of the corpus. Such an input is given to fewer calls, or left out if it is a crowded
/// one, and such a walk is written only for one input of so many, which is no long one itself.
const LONG: usize = 5_000;
const ONE_LONG_OF: usize = 16;

/// A listing of more models is not written.
const MOST_LISTED: usize = 32;

/// A line of an act, with the fields that follow.
pub fn line(act: &str, from: &str, fields: &str) -> String {
    format!("{{\"act\": \"{act}\", \"from\": \"{from}\", {fields}}}")
}

pub fn refusal_text(refusal: Option<Refusal>) -> String {
    match refusal {
        None => "null".to_string(),
        Some(Refusal { number, place }) => format!("[{number}, {place}]"),
    }
}

fn start_line(from: &str) -> String {
    let checkpoint = to_hex(&start_checkpoint());
    line("start", from, &format!("\"marker\": \"{checkpoint}\""))
}

fn check_line(from: &str, input: &[u8], assignment: u64) -> String {
    let found = check(input, assignment);
    let answer = match found {
        Ok(true) => "yes",
        Ok(false) => "no",
        Err(_) => "refused",
    };
    let fields = format!(
        "\"sheet\": \"{}\", \"setup\": \"{assignment:016x}\", \"refusal\": {}, \"answer\": \"{answer}\"",
        to_hex(input),
        refusal_text(found.err()),
    );
    line("check", from, &fields)
}

/// The first fields of an act on a formula with assumptions.
pub fn given_text(input: &[u8], assumptions: &[Assumption]) -> String {
    let pairs: Vec<String> = assumptions
        .iter()
        .map(|assumption| format!("[{}, {}]", assumption.variable, u8::from(assumption.value)))
        .collect();
    format!(
        "\"sheet\": \"{}\", \"fixings\": [{}]",
        to_hex(input),
        pairs.join(", ")
    )
}

fn judge_line(
    from: &str,
    input: &[u8],
    assumptions: &[Assumption],
    length: usize,
    fill: u8,
) -> String {
    let mut buffer = vec![fill; length];
    let found = judge(input, assumptions, &mut buffer);
    let (n, m) = found.map_or((0, 0), |size| (size.variables, size.clauses));
    let fields = format!(
        "{}, \"slate_len\": {length}, \"slate_fill\": {fill}, \"refusal\": {}, \"n\": {n}, \"m\": {m}, \
         \"slate\": \"{}\"",
        given_text(input, assumptions),
        refusal_text(found.err()),
        to_hex(&buffer),
    );
    line("judge", from, &fields)
}

fn deficiency_line(from: &str, input: &[u8]) -> String {
    let found = deficiency(input);
    let fields = format!(
        "\"sheet\": \"{}\", \"refusal\": {}, \"shortfall\": {}",
        to_hex(input),
        refusal_text(found.err()),
        found.unwrap_or(0),
    );
    line("shortfall", from, &fields)
}

/// The word for an answer, and its model, else 0.
fn answer_parts(answer: Answer) -> (&'static str, u64) {
    match answer {
        Answer::Model(model) => ("set-up", model),
        Answer::Spent => ("spent", 0),
        Answer::Ended => ("ended", 0),
    }
}

fn walk_line(
    from: &str,
    input: &[u8],
    assumptions: &[Assumption],
    given: &Checkpoint,
    budget: u32,
) -> String {
    let found = walk(input, assumptions, given, budget);
    let ((answer, model), returned, steps, expansions) = match &found {
        Ok(walked) => (
            answer_parts(walked.progress.answer),
            &walked.checkpoint,
            walked.progress.steps,
            walked.progress.expansions,
        ),
        Err(_) => (("refused", 0), given, 0, 0),
    };
    let fields = format!(
        "{}, \"marker\": \"{}\", \"budget\": {budget}, \"answer\": \"{answer}\", \"refusal\": {}, \
         \"setup\": \"{model:016x}\", \"marker_out\": \"{}\", \"moves\": {steps}, \"reaches\": {expansions}",
        given_text(input, assumptions),
        to_hex(given),
        refusal_text(found.err()),
        to_hex(returned),
    );
    line("walk", from, &fields)
}

/// Calls with these budgets, one after the other from the start, on a formula that is accepted under the assumptions: the line, and
/// all checkpoints.
fn chain_line(
    from: &str,
    input: &[u8],
    assumptions: &[Assumption],
    budgets: &[u32],
) -> (String, Vec<Checkpoint>) {
    let mut checkpoints = vec![start_checkpoint()];
    let mut calls = Vec::new();
    for budget in budgets {
        let given = checkpoints[checkpoints.len() - 1];
        let walked = walk(input, assumptions, &given, *budget).expect("a checkpoint of this walk");
        let (answer, model) = answer_parts(walked.progress.answer);
        calls.push(format!(
            "[{budget}, \"{answer}\", \"{model:016x}\", \"{}\", {}, {}]",
            to_hex(&walked.checkpoint),
            walked.progress.steps,
            walked.progress.expansions,
        ));
        checkpoints.push(walked.checkpoint);
    }
    let fields = format!(
        "{}, \"calls\": [{}]",
        given_text(input, assumptions),
        calls.join(", ")
    );
    (line("chain", from, &fields), checkpoints)
}

/// The whole walk of a formula that is accepted under the assumptions, if it has few models.
fn listing_line(from: &str, input: &[u8], assumptions: &[Assumption]) -> Option<String> {
    let mut formula = decode(input).ok()?;
    let assumed = formula.assume(assumptions).ok()?;
    let mut walker = Walker::start(&formula, assumed).ok()?;
    let mut models = Vec::new();
    loop {
        let Progress {
            answer,
            steps,
            expansions,
        } = walker.advance(LIST_BUDGET);
        let Answer::Model(model) = answer else {
            let fields = format!(
                "{}, \"setups\": [{}], \"end\": [{steps}, {expansions}]",
                given_text(input, assumptions),
                models.join(", ")
            );
            return Some(line("listing", from, &fields));
        };
        if models.len() == MOST_LISTED {
            return None;
        }
        models.push(format!("[\"{model:016x}\", {steps}, {expansions}]"));
    }
}

fn printed_line(from: &str, input: &[u8], text: &str) -> String {
    let fields = format!(
        "\"stdin\": \"{}\", \"stdout\": \"{}\"",
        to_hex(input),
        text.replace('\n', "\\n")
    );
    line("printed", from, &fields)
}

/// An act between formulas and texts.
struct Conversion {
    act: &'static str,
    /// The field that it is given.
    given: &'static str,
    convert: fn(&[u8], &mut [u8]) -> Result<usize, Refusal>,
    /// The bytes that its buffer must have.
    least: usize,
}

const READ_TEXT: Conversion = Conversion {
    act: "read_text",
    given: "text",
    convert: from_dimacs,
    least: FORMULA_BUFFER,
};

const WRITE_TEXT: Conversion = Conversion {
    act: "write_text",
    given: "sheet",
    convert: to_dimacs,
    least: TEXT_BUFFER,
};

impl Conversion {
    fn line(&self, from: &str, bytes: &[u8], length: usize, fill: u8) -> String {
        let mut buffer = vec![fill; length];
        let found = (self.convert)(bytes, &mut buffer);
        let written = found.unwrap_or(0);
        let fields = format!(
            "\"{}\": \"{}\", \"buffer_len\": {length}, \"buffer_fill\": {fill}, \"refusal\": {}, \
             \"written\": {written}, \"output\": \"{}\"",
            self.given,
            to_hex(bytes),
            refusal_text(found.err()),
            to_hex(&buffer[..written]),
        );
        line(self.act, from, &fields)
    }

    /// With a buffer of some length.
    fn some_line(&self, from: &str, random: &mut Random, bytes: &[u8]) -> String {
        let length = some_length(random, self.least);
        self.line(from, bytes, length, random.byte())
    }
}

fn is_accepted(input: &[u8]) -> bool {
    judge(input, &[], &mut [0; 96]).is_ok()
}

/// The vectors of one input under a list of assumptions. The walks and the page are given checkpoints of their own chain and of
/// those before it, which are made under another list; then they are known, too.
fn assuming_lines(
    from: &str,
    random: &mut Random,
    input: &[u8],
    assumptions: &[Assumption],
    known: &mut Vec<Checkpoint>,
) -> Vec<String> {
    let mut lines = Vec::new();
    let calls = if input.len() > LONG { 0 } else { 2 };
    if judge(input, assumptions, &mut [0; 96]).is_ok() {
        let budgets: Vec<u32> = (0..random.below(3 * calls + 1))
            .map(|_| some_budget(random))
            .collect();
        let (chain, checkpoints) = chain_line(from, input, assumptions, &budgets);
        lines.push(chain);
        if let Some(given) = with_unnamed(random, input, &checkpoints) {
            let budget = some_budget(random);
            lines.push(walk_line(from, input, assumptions, &given, budget));
        }
        known.extend(checkpoints);
        lines.extend(listing_line(from, input, assumptions));
        let first = walk(input, assumptions, &start_checkpoint(), LIST_BUDGET);
        let first = first.expect("an accepted formula").progress.answer;
        lines.push(check_line(from, input, answer_parts(first).1));
    }
    let length = random.pick(&[0, 95, 96, 96, 96, 96, 97, 128, 255]);
    lines.push(judge_line(from, input, assumptions, length, random.byte()));
    for call in 0..=calls {
        let given = if call == 0 {
            start_checkpoint()
        } else {
            some_checkpoint(random, known)
        };
        let budget = some_budget(random);
        lines.push(walk_line(from, input, assumptions, &given, budget));
    }
    lines.extend(some_page_lines(from, random, input, assumptions, known));
    lines
}

/// The vectors of one input, but for the printed walk.
fn act_lines(from: &str, random: &mut Random, input: &[u8]) -> Vec<String> {
    let mut lines = Vec::new();
    let mut known = Vec::new();
    lines.extend(assuming_lines(from, random, input, &[], &mut known));
    let assumptions = some_assumptions(random, input);
    let assumptions: Vec<Assumption> = assumptions.into_iter().map(Into::into).collect();
    lines.extend(assuming_lines(
        from,
        random,
        input,
        &assumptions,
        &mut known,
    ));
    for _ in 0..if input.len() > LONG { 1 } else { 3 } {
        lines.push(check_line(from, input, some_assignment(random, input)));
    }
    lines.push(deficiency_line(from, input));
    lines.push(WRITE_TEXT.some_line(from, random, input));
    if let Ok(text) = write_text(input) {
        lines.push(READ_TEXT.some_line("written", random, &text));
    }
    lines
}

/// The vectors of these inputs, with a seed for what else the calls get.
pub fn vectors_of(inputs: &[Vec<u8>], seed: u64) -> Vec<String> {
    let from = "given";
    let mut random = Random::new(seed);
    let mut lines = vec![start_line(from)];
    for input in inputs {
        lines.extend(act_lines(from, &mut random, input));
        lines.push(printed_line(from, input, &print(input)));
    }
    lines
}

/// The vectors of so many inputs that are generated from a seed, and the deficiencies of up to as many others, of which most are unmatched.
pub fn generated_vectors(seed: u64, count: usize) -> Vec<String> {
    let from = "random";
    let mut random = Random::new(seed);
    let mut lines = vec![start_line(from)];
    let mut long_texts = 0;
    for _ in 0..count {
        let input = some_input(&mut random, is_accepted);
        lines.extend(act_lines(from, &mut random, &input));
        let text = print(&input);
        let is_long = text.len() > LONG;
        if !is_long || (long_texts % ONE_LONG_OF == 0 && input.len() <= LONG) {
            lines.push(printed_line(from, &input, &text));
        }
        long_texts += usize::from(is_long);
        let text = some_text(&mut random);
        lines.push(READ_TEXT.some_line(from, &mut random, &text));
    }
    for _ in 0..count {
        let input = some_crowded_input(&mut random);
        if input.len() <= LONG {
            lines.push(deficiency_line(from, &input));
        }
    }
    lines
}

#[cfg(test)]
pub mod tests {
    use super::*;
    use crate::compare::{compare_line, field};
    use crate::values::{from_hex, number};
    use norwythai_samples::named_variables;

    /// The specification's example, S12.3: clauses (1, 2) and (not 1, not 2).
    pub const EXAMPLE: &[u8] = &[1, 2, 2, 1, 2, 2, 4, 3, 1, 3, 2, 4, 5];

    #[test]
    fn lines_of_the_example() {
        assert_eq!(
            check_line("edge", EXAMPLE, 2),
            "{\"act\": \"check\", \"from\": \"edge\", \"sheet\": \"01020201020204030103020405\", \
             \"setup\": \"0000000000000002\", \"refusal\": null, \"answer\": \"yes\"}"
        );
        assert_eq!(
            check_line("edge", &[1, 2, 5], 4),
            "{\"act\": \"check\", \"from\": \"edge\", \"sheet\": \"010205\", \"setup\": \"0000000000000004\", \
             \"refusal\": [12, 0], \"answer\": \"refused\"}"
        );
        let judged = judge_line("edge", EXAMPLE, &[], 97, 170);
        let slate = format!("\"slate\": \"0102{}\"", "aa".repeat(95));
        assert!(judged.contains("\"n\": 2, \"m\": 2") && judged.contains(&slate));
        let (chain, checkpoints) = chain_line("edge", EXAMPLE, &[], &[1, 96]);
        let second = format!(
            "[96, \"set-up\", \"0000000000000002\", \"01020182{}\", 1, 0]",
            "00".repeat(46)
        );
        assert!(chain.contains(&second), "{chain}");
        assert_eq!(checkpoints.len(), 3);
        assert_eq!(
            printed_line("edge", EXAMPLE, &print(EXAMPLE)),
            "{\"act\": \"printed\", \"from\": \"edge\", \"stdin\": \"01020201020204030103020405\", \
             \"stdout\": \"switches 2 rules 2\\n01 2 2\\n10 4 0\\nend 2 0\\n\"}"
        );
    }

    #[test]
    fn lines_with_assumptions() {
        let first = [Assumption::from((1, true))];
        let judged = judge_line("edge", EXAMPLE, &first, 96, 170);
        assert!(judged.contains("0405\", \"fixings\": [[1, 1]], \"slate_len\": 96"));
        let slate = format!("\"slate\": \"0002{}\"", "aa".repeat(94));
        assert!(judged.contains("\"n\": 2, \"m\": 2") && judged.contains(&slate));
        assert_eq!(
            listing_line("edge", EXAMPLE, &first).unwrap(),
            "{\"act\": \"listing\", \"from\": \"edge\", \"sheet\": \"01020201020204030103020405\", \
             \"fixings\": [[1, 1]], \"setups\": [[\"0000000000000001\", 1, 0]], \"end\": [1, 0]}"
        );
        let many = [1, 6, 2, 1, 2, 2, 2, 3, 2, 4, 2, 5, 2, 6, 4, 5];
        assert_eq!(listing_line("edge", &many, &[]), None);
    }

    #[test]
    fn lines_of_deficiencies() {
        assert_eq!(
            deficiency_line("edge", &[1, 1, 2, 1, 4, 4, 2, 1, 4, 5]),
            "{\"act\": \"shortfall\", \"from\": \"edge\", \"sheet\": \"01010201040402010405\", \
             \"refusal\": null, \"shortfall\": 2}"
        );
        assert_eq!(
            deficiency_line("edge", &[1, 1, 4]),
            "{\"act\": \"shortfall\", \"from\": \"edge\", \"sheet\": \"010104\", \"refusal\": [2, 3], \
             \"shortfall\": 0}"
        );
    }

    #[test]
    fn lines_of_texts() {
        assert_eq!(
            WRITE_TEXT.line("edge", &[1, 2, 3, 2, 4, 5], 18_636, 9),
            "{\"act\": \"write_text\", \"from\": \"edge\", \"sheet\": \"010203020405\", \"buffer_len\": 18636, \
             \"buffer_fill\": 9, \"refusal\": null, \"written\": 15, \"output\": \"7020636e66203220310a2d3220300a\"}"
        );
        assert_eq!(
            READ_TEXT.line("edge", b"p cnf 2 1\n-2", 9_315, 9),
            "{\"act\": \"read_text\", \"from\": \"edge\", \"text\": \"7020636e66203220310a2d32\", \"buffer_len\": 9315, \
             \"buffer_fill\": 9, \"refusal\": [2, 12], \"written\": 0, \"output\": \"\"}"
        );
    }

    /// The lines that have all these words.
    pub fn count_with(lines: &[String], words: &[&str]) -> usize {
        let has_all = |line: &&String| words.iter().all(|word| line.contains(word));
        lines.iter().filter(has_all).count()
    }

    #[test]
    fn a_refused_walk_gives_its_checkpoint_back() {
        let mut foreign = start_checkpoint();
        foreign[0] = 9;
        let text = to_hex(&foreign);
        let line = walk_line("edge", EXAMPLE, &[], &foreign, 7);
        assert!(line.contains(&format!(
            "\"marker\": \"{text}\", \"budget\": 7, \"answer\": \"refused\", \"refusal\": [11, 0], \
             \"setup\": \"0000000000000000\", \"marker_out\": \"{text}\", \"moves\": 0, \"reaches\": 0"
        )));
    }

    #[test]
    fn what_is_written_is_read_again() {
        let lines = generated_vectors(1, 60);
        for line in &lines {
            assert_eq!(compare_line(line), Ok(()), "{line}");
        }
        for act in [
            "start",
            "check",
            "judge",
            "walk",
            "chain",
            "listing",
            "printed",
            "read_text",
            "write_text",
            "page",
            "shortfall",
        ] {
            let start = format!("{{\"act\": \"{act}\"");
            assert!(lines.iter().any(|line| line.starts_with(&start)), "{act}");
        }
    }

    #[test]
    fn assumptions_of_all_kinds_are_written() {
        let lines = generated_vectors(1, 300);
        let count = |words: &[&str]| count_with(&lines, words);
        for act in ["judge", "walk"].map(|act| format!("\"act\": \"{act}\"")) {
            for refusal in ["[7, ", "[10, ", "[16, 0]", "[16, 1]", "[16, 2]"] {
                let refusal = format!("\"refusal\": {refusal}");
                let seen = count(&[&act, "\"fixings\": [[", &refusal]);
                assert!(seen > 0, "{act} {refusal}");
            }
        }
        let walk = ["\"act\": \"walk\"", "\"fixings\": [["];
        let wanted = [
            // a foreign checkpoint, and a checkpoint from within the walk
            [walk[0], walk[1], "\"refusal\": [11, "],
            [walk[0], walk[1], "\"marker_out\": \"0201"],
            // nothing is left to assign: the model, behind it, and a whole walk
            [
                walk[0],
                "\"answer\": \"set-up\"",
                "\"marker_out\": \"010000",
            ],
            [walk[0], "\"marker\": \"010000", "\"answer\": \"ended\""],
            ["\"act\": \"listing\"", ", 0, 0]], ", "\"end\": [0, 0]"],
        ];
        for words in wanted {
            assert!(count(&words) > 0, "{words:?}");
        }
    }

    #[test]
    fn unnamed_variables_are_written() {
        let lines = generated_vectors(1, 300);
        let count = |words: &[&str]| count_with(&lines, words);
        let wanted = [
            // dashes before and behind digits, and alone
            ["\"act\": \"printed\"", "-0", "0-"],
            ["\"act\": \"printed\"", "\\n-", " 0 0\\nend 0 0\\n"],
            ["\"act\": \"page\"", "-1", "0-"],
            ["\"act\": \"page\"", "\"fixings\": [[", "-0"],
            // nothing is to be assigned without assumptions: the model, behind it, and a whole walk
            [
                "\"act\": \"walk\"",
                "\"fixings\": [], ",
                "\"answer\": \"set-up\", \"refusal\": null, \"setup\": \"0000000000000000\", \"marker_out\": \"010000",
            ],
            [
                "\"act\": \"walk\"",
                "\"fixings\": [], \"marker\": \"010000",
                "\"answer\": \"ended\"",
            ],
            [
                "\"act\": \"listing\"",
                "\"fixings\": [], ",
                "\"end\": [0, 0]",
            ],
        ];
        for words in wanted {
            assert!(count(&words) > 0, "{words:?}");
        }
        // Checkpoints whose last variable no clause names, and assignments that are models but are not listed.
        let (mut foreign, mut unlisted) = (0, 0);
        for line in &lines {
            let bytes = |name| from_hex(field(line, name).unwrap()).unwrap();
            if line.contains("\"refusal\": [11, ") && line.contains("\"act\": \"walk\"") {
                let (input, given) = (bytes("sheet"), bytes("marker"));
                let (length, named) = (usize::from(given[1]), named_variables(&input));
                let last = given[1 + length.clamp(1, 48)] & 127;
                let is_unnamed = (1..=input[1]).contains(&last) && named >> (last - 1) & 1 == 0;
                foreign += usize::from(is_unnamed && length <= 48);
            }
            if line.contains("\"answer\": \"yes\"") {
                let assignment = u64::from_str_radix(field(line, "setup").unwrap(), 16).unwrap();
                unlisted += usize::from(assignment & !named_variables(&bytes("sheet")) != 0);
            }
        }
        assert!(foreign > 20 && unlisted > 20, "{foreign} {unlisted}");
    }

    #[test]
    fn formulas_that_strip_down_are_written() {
        // Judged without assumptions, and under some.
        let (mut wholly, mut in_part) = ([0; 2], [0; 2]);
        let lines = generated_vectors(1, 600);
        for line in lines.iter().filter(|l| l.contains("\"act\": \"judge\"")) {
            let clauses: usize = number(field(line, "m").unwrap()).unwrap();
            let slate = from_hex(field(line, "slate").unwrap()).unwrap();
            let row = &slate[..clauses];
            if row.iter().any(|byte| *byte > 128) {
                let left = row.iter().any(|byte| (1..=48).contains(byte));
                let seen = if left { &mut in_part } else { &mut wholly };
                seen[usize::from(field(line, "fixings") != Ok("[]"))] += 1;
            }
        }
        for seen in wholly.into_iter().chain(in_part) {
            assert!(seen >= 3, "{wholly:?} {in_part:?}");
        }
    }

    #[test]
    fn deficiencies_of_all_kinds_are_written() {
        // By number of the refusal, at 0 the readable inputs; and of these the deficiencies above 0, above 20 and at 0.
        let mut refusals = [0; 10];
        let (mut above, mut many, mut none) = (0, 0, 0);
        let lines = generated_vectors(1, 300);
        let lines = lines.iter().filter(|l| l.contains("\"shortfall\": "));
        for line in lines {
            let input = from_hex(field(line, "sheet").unwrap()).unwrap();
            let found = deficiency(&input);
            refusals[found.map_or_else(|refusal| usize::from(refusal.number), |_| 0)] += 1;
            above += usize::from(found.is_ok_and(|d| d > 0));
            many += usize::from(found.is_ok_and(|d| d > 20));
            none += usize::from(found == Ok(0));
        }
        let seen = [refusals[0], above, many, none];
        assert!(seen.into_iter().min() > Some(50), "{seen:?}");
        assert!(refusals[2..].iter().all(|seen| *seen > 0), "{refusals:?}");
    }

    #[test]
    fn a_wrong_answer_is_found() {
        let right = check_line("edge", EXAMPLE, 2);
        assert!(compare_line(&right.replace("yes", "no")).is_err());
        let right = walk_line("edge", EXAMPLE, &[], &start_checkpoint(), 1);
        assert!(compare_line(&right.replace("\"moves\": 1", "\"moves\": 2")).is_err());
        let right = listing_line("edge", EXAMPLE, &[]).unwrap();
        assert_eq!(compare_line(&right), Ok(()));
        for wrong in ["[[1, 1]]", "[[1, 2]]", "[[1, 0, 0]]"] {
            assert!(
                compare_line(&right.replace("[]", wrong)).is_err(),
                "{wrong}"
            );
        }
        assert!(compare_line(&right.replace("\"end\": [2, 0]", "\"end\": [1, 0]")).is_err());
        let right = READ_TEXT.line("edge", b"p cnf 2 0", 9_315, 0);
        assert_eq!(compare_line(&right), Ok(()));
        assert!(compare_line(&right.replace("010205", "010204")).is_err());
        assert!(compare_line(&right.replace("null", "[15, 8]")).is_err());
        let right = deficiency_line("edge", &[1, 1, 4, 5]);
        assert_eq!(compare_line(&right), Ok(()));
        assert!(compare_line(&right.replace("\"shortfall\": 1", "\"shortfall\": 0")).is_err());
        assert!(compare_line(&right.replace("null", "[2, 4]")).is_err());
        let right = deficiency_line("edge", &[1, 1, 4]);
        assert_eq!(compare_line(&right), Ok(()));
        assert!(compare_line(&right.replace("\"shortfall\": 0", "\"shortfall\": 1")).is_err());
        assert!(compare_line(&right.replace("[2, 3]", "[2, 2]")).is_err());
        assert!(compare_line(&right.replace("[2, 3]", "null")).is_err());
    }
}
