//! Comparing the reference with vectors.

use crate::values::{from_hex, number};
use norwythai_reference::{
    check, deficiency, from_dimacs, judge, list, page, print, start_checkpoint, to_dimacs, walk,
    weigh, Answer, Assumption, Checkpoint, Paged, Refusal, Walked, Weight, CHECKPOINT_LENGTH,
    LINE_SIZE, LIST_BUDGET, PAGE_SIZE,
};
use std::collections::BTreeMap;

/// What of a vector differs, in words.
type Compared = Result<(), String>;

/// The text of a field's value: a string without its quotes, an array with its brackets, or a number or null.
pub fn field<'a>(line: &'a str, name: &str) -> Result<&'a str, String> {
    let key = format!("\"{name}\":");
    let at = line.find(&key).ok_or(format!("no field {name}"))? + key.len();
    let value = line[at..].trim_start();
    let end = match value.as_bytes().first() {
        Some(b'"') => return Ok(value[1..].split('"').next().unwrap_or("")),
        Some(b'[') => closing_bracket(value),
        _ => value.find([',', '}']),
    };
    end.map(|end| value[..end].trim())
        .ok_or(format!("field {name} has no end"))
}

/// The offset after the bracket that closes the first one.
fn closing_bracket(value: &str) -> Option<usize> {
    let mut depth = 0;
    for (at, byte) in value.bytes().enumerate() {
        match byte {
            b'[' => depth += 1,
            b']' => depth -= 1,
            _ => {}
        }
        if depth == 0 {
            return Some(at + 1);
        }
    }
    None
}

fn hex_field(line: &str, name: &str) -> Result<Vec<u8>, String> {
    from_hex(field(line, name)?)
}

fn checkpoint_of(text: &str) -> Result<Checkpoint, String> {
    from_hex(text)?
        .try_into()
        .map_err(|_| format!("a checkpoint has {CHECKPOINT_LENGTH} bytes"))
}

fn mask(text: &str) -> Result<u64, String> {
    u64::from_str_radix(text, 16).map_err(|_| format!("not hexadecimal: {text}"))
}

/// The items of an array without arrays in it; strings without their quotes.
fn all_items(text: &str) -> Vec<&str> {
    let inside = text.trim_matches(['[', ']']);
    if inside.is_empty() {
        return Vec::new();
    }
    inside
        .split(',')
        .map(|item| item.trim().trim_matches('"'))
        .collect()
}

/// As many of them as there must be.
fn items<const COUNT: usize>(text: &str) -> Result<[&str; COUNT], String> {
    all_items(text)
        .try_into()
        .map_err(|_| format!("not {COUNT} items: {text}"))
}

/// The items of each array in the array of a field.
fn rows<'a, const COUNT: usize>(
    line: &'a str,
    name: &str,
) -> Result<Vec<[&'a str; COUNT]>, String> {
    let array = field(line, name)?;
    let parts = array[1..].split('[').skip(1);
    parts
        .map(|part| items(part.split(']').next().unwrap_or("")))
        .collect()
}

/// The expected refusal, if any: null or [number, place].
fn refusal_of(line: &str) -> Result<Option<Refusal>, String> {
    let text = field(line, "refusal")?;
    if text == "null" {
        return Ok(None);
    }
    let [first, second] = items(text)?;
    Ok(Some(Refusal {
        number: number(first)?,
        place: number(second)?,
    }))
}

/// The assumptions that are given: a list of [variable, value].
fn assumptions_of(line: &str) -> Result<Vec<Assumption>, String> {
    let assumption = |[variable, value]: [&str; 2]| {
        Ok(Assumption {
            variable: number(variable)?,
            value: match value {
                "0" => false,
                "1" => true,
                _ => return Err(format!("not a value: {value}")),
            },
        })
    };
    rows(line, "fixings")?.into_iter().map(assumption).collect()
}

/// A lent buffer as it is before the call, by the name of its fields.
fn lent(line: &str, name: &str) -> Result<Vec<u8>, String> {
    let length = number(field(line, &format!("{name}_len"))?)?;
    let fill = number(field(line, &format!("{name}_fill"))?)?;
    Ok(vec![fill; length])
}

fn compare<T: PartialEq + std::fmt::Debug>(what: &str, found: T, expected: T) -> Compared {
    if found == expected {
        Ok(())
    } else {
        Err(format!("{what}: found {found:?}, expected {expected:?}"))
    }
}

fn compare_start(line: &str) -> Compared {
    let expected = checkpoint_of(field(line, "marker")?)?;
    compare("checkpoint", start_checkpoint(), expected)
}

fn compare_check(line: &str) -> Compared {
    let input = hex_field(line, "sheet")?;
    let found = check(&input, mask(field(line, "setup")?)?);
    let expected = match refusal_of(line)? {
        Some(refusal) => Err(refusal),
        None => Ok(field(line, "answer")? == "yes"),
    };
    compare("answer", found, expected)
}

fn compare_judge(line: &str) -> Compared {
    let input = hex_field(line, "sheet")?;
    let assumptions = assumptions_of(line)?;
    let mut buffer = lent(line, "slate")?;
    let found = judge(&input, &assumptions, &mut buffer).map(|size| (size.variables, size.clauses));
    let expected = match refusal_of(line)? {
        Some(refusal) => Err(refusal),
        None => Ok((number(field(line, "n")?)?, number(field(line, "m")?)?)),
    };
    compare("answer", found, expected)?;
    if let Err(Refusal { number: 10, place }) = found {
        compare_weight(&input, &assumptions, &buffer, place)?;
    }
    compare("buffer", buffer, hex_field(line, "slate")?)
}

/// weigh, with no vectors of its own, on the marks of a violator of so many clauses: they name one variable fewer.
fn compare_weight(
    input: &[u8],
    assumptions: &[Assumption],
    buffer: &[u8],
    clauses: usize,
) -> Compared {
    let expected = Weight {
        clauses,
        variables: clauses - 1,
    };
    compare("weight", weigh(input, assumptions, buffer), Ok(expected))
}

fn compare_deficiency(line: &str) -> Compared {
    let found = deficiency(&hex_field(line, "sheet")?);
    let expected = number(field(line, "shortfall")?)?;
    match refusal_of(line)? {
        Some(refusal) => {
            compare("the vector's own refusal", expected, 0)?;
            compare("answer", found, Err(refusal))
        }
        None => compare("answer", found, Ok(expected)),
    }
}

/// An expected walk answer.
fn answer_of(word: &str, model: &str) -> Result<Answer, String> {
    match word {
        "set-up" => Ok(Answer::Model(mask(model)?)),
        "spent" => Ok(Answer::Spent),
        "ended" => Ok(Answer::Ended),
        _ => Err(format!("unknown answer: {word}")),
    }
}

/// What is compared of a walk call: answer, steps, expansions, checkpoint.
type Parts = (Answer, u32, u64, Checkpoint);

fn parts(walked: Walked) -> Parts {
    let progress = walked.progress;
    (
        progress.answer,
        progress.steps,
        progress.expansions,
        walked.checkpoint,
    )
}

fn compare_walk(line: &str) -> Compared {
    let input = hex_field(line, "sheet")?;
    let assumptions = assumptions_of(line)?;
    let given = checkpoint_of(field(line, "marker")?)?;
    let budget = number(field(line, "budget")?)?;
    let found = walk(&input, &assumptions, &given, budget).map(parts);
    let returned = checkpoint_of(field(line, "marker_out")?)?;
    let expected = match refusal_of(line)? {
        Some(refusal) => {
            compare("the vector's own checkpoint", returned, given)?;
            Err(refusal)
        }
        None => Ok((
            answer_of(field(line, "answer")?, field(line, "setup")?)?,
            number(field(line, "moves")?)?,
            number(field(line, "reaches")?)?,
            returned,
        )),
    };
    compare("answer", found, expected)
}

fn unexpected(refusal: Refusal) -> String {
    format!("unexpected: {refusal:?}")
}

fn compare_chain(line: &str) -> Compared {
    let input = hex_field(line, "sheet")?;
    let assumptions = assumptions_of(line)?;
    let mut checkpoint = start_checkpoint();
    for [budget, word, model, returned, steps, expansions] in rows(line, "calls")? {
        let expected: Parts = (
            answer_of(word, model)?,
            number(steps)?,
            number(expansions)?,
            checkpoint_of(returned)?,
        );
        let found = walk(&input, &assumptions, &checkpoint, number(budget)?).map(parts);
        compare("call", found, Ok(expected))?;
        checkpoint = expected.3;
    }
    compare_list(&input, &assumptions)
}

/// A whole walk by calls of an ample budget: each brings a model, and the last one the end.
fn compare_listing(line: &str) -> Compared {
    let input = hex_field(line, "sheet")?;
    let assumptions = assumptions_of(line)?;
    let mut expected = Vec::new();
    for [model, steps, expansions] in rows(line, "setups")? {
        expected.push((
            Answer::Model(mask(model)?),
            number(steps)?,
            number(expansions)?,
        ));
    }
    let [steps, expansions] = items(field(line, "end")?)?;
    expected.push((Answer::Ended, number(steps)?, number(expansions)?));
    let mut checkpoint = start_checkpoint();
    for expected in expected {
        let walked = walk(&input, &assumptions, &checkpoint, LIST_BUDGET).map_err(unexpected)?;
        let (answer, steps, expansions, returned) = parts(walked);
        compare("call", (answer, steps, expansions), expected)?;
        checkpoint = returned;
    }
    compare_list(&input, &assumptions)
}

/// list, with no vectors of its own, against walk calls of the same budget.
fn compare_list(input: &[u8], assumptions: &[Assumption]) -> Compared {
    let mut models = [0; 20];
    let found = list(input, assumptions, &start_checkpoint(), &mut models).map_err(unexpected)?;
    let mut checkpoint = start_checkpoint();
    for i in 0..=found.written {
        let expected = if i < found.written {
            Answer::Model(models[i])
        } else if found.written < models.len() {
            Answer::Ended
        } else {
            break;
        };
        let walked = walk(input, assumptions, &checkpoint, LIST_BUDGET).map_err(unexpected)?;
        compare("list", walked.progress.answer, expected)?;
        checkpoint = walked.checkpoint;
    }
    compare("list's checkpoint", found.checkpoint, checkpoint)
}

fn compare_printed(line: &str) -> Compared {
    let input = hex_field(line, "stdin")?;
    compare(
        "text",
        print(&input),
        field(line, "stdout")?.replace("\\n", "\n"),
    )
}

/// An act that converts the bytes in a field, and writes into a lent buffer.
fn compare_conversion(
    line: &str,
    given: &str,
    convert: fn(&[u8], &mut [u8]) -> Result<usize, Refusal>,
) -> Compared {
    let before = lent(line, "buffer")?;
    let mut buffer = before.clone();
    let found = convert(&hex_field(line, given)?, &mut buffer);
    let written: usize = number(field(line, "written")?)?;
    let output = hex_field(line, "output")?;
    compare("the vector's own output", output.len(), written)?;
    let expected = match refusal_of(line)? {
        Some(refusal) => {
            compare("the vector's own count", written, 0)?;
            Err(refusal)
        }
        None => Ok(written),
    };
    compare("answer", found, expected)?;
    let mut expected_buffer = before;
    expected_buffer[..written].copy_from_slice(&output);
    compare("buffer", buffer, expected_buffer)
}

/// The page after a call that is not refused: these lines and then blank ones, over the first bytes of those that were lent.
fn page_of(lines: &[&str], before: &[u8]) -> Result<Vec<u8>, String> {
    let mut page = String::new();
    for line in lines {
        compare("the length of a line", line.len(), LINE_SIZE - 1)?;
        page += line;
        page.push('\n');
    }
    while page.len() < PAGE_SIZE {
        page += &" ".repeat(LINE_SIZE - 1);
        page.push('\n');
    }
    let behind = before
        .get(page.len()..)
        .ok_or("a page has at most 50 lines, and room for them")?;
    Ok([page.as_bytes(), behind].concat())
}

fn compare_page(line: &str) -> Compared {
    let input = hex_field(line, "sheet")?;
    let assumptions = assumptions_of(line)?;
    let given = checkpoint_of(field(line, "marker")?)?;
    let serial = number(field(line, "serial")?)?;
    let before = lent(line, "page")?;
    let mut after = before.clone();
    let found = page(&input, &assumptions, &given, serial, &mut after);

    let written = all_items(field(line, "page")?);
    let expected = Paged {
        lines: number(field(line, "lines")?)?,
        checkpoint: checkpoint_of(field(line, "marker_out")?)?,
    };
    compare("the vector's own lines", written.len(), expected.lines)?;
    match refusal_of(line)? {
        Some(refusal) => {
            let unfilled = Paged {
                lines: 0,
                checkpoint: given,
            };
            compare("the vector's own refusal", expected, unfilled)?;
            compare("answer", found, Err(refusal))?;
            compare("page", after, before)
        }
        None => {
            compare("answer", found, Ok(expected))?;
            compare("page", after, page_of(&written, &before)?)
        }
    }
}

/// Compares the reference with one vector.
pub fn compare_line(line: &str) -> Compared {
    match field(line, "act")? {
        "start" => compare_start(line),
        "check" => compare_check(line),
        "judge" => compare_judge(line),
        "walk" => compare_walk(line),
        "chain" => compare_chain(line),
        "listing" => compare_listing(line),
        "printed" => compare_printed(line),
        "read_text" => compare_conversion(line, "text", from_dimacs),
        "write_text" => compare_conversion(line, "sheet", to_dimacs),
        "page" => compare_page(line),
        "shortfall" => compare_deficiency(line),
        _ => Err("unknown act".to_string()),
    }
}

/// Compares the reference with all vectors of a text, and prints what differs and how many there are of each act. False if some
/// vector differs, or if there are none.
pub fn compare_all(text: &str) -> bool {
    // By act: vectors and differences.
    let mut counts: BTreeMap<&str, (usize, usize)> = BTreeMap::new();
    for (index, line) in text.lines().enumerate() {
        let act = field(line, "act").unwrap_or("unknown");
        let count = counts.entry(act).or_default();
        count.0 += 1;
        if let Err(difference) = compare_line(line) {
            count.1 += 1;
            println!("line {}: {act}: {difference}", index + 1);
        }
    }
    for (act, (vectors, differences)) in &counts {
        println!("{act}: {vectors} vectors, {differences} differences");
    }
    !counts.is_empty() && counts.values().all(|(_, differences)| *differences == 0)
}
