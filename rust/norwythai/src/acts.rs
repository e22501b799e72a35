//! The acts: the library's answers as types.

use crate::assignment::Assignment;
use crate::assumption::Assumption;
use crate::checkpoint::Checkpoint;
use crate::ffi::{self, Results};
use crate::limits::{FORMULA_BUFFER, MAX_CLAUSES, PAGE_LINES, TEXT_BUFFER};
use crate::refusal::Refusal;
use crate::violator::{JudgeError, Violator};

/// Whether the assignment is a model of the encoded formula, also of one that is not accepted. It need not be one that is listed
/// ([`walk`](walk#models)): variables that no clause names may be true.
///
/// ```
/// use norwythai::{check, Assignment, Refusal};
///
/// let input = [1, 2, 2, 1, 2, 2, 4, 3, 1, 3, 2, 4, 5];
/// assert_eq!(check(&input, Assignment::from_bits(0b01)), Ok(true));
/// assert_eq!(check(&input, Assignment::from_bits(0b11)), Ok(false));
/// assert_eq!(check(&input, Assignment::from_bits(0b100)), Err(Refusal::StrayVariable { place: 0 }));
/// ```
pub fn check(input: &[u8], assignment: Assignment) -> Result<bool, Refusal> {
    let results = accept(ffi::check(input, assignment.bits()))?;
    match results[ANSWER] {
        0 => Ok(true),
        1 => Ok(false),
        _ => broken(results),
    }
}

/// The numbers of variables and clauses of a formula, those that are assumed or satisfied by an assumption among them.
#[derive(Clone, Copy, Debug, PartialEq, Eq)]
pub struct Size {
    /// The number of variables.
    pub variables: u8,
    /// The number of clauses.
    pub clauses: usize,
}

/// Judge, with a lent buffer of at least 96 bytes. If the formula is accepted under the assumptions, byte i is then that of clause i,
/// counted from 0, as [`Matching::matched`] has them. If it is refused as [`Unmatched`](Refusal::Unmatched), byte i is 1 if clause i
/// belongs to the [`Violator`], else 0. As many bytes are written as there are clauses, and none at any other refusal.
///
/// ```
/// use norwythai::{judge_into, Assumption, Refusal, DROPPED};
///
/// let input = [1, 2, 2, 1, 2, 2, 4, 2, 1, 4, 5]; // (1, 2) and (1)
/// let mut buffer = [7; 96];
/// let size = judge_into(&input, &[], &mut buffer)?;
/// assert_eq!((size.variables, size.clauses), (2, 2));
/// assert_eq!(buffer[..3], [2, 1, 7]);
///
/// let size = judge_into(&input, &[Assumption::positive(2)], &mut buffer)?;
/// assert_eq!((size.variables, size.clauses), (2, 2));
/// assert_eq!(buffer[..3], [0, 1, 7]);
///
/// let input = [1, 1, 2, 1, 4, 2, 1, 4, 5]; // (1) and (1): stripping drops both
/// judge_into(&input, &[], &mut buffer)?;
/// assert_eq!(buffer[..2], [DROPPED + 1, DROPPED + 1]);
/// # Ok::<(), Refusal>(())
/// ```
pub fn judge_into(
    input: &[u8],
    assumptions: &[Assumption],
    buffer: &mut [u8],
) -> Result<Size, Refusal> {
    let results = accept(ffi::judge(input, assumptions, buffer))?;
    match (results[ANSWER], u8::try_from(results[FIRST_COUNT])) {
        (0, Ok(variables)) => Ok(Size {
            variables,
            clauses: index(results, SECOND_COUNT),
        }),
        _ => broken(results),
    }
}

/// Why a formula is accepted: a variable for each clause that remains under the assumptions.
#[derive(Clone, Debug, PartialEq, Eq)]
pub struct Matching {
    variables: u8,
    matched: Vec<u8>,
}

impl Matching {
    /// The number of the formula's variables.
    pub fn variables(&self) -> u8 {
        self.variables
    }

    /// The number of the formula's clauses.
    pub fn clauses(&self) -> usize {
        self.matched.len()
    }

    /// By clause, in the formula's order: 0 if an assumption satisfies it; the number, from 1, of its variable, which no other clause has;
    /// or, if stripping drops the clause, [`DROPPED`](crate::DROPPED) more than the number of the first noted variable that it names.
    ///
    /// What remains is stripped only if it can't be matched as a whole, so that no number is above 48 where it can.
    pub fn matched(&self) -> &[u8] {
        &self.matched
    }
}

/// Judge: says whether the formula is accepted under the assumptions. It matches each clause that remains with a variable that it names,
/// none used twice. Where that can't be, it drops clauses by stripping (pure literal elimination) and matches those that are left, or
/// says which of them stand in the way: a [`Violator`].
///
/// ```
/// use norwythai::{judge, Assumption, JudgeError, Refusal, Violator, DROPPED};
///
/// let matching = judge(&[1, 2, 2, 1, 2, 2, 4, 2, 1, 4, 5], &[])?;
/// assert_eq!(matching.matched(), [2, 1]);
///
/// // (1) (1) (2, 3) (not 2, not 3): variable 1 is pure, and the others are left.
/// let matching = judge(&[1, 3, 2, 1, 4, 2, 1, 4, 2, 2, 2, 3, 4, 3, 2, 3, 3, 4, 5], &[])?;
/// assert_eq!(matching.matched(), [DROPPED + 1, DROPPED + 1, 2, 3]);
///
/// // The second and the third clause name only variable 2.
/// let input = [1, 2, 2, 1, 4, 2, 2, 4, 3, 2, 4, 5];
/// let error = judge(&input, &[]).unwrap_err();
/// let violator = Violator { clauses: vec![1, 2], variables: 1 };
/// assert_eq!(error, JudgeError::Unmatched { violator });
/// assert_eq!((error.refusal().number(), error.refusal().place()), (10, 2));
///
/// // With variable 2 true nothing is left of the third.
/// let error = judge(&input, &[Assumption::positive(2)]).unwrap_err();
/// let violator = Violator { clauses: vec![2], variables: 0 };
/// assert_eq!(error, JudgeError::Unmatched { violator });
/// let error = judge(&input, &[Assumption::positive(2), Assumption::negative(2)]).unwrap_err();
/// assert_eq!(error, JudgeError::Refused(Refusal::BadAssumption { index: 1 }));
/// # Ok::<(), JudgeError>(())
/// ```
pub fn judge(input: &[u8], assumptions: &[Assumption]) -> Result<Matching, JudgeError> {
    let mut buffer = [0; MAX_CLAUSES];
    match judge_into(input, assumptions, &mut buffer) {
        Ok(Size { variables, clauses }) => Ok(Matching {
            variables,
            matched: buffer[..clauses].to_vec(),
        }),
        Err(Refusal::Unmatched { .. }) => {
            let weight = weigh(input, assumptions, &buffer);
            let weight = weight.expect("judge has read the formula and the assumptions");
            Err(JudgeError::Unmatched {
                violator: Violator {
                    clauses: (0..buffer.len()).filter(|i| buffer[*i] == 1).collect(),
                    variables: weight.variables,
                },
            })
        }
        Err(refusal) => Err(JudgeError::Refused(refusal)),
    }
}

/// How much the marks in a buffer weigh.
#[derive(Clone, Copy, Debug, PartialEq, Eq)]
pub struct Weight {
    /// How many clauses are marked.
    pub clauses: usize,
    /// How many variables they name, assumed ones not counted.
    pub variables: usize,
}

/// Weigh: counts the clauses that are marked in a buffer of at least 96 bytes, and the variables that these clauses name. Clause i, counted
/// from 0, is marked if byte i is not 0; bytes behind those of the clauses play no part. The formula need not be accepted: weigh refuses as
/// [`judge_into`] does, but never as [`Unmatched`](Refusal::Unmatched).
///
/// If marked clauses name fewer variables than they are, they can't be matched. Those that judge marks name exactly one fewer:
///
/// ```
/// use norwythai::{judge_into, weigh, Assumption, Refusal};
///
/// // (1, 2) (not 2, 3) (2, not 3) (not 2, not 3) (3), with variable 1 false
/// let input = [1, 3, 2, 1, 2, 2, 4, 3, 2, 2, 3, 4, 2, 2, 3, 3, 4, 3, 2, 3, 3, 4, 2, 3, 4, 5];
/// let assumptions = [Assumption::negative(1)];
/// let mut buffer = [0; 96];
/// let judged = judge_into(&input, &assumptions, &mut buffer);
/// assert_eq!(judged, Err(Refusal::Unmatched { clauses: 3 }));
/// assert_eq!(buffer[..5], [1, 1, 1, 0, 0]);
/// let weight = weigh(&input, &assumptions, &buffer)?;
/// assert_eq!((weight.clauses, weight.variables), (3, 2));
/// # Ok::<(), Refusal>(())
/// ```
///
/// With any one of these marks cleared, the other clauses name as many variables as they are, and can be matched:
///
/// ```
/// use norwythai::{weigh, Assumption};
///
/// # let input = [1, 3, 2, 1, 2, 2, 4, 3, 2, 2, 3, 4, 2, 2, 3, 3, 4, 3, 2, 3, 3, 4, 2, 3, 4, 5];
/// # let assumptions = [Assumption::negative(1)];
/// for struck in 0..3 {
///     let mut buffer = [0; 96];
///     buffer[..3].fill(1);
///     buffer[struck] = 0;
///     let weight = weigh(&input, &assumptions, &buffer)?;
///     assert_eq!((weight.clauses, weight.variables), (2, 2));
/// }
/// # Ok::<(), norwythai::Refusal>(())
/// ```
pub fn weigh(input: &[u8], assumptions: &[Assumption], buffer: &[u8]) -> Result<Weight, Refusal> {
    let results = accept(ffi::weigh(input, assumptions, buffer))?;
    match results[ANSWER] {
        0 => Ok(Weight {
            clauses: index(results, FIRST_COUNT),
            variables: index(results, SECOND_COUNT),
        }),
        _ => broken(results),
    }
}

/// How far a formula is from being matched, its deficiency (the field's maximum deficiency; clubs: shortfall): the number of its clauses,
/// less the most of them that can be matched together, each with a variable that it names and none used twice. At least so many clauses
/// have to be struck until the others are matched, and so many are enough, if they are the right ones. It is also the largest number by
/// which some of the clauses are more than the variables that they name, and 0 if none are.
///
/// It is that of the formula as it is read: there are no assumptions, and nothing is stripped before. So it is 0 exactly if the formula is
/// matched as a whole, and above 0 the formula may be accepted, too, where it strips down to a matched one. Only a formula that can't be
/// read is refused, as [`check`] refuses it.
///
/// ```
/// use norwythai::{deficiency, judge, Refusal};
///
/// let matched = [1, 2, 2, 1, 2, 2, 4, 2, 1, 4, 5]; // (1, 2) and (1)
/// assert_eq!(deficiency(&matched), Ok(0));
///
/// // (2) (2) (1) (not 1): one of the first two can be matched together with one of the others.
/// let unmatched = [1, 3, 2, 2, 4, 2, 2, 4, 2, 1, 4, 3, 1, 4, 5];
/// assert_eq!(deficiency(&unmatched), Ok(2));
///
/// // (1) and (1): stripping drops both, so that the formula is accepted, but only one of them can be matched.
/// let stripped = [1, 1, 2, 1, 4, 2, 1, 4, 5];
/// assert!(judge(&stripped, &[]).is_ok());
/// assert_eq!(deficiency(&stripped), Ok(1));
///
/// assert_eq!(deficiency(&[1, 2, 4]), Err(Refusal::Truncated { place: 3 }));
/// ```
///
/// A clause more, wherever it stands, raises the deficiency by one or leaves it; a clause fewer lowers it by one or leaves it:
///
/// ```
/// use norwythai::{deficiency, FormulaBuilder, Literal};
///
/// # fn main() -> Result<(), Box<dyn std::error::Error>> {
/// let (first, second) = (Literal::positive(1), Literal::negative(2));
/// let mut builder = FormulaBuilder::new(2)?;
/// let mut deficiencies = Vec::new();
/// for clause in [&[first][..], &[first, second], &[second], &[], &[first]] {
///     let formula = builder.clause(clause)?.build();
///     deficiencies.push(deficiency(formula.as_bytes())?);
/// }
/// assert_eq!(deficiencies, [0, 0, 1, 2, 3]);
/// # Ok(())
/// # }
/// ```
pub fn deficiency(input: &[u8]) -> Result<usize, Refusal> {
    only_count(ffi::deficiency(input))
}

/// What stopped a walk.
#[derive(Clone, Copy, Debug, PartialEq, Eq)]
pub enum Answer {
    /// A model.
    Model(Assignment),
    /// As many steps as the budget were made, and neither a model nor the end came.
    Spent,
    /// All models have come.
    Ended,
}

/// What a walk call gives.
#[must_use = "a model that the walk has passed does not come again"]
#[derive(Clone, Copy, Debug, PartialEq, Eq)]
pub struct Walked {
    /// What stopped it.
    pub answer: Answer,
    /// The steps that it made: each assigns a variable or undoes the last assigned one. How many lead to the next model: see
    /// [`walk`](walk#waits).
    pub steps: u32,
    /// The clauses taken off the queues of all matchings that were tried in choosing variables.
    pub expansions: u64,
}

/// Goes on from the checkpoint, in the walk of an accepted formula, until a model or the end comes, or as many steps as the budget are
/// made. The checkpoint becomes the one to go on from, under the same assumptions; at a refusal it stays. A budget of 96 always brings a
/// model or the end.
///
/// ```
/// use norwythai::{walk, Answer, Assignment, Checkpoint};
///
/// let input = [1, 2, 2, 1, 2, 2, 4, 3, 1, 3, 2, 4, 5];
/// let mut checkpoint = Checkpoint::start();
/// assert_eq!(walk(&input, &[], &mut checkpoint, 1)?.answer, Answer::Spent);
/// let walked = walk(&input, &[], &mut checkpoint, 96)?;
/// assert_eq!(walked.answer, Answer::Model(Assignment::from_bits(0b10)));
/// assert_eq!((walked.steps, walked.expansions), (1, 0));
/// # Ok::<(), norwythai::Refusal>(())
/// ```
///
/// # Models
///
/// The walk assigns the variables that some clause names and that are not assumed: these are the variables *to assign*. A clause counts
/// here as it is read, also where an assumption satisfies it. So a model that is listed has the assumed values, and any other variable that
/// no clause names is false in it. Each setting of the named variables that some model has, beside the assumed values, is listed exactly
/// once. [`check`] says yes to the other models, too.
///
/// Where nothing is to be assigned, an accepted formula has one listed model. It comes without a step, on any budget, and then the end
/// does:
///
/// ```
/// use norwythai::{walk, Answer, Assignment, Assumption, Checkpoint};
///
/// // Both variables of (1, 2) (not 1, not 2) are assumed.
/// let input = [1, 2, 2, 1, 2, 2, 4, 3, 1, 3, 2, 4, 5];
/// let all = [Assumption::positive(1), Assumption::negative(2)];
/// let mut checkpoint = Checkpoint::start();
/// let walked = walk(&input, &all, &mut checkpoint, 0)?;
/// assert_eq!(walked.answer, Answer::Model(Assignment::from_bits(0b01)));
/// assert_eq!(walk(&input, &all, &mut checkpoint, 0)?.answer, Answer::Ended);
///
/// // No clause names a variable.
/// let mut checkpoint = Checkpoint::start();
/// let walked = walk(&[1, 2, 5], &[], &mut checkpoint, 0)?;
/// assert_eq!(walked.answer, Answer::Model(Assignment::from_bits(0b00)));
/// assert_eq!(walk(&[1, 2, 5], &[], &mut checkpoint, 0)?.answer, Answer::Ended);
/// # Ok::<(), norwythai::Refusal>(())
/// ```
///
/// # Waits
///
/// How many steps lie between two models is known exactly, however the budgets divide them over calls. With n variables to assign, the
/// first model comes after n steps, and the end n steps after the last model. From a model to the next it is two steps for each variable
/// from the point on where their trails part. A model's trail stands in the checkpoint that comes with it, behind mode and length: n bytes,
/// a variable each in the order of assignment, and 128 more if it is true. Nobody knows the next trail before the walk has come to it. So a
/// display that counts down to the next model asks on a copy of the checkpoint how many steps are still to come:
///
/// ```
/// use norwythai::{walk, Answer, Checkpoint};
///
/// let input = [1, 3, 2, 1, 2, 2, 4, 2, 1, 2, 3, 4, 2, 2, 2, 3, 4, 5]; // (1, 2) (1, 3) (2, 3)
/// let mut checkpoint = Checkpoint::start();
/// assert_eq!(walk(&input, &[], &mut checkpoint, 96)?.steps, 3);
/// let earlier = checkpoint;
///
/// // Four steps are made towards the second model, and two are to come.
/// let walked = walk(&input, &[], &mut checkpoint, 4)?;
/// assert_eq!((walked.answer, walked.steps), (Answer::Spent, 4));
/// let mut later = checkpoint;
/// assert_eq!(walk(&input, &[], &mut later, 96)?.steps, 2);
///
/// // Variable 3 is assigned first, and was false: the trails share nothing.
/// let (earlier, later) = (&earlier.as_bytes()[2..5], &later.as_bytes()[2..5]);
/// assert_eq!((earlier, later), (&[3, 128 + 2, 128 + 1][..], &[128 + 3, 2, 128 + 1][..]));
/// let shared = earlier.iter().zip(later).take_while(|(x, y)| x == y).count();
/// assert_eq!(4 + 2, 2 * (later.len() - shared));
/// # Ok::<(), norwythai::Refusal>(())
/// ```
pub fn walk(
    input: &[u8],
    assumptions: &[Assumption],
    checkpoint: &mut Checkpoint,
    budget: u32,
) -> Result<Walked, Refusal> {
    let results = accept(ffi::walk(
        input,
        assumptions,
        checkpoint.bytes_mut(),
        budget,
    ))?;
    match (answer(results), u32::try_from(results[FIRST_COUNT])) {
        (Some(answer), Ok(steps)) => Ok(Walked {
            answer,
            steps,
            expansions: results[SECOND_COUNT],
        }),
        _ => broken(results),
    }
}

/// What a list call gives.
#[must_use = "it says how many models were written"]
#[derive(Clone, Copy, Debug, PartialEq, Eq)]
pub struct Listed {
    /// How many models were written, from the front of the slice.
    pub written: usize,
    /// A model, the last one written, if the slice is full; the end, if it came before that; spent, if the slice is empty and
    /// a step or a model is next.
    pub answer: Answer,
}

/// Fills the slice with the next listed models of an accepted formula, as [`walk`](walk#models) calls with a budget of 96 would, and tests
/// the checkpoint only once. The checkpoint becomes the one to go on from, under the same assumptions; at a refusal it stays. An empty
/// slice brings no model and makes no step.
///
/// ```
/// use norwythai::{list, Answer, Assumption, Checkpoint};
///
/// let input = [1, 2, 2, 1, 2, 2, 4, 3, 1, 3, 2, 4, 5];
/// let mut models = [0; 3];
/// let listed = list(&input, &[], &mut Checkpoint::start(), &mut models)?;
/// assert_eq!((listed.written, listed.answer), (2, Answer::Ended));
/// assert_eq!(models[..2], [0b10, 0b01]);
///
/// let first = [Assumption::positive(1)];
/// let listed = list(&input, &first, &mut Checkpoint::start(), &mut models)?;
/// assert_eq!((listed.written, models[0]), (1, 0b01));
/// # Ok::<(), norwythai::Refusal>(())
/// ```
pub fn list(
    input: &[u8],
    assumptions: &[Assumption],
    checkpoint: &mut Checkpoint,
    models: &mut [u64],
) -> Result<Listed, Refusal> {
    let results = accept(ffi::list(
        input,
        assumptions,
        checkpoint.bytes_mut(),
        models,
    ))?;
    match answer(results) {
        Some(answer) => Ok(Listed {
            written: index(results, FIRST_COUNT),
            answer,
        }),
        None => broken(results),
    }
}

/// What a page call gives.
#[must_use = "it says how many lines have a model"]
#[derive(Clone, Copy, Debug, PartialEq, Eq)]
pub struct Paged {
    /// How many lines have a model, from the top: [`PAGE_LINES`], or all that were left if these are fewer.
    pub lines: usize,
}

impl Paged {
    /// Whether a line has no model, so that none is left. A page whose lines all have one may be the last, too: then the next one is
    /// blank.
    pub fn is_last(&self) -> bool {
        self.lines < PAGE_LINES
    }
}

/// Writes the next listed models ([`walk`](walk#models)) of an accepted formula as a page for the notice board: [`PAGE_LINES`] lines of
/// text in the first [`PAGE_SIZE`](crate::PAGE_SIZE) bytes of the slice, of which it must have that many. A line has the model's serial, 48
/// columns, and the steps from the line before to it, which are those of [`walk`](walk#waits), on the first line from the checkpoint; a
/// blank stands between two of these, and a line feed at the end. The column of a variable is its digit if some clause names it or it is
/// assumed, else a dash ([`Assignment::columns`]); behind that of the last variable are blanks. The first line has the given serial, which
/// is 1 to [`MAX_SERIAL`](crate::MAX_SERIAL), and each other one a serial that is one above that of the line before. Lines without a model
/// are blank.
///
/// The checkpoint becomes the one to go on from, under the same assumptions, as after [`walk`] calls with a budget of 96. The bytes
/// behind the page stay as they are; at a refusal all do, and the checkpoint, too.
///
/// ```
/// use norwythai::{page, Checkpoint, Refusal, PAGE_SIZE};
///
/// let input = [1, 2, 2, 1, 2, 2, 4, 3, 1, 3, 2, 4, 5];
/// let mut text = [0; PAGE_SIZE];
/// let paged = page(&input, &[], &mut Checkpoint::start(), 9, &mut text)?;
/// assert_eq!((paged.lines, paged.is_last()), (2, true));
///
/// let lines: Vec<&str> = std::str::from_utf8(&text)?.lines().collect();
/// assert_eq!(lines[0], "     9 01                                                 2");
/// assert_eq!(lines[1], "    10 10                                                 4");
/// assert!(lines[2..].iter().all(|line| line.trim().is_empty()));
///
/// // No clause names the third variable of (1, 2).
/// let paged = page(&[1, 3, 2, 1, 2, 2, 4, 5], &[], &mut Checkpoint::start(), 1, &mut text)?;
/// assert_eq!((paged.lines, &text[..10]), (3, &b"     1 10-"[..]));
///
/// let refused = page(&input, &[], &mut Checkpoint::start(), 0, &mut text);
/// assert_eq!(refused, Err(Refusal::BadSerial));
/// # Ok::<(), Box<dyn std::error::Error>>(())
/// ```
pub fn page(
    input: &[u8],
    assumptions: &[Assumption],
    checkpoint: &mut Checkpoint,
    serial: u32,
    page: &mut [u8],
) -> Result<Paged, Refusal> {
    let results = accept(ffi::page(
        input,
        assumptions,
        checkpoint.bytes_mut(),
        serial,
        page,
    ))?;
    let paged = Paged {
        lines: index(results, FIRST_COUNT),
    };
    match results[ANSWER] {
        0 if paged.lines == PAGE_LINES => Ok(paged),
        2 if paged.is_last() => Ok(paged),
        _ => broken(results),
    }
}

/// Reads a DIMACS CNF text: the encoded formula, its clauses in order and each literal once, at its first place in its clause. The
/// text is bytes and no `str`, since comments may have any.
///
/// ```
/// use norwythai::{from_dimacs, Refusal};
///
/// let formula = from_dimacs(b"c two switches, of which one is on\np cnf 2 2\n1 2 0\n-1 -2 0\n")?;
/// assert_eq!(formula, [1, 2, 2, 1, 2, 2, 4, 3, 1, 3, 2, 4, 5]);
///
/// let refusal = from_dimacs(b"p cnf 2 1\n1 off 0\n").unwrap_err();
/// assert_eq!(refusal, Refusal::BadWord { place: 12 });
/// # Ok::<(), Refusal>(())
/// ```
pub fn from_dimacs(text: &[u8]) -> Result<Vec<u8>, Refusal> {
    let mut buffer = vec![0; FORMULA_BUFFER];
    let written = from_dimacs_into(text, &mut buffer)?;
    buffer.truncate(written);
    Ok(buffer)
}

/// [`from_dimacs`] into the front of a lent buffer of at least [`FORMULA_BUFFER`] bytes: how many it wrote. The others stay as they
/// are, and at a refusal all do.
pub fn from_dimacs_into(text: &[u8], buffer: &mut [u8]) -> Result<usize, Refusal> {
    only_count(ffi::from_dimacs(text, buffer))
}

/// Writes an encoded formula, also one that is not accepted, as DIMACS CNF text: the p line and a line for each clause, with each
/// literal once, at its first place in its clause. [`from_dimacs`] reads the same clauses from it.
///
/// ```
/// use norwythai::to_dimacs;
///
/// let text = to_dimacs(&[1, 2, 2, 1, 2, 2, 4, 3, 1, 3, 2, 3, 1, 4, 5])?;
/// assert_eq!(text, "p cnf 2 2\n1 2 0\n-1 -2 0\n");
/// # Ok::<(), norwythai::Refusal>(())
/// ```
pub fn to_dimacs(input: &[u8]) -> Result<String, Refusal> {
    let mut buffer = vec![0; TEXT_BUFFER];
    let written = to_dimacs_into(input, &mut buffer)?;
    buffer.truncate(written);
    Ok(String::from_utf8(buffer).expect("a text of digits, blanks, signs and a p line"))
}

/// [`to_dimacs`] into the front of a lent buffer of at least [`TEXT_BUFFER`] bytes: how many it wrote. The others stay as they are,
/// and at a refusal all do.
pub fn to_dimacs_into(input: &[u8], buffer: &mut [u8]) -> Result<usize, Refusal> {
    only_count(ffi::to_dimacs(input, buffer))
}

/// Where things stand in the results.
const ANSWER: usize = 0;
const MODEL: usize = 1;
const NUMBER: usize = 2;
const PLACE: usize = 3;
const FIRST_COUNT: usize = 4;
const SECOND_COUNT: usize = 5;

/// The answer that says refused.
const REFUSED: u64 = 3;

/// The results, if they are no refusal.
fn accept(results: Results) -> Result<Results, Refusal> {
    if results[ANSWER] != REFUSED {
        return Ok(results);
    }
    match Refusal::from_parts(results[NUMBER], index(results, PLACE)) {
        Some(refusal) => Err(refusal),
        None => broken(results),
    }
}

fn answer(results: Results) -> Option<Answer> {
    match results[ANSWER] {
        0 => Some(Answer::Model(Assignment::from_bits(results[MODEL]))),
        1 => Some(Answer::Spent),
        2 => Some(Answer::Ended),
        _ => None,
    }
}

/// The count of an act that gives nothing else, if it is not refused.
fn only_count(results: Results) -> Result<usize, Refusal> {
    match accept(results)?[ANSWER] {
        0 => Ok(index(results, FIRST_COUNT)),
        _ => broken(results),
    }
}

/// A count or an offset that is at most a slice's length.
fn index(results: Results, at: usize) -> usize {
    usize::try_from(results[at]).unwrap_or_else(|_| broken(results))
}

/// The proved library never writes such results.
fn broken(results: Results) -> ! {
    panic!("the library doesn't keep its interface: {results:?}")
}
