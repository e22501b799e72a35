//! The three implementations that are compared, by one interface.

use norwythai::{Answer, Assignment, Checkpoint};
use norwythai_reference as plain;
use norwythai_tuned as tuned;

/// A checkpoint's bytes.
pub type Bytes = [u8; Checkpoint::LENGTH];

/// The number and the place of a refusal.
pub type Refused = (u8, usize);

/// What a walk call comes to: the model, or nothing at the end; steps and expansions.
#[derive(Clone, Copy, Debug, PartialEq, Eq)]
pub struct Walked {
    pub model: Option<u64>,
    pub steps: u32,
    pub expansions: u64,
}

/// A list of assumptions, as the proved library takes it and as the other two do.
#[derive(Clone, Default)]
pub struct Assumptions {
    pub proved: Vec<norwythai::Assumption>,
    pub rust: Vec<plain::Assumption>,
}

impl Assumptions {
    /// One more: the variable, from 1, and its value.
    pub fn push(&mut self, variable: u8, value: bool) {
        self.proved.push(norwythai::Assumption { variable, value });
        self.rust.push((variable, value).into());
    }
}

/// The acts, of which each implementation has its own form.
pub trait Lister {
    /// Whether the assignment is a model.
    fn check(&self, input: &[u8], assignment: u64) -> Result<bool, Refused>;

    /// The numbers of variables and clauses of an accepted formula; the buffer has a byte for each clause.
    fn judge(
        &self,
        input: &[u8],
        assumptions: &Assumptions,
        buffer: &mut [u8; 96],
    ) -> Result<(usize, usize), Refused>;

    /// How many clauses the buffer marks, and how many variables these name.
    fn weigh(
        &self,
        input: &[u8],
        assumptions: &Assumptions,
        buffer: &[u8; 96],
    ) -> Result<(usize, usize), Refused>;

    /// The clauses, less the most that can be matched together.
    fn deficiency(&self, input: &[u8]) -> Result<usize, Refused>;

    /// Goes on from the checkpoint, which becomes the next one. The budget brings a model or the end.
    fn walk(
        &self,
        input: &[u8],
        assumptions: &Assumptions,
        checkpoint: &mut Bytes,
        budget: u32,
    ) -> Result<Walked, Refused>;

    /// Fills the slice with the next models, and gives how many there are.
    fn list(
        &self,
        input: &[u8],
        assumptions: &Assumptions,
        checkpoint: &mut Bytes,
        models: &mut [u64],
    ) -> Result<usize, Refused>;

    /// Writes the next models as a page whose first line has this serial, and gives how many lines have a model.
    fn page(
        &self,
        input: &[u8],
        assumptions: &Assumptions,
        checkpoint: &mut Bytes,
        serial: u32,
        page: &mut [u8],
    ) -> Result<usize, Refused>;

    /// Reads a DIMACS text into the buffer, and gives the formula's length.
    fn read_text(&self, text: &[u8], buffer: &mut [u8]) -> Result<usize, Refused>;

    /// Writes the formula into the buffer as DIMACS text, and gives its length.
    fn write_text(&self, input: &[u8], buffer: &mut [u8]) -> Result<usize, Refused>;
}

/// The proved library, by its safe wrapper.
pub struct Proved;

/// The plain reference.
pub struct Plain;

/// The tuned baseline.
pub struct Tuned;

fn refused(refusal: norwythai::Refusal) -> Refused {
    (refusal.number(), refusal.place())
}

impl Lister for Proved {
    fn check(&self, input: &[u8], assignment: u64) -> Result<bool, Refused> {
        norwythai::check(input, Assignment::from_bits(assignment)).map_err(refused)
    }

    fn judge(
        &self,
        input: &[u8],
        assumptions: &Assumptions,
        buffer: &mut [u8; 96],
    ) -> Result<(usize, usize), Refused> {
        match norwythai::judge_into(input, &assumptions.proved, buffer) {
            Ok(size) => Ok((size.variables.into(), size.clauses)),
            Err(refusal) => Err(refused(refusal)),
        }
    }

    fn weigh(
        &self,
        input: &[u8],
        assumptions: &Assumptions,
        buffer: &[u8; 96],
    ) -> Result<(usize, usize), Refused> {
        match norwythai::weigh(input, &assumptions.proved, buffer) {
            Ok(weight) => Ok((weight.clauses, weight.variables)),
            Err(refusal) => Err(refused(refusal)),
        }
    }

    fn deficiency(&self, input: &[u8]) -> Result<usize, Refused> {
        norwythai::deficiency(input).map_err(refused)
    }

    fn walk(
        &self,
        input: &[u8],
        assumptions: &Assumptions,
        bytes: &mut Bytes,
        budget: u32,
    ) -> Result<Walked, Refused> {
        let mut checkpoint = Checkpoint::from_bytes(*bytes);
        let walked = norwythai::walk(input, &assumptions.proved, &mut checkpoint, budget)
            .map_err(refused)?;
        *bytes = *checkpoint.as_bytes();
        Ok(Walked {
            model: match walked.answer {
                Answer::Model(model) => Some(model.bits()),
                _ => None,
            },
            steps: walked.steps,
            expansions: walked.expansions,
        })
    }

    fn list(
        &self,
        input: &[u8],
        assumptions: &Assumptions,
        bytes: &mut Bytes,
        models: &mut [u64],
    ) -> Result<usize, Refused> {
        let mut checkpoint = Checkpoint::from_bytes(*bytes);
        let listed = norwythai::list(input, &assumptions.proved, &mut checkpoint, models)
            .map_err(refused)?;
        *bytes = *checkpoint.as_bytes();
        Ok(listed.written)
    }

    fn page(
        &self,
        input: &[u8],
        assumptions: &Assumptions,
        bytes: &mut Bytes,
        serial: u32,
        page: &mut [u8],
    ) -> Result<usize, Refused> {
        let mut checkpoint = Checkpoint::from_bytes(*bytes);
        let paged = norwythai::page(input, &assumptions.proved, &mut checkpoint, serial, page)
            .map_err(refused)?;
        *bytes = *checkpoint.as_bytes();
        Ok(paged.lines)
    }

    fn read_text(&self, text: &[u8], buffer: &mut [u8]) -> Result<usize, Refused> {
        norwythai::from_dimacs_into(text, buffer).map_err(refused)
    }

    fn write_text(&self, input: &[u8], buffer: &mut [u8]) -> Result<usize, Refused> {
        norwythai::to_dimacs_into(input, buffer).map_err(refused)
    }
}

/// The two Rust implementations have the same functions, but check, weigh and texts are the plain one's alone: they have nothing to tune.
macro_rules! rust_lister {
    ($name:ident, $module:ident) => {
        impl Lister for $name {
            fn check(&self, input: &[u8], assignment: u64) -> Result<bool, Refused> {
                plain::check(input, assignment).map_err(|r| (r.number, r.place))
            }

            fn judge(
                &self,
                input: &[u8],
                assumptions: &Assumptions,
                buffer: &mut [u8; 96],
            ) -> Result<(usize, usize), Refused> {
                match $module::judge(input, &assumptions.rust, buffer) {
                    Ok(size) => Ok((size.variables, size.clauses)),
                    Err(refusal) => Err((refusal.number, refusal.place)),
                }
            }

            fn weigh(
                &self,
                input: &[u8],
                assumptions: &Assumptions,
                buffer: &[u8; 96],
            ) -> Result<(usize, usize), Refused> {
                match plain::weigh(input, &assumptions.rust, buffer) {
                    Ok(weight) => Ok((weight.clauses, weight.variables)),
                    Err(refusal) => Err((refusal.number, refusal.place)),
                }
            }

            fn deficiency(&self, input: &[u8]) -> Result<usize, Refused> {
                $module::deficiency(input).map_err(|r| (r.number, r.place))
            }

            fn walk(
                &self,
                input: &[u8],
                assumptions: &Assumptions,
                checkpoint: &mut Bytes,
                budget: u32,
            ) -> Result<Walked, Refused> {
                let walked = $module::walk(input, &assumptions.rust, checkpoint, budget)
                    .map_err(|r| (r.number, r.place))?;
                *checkpoint = walked.checkpoint;
                Ok(Walked {
                    model: match walked.progress.answer {
                        plain::Answer::Model(model) => Some(model),
                        _ => None,
                    },
                    steps: walked.progress.steps,
                    expansions: walked.progress.expansions,
                })
            }

            fn list(
                &self,
                input: &[u8],
                assumptions: &Assumptions,
                checkpoint: &mut Bytes,
                models: &mut [u64],
            ) -> Result<usize, Refused> {
                let listed = $module::list(input, &assumptions.rust, checkpoint, models)
                    .map_err(|r| (r.number, r.place))?;
                *checkpoint = listed.checkpoint;
                Ok(listed.written)
            }

            fn page(
                &self,
                input: &[u8],
                assumptions: &Assumptions,
                checkpoint: &mut Bytes,
                serial: u32,
                page: &mut [u8],
            ) -> Result<usize, Refused> {
                let paged = $module::page(input, &assumptions.rust, checkpoint, serial, page)
                    .map_err(|r| (r.number, r.place))?;
                *checkpoint = paged.checkpoint;
                Ok(paged.lines)
            }

            fn read_text(&self, text: &[u8], buffer: &mut [u8]) -> Result<usize, Refused> {
                plain::from_dimacs(text, buffer).map_err(|r| (r.number, r.place))
            }

            fn write_text(&self, input: &[u8], buffer: &mut [u8]) -> Result<usize, Refused> {
                plain::to_dimacs(input, buffer).map_err(|r| (r.number, r.place))
            }
        }
    };
}

rust_lister!(Plain, plain);
rust_lister!(Tuned, tuned);
