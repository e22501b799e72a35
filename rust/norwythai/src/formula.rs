//! Encoded formulas.

use crate::acts::{
    check, deficiency, from_dimacs, judge, list, page, to_dimacs, walk, weigh, Listed, Matching,
    Paged, Walked, Weight,
};
use crate::assignment::{mask_of, Assignment};
use crate::assumption::Assumption;
use crate::checkpoint::Checkpoint;
use crate::models::Models;
use crate::refusal::Refusal;
use crate::violator::JudgeError;
use std::borrow::Cow;

/// The bytes of an encoded formula, owned or borrowed, which any act may find damaged and refuse.
///
/// ```
/// use norwythai::{Formula, FormulaBuilder, Literal};
///
/// # fn main() -> Result<(), Box<dyn std::error::Error>> {
/// // Two variables, of which exactly one is true.
/// let formula = FormulaBuilder::new(2)?
///     .clause(&[Literal::positive(1), Literal::positive(2)])?
///     .clause(&[Literal::negative(1), Literal::negative(2)])?
///     .build();
/// assert_eq!(formula.as_bytes(), [1, 2, 2, 1, 2, 2, 4, 3, 1, 3, 2, 4, 5]);
///
/// let models: Result<Vec<_>, _> = formula.models().collect();
/// let bits: Vec<u64> = models?.iter().map(|model| model.bits()).collect();
/// assert_eq!(bits, [0b10, 0b01]);
///
/// // The same, from bytes that came from somewhere, and from DIMACS CNF text.
/// let read = Formula::from(&[1, 2, 2, 1, 2, 2, 4, 3, 1, 3, 2, 4, 5][..]);
/// assert_eq!(read, formula);
/// assert_eq!(Formula::from_dimacs(b"p cnf 2 2\n1 2 0\n-1 -2 0\n")?, formula);
/// assert_eq!(formula.to_dimacs()?, "p cnf 2 2\n1 2 0\n-1 -2 0\n");
/// # Ok(())
/// # }
/// ```
#[derive(Clone, Debug, PartialEq, Eq)]
pub struct Formula<'a>(Cow<'a, [u8]>);

impl Formula<'static> {
    /// See [`from_dimacs`].
    pub fn from_dimacs(text: &[u8]) -> Result<Self, Refusal> {
        from_dimacs(text).map(Formula::from)
    }
}

impl Formula<'_> {
    /// The encoded formula.
    pub fn as_bytes(&self) -> &[u8] {
        &self.0
    }

    /// See [`check`].
    pub fn check(&self, assignment: Assignment) -> Result<bool, Refusal> {
        check(&self.0, assignment)
    }

    /// See [`judge`].
    pub fn judge(&self, assumptions: &[Assumption]) -> Result<Matching, JudgeError> {
        judge(&self.0, assumptions)
    }

    /// See [`weigh`].
    pub fn weigh(&self, assumptions: &[Assumption], buffer: &[u8]) -> Result<Weight, Refusal> {
        weigh(&self.0, assumptions, buffer)
    }

    /// See [`deficiency`].
    pub fn deficiency(&self) -> Result<usize, Refusal> {
        deficiency(&self.0)
    }

    /// See [`walk`].
    pub fn walk(
        &self,
        assumptions: &[Assumption],
        checkpoint: &mut Checkpoint,
        budget: u32,
    ) -> Result<Walked, Refusal> {
        walk(&self.0, assumptions, checkpoint, budget)
    }

    /// See [`list`].
    pub fn list(
        &self,
        assumptions: &[Assumption],
        checkpoint: &mut Checkpoint,
        models: &mut [u64],
    ) -> Result<Listed, Refusal> {
        list(&self.0, assumptions, checkpoint, models)
    }

    /// See [`page`].
    pub fn page(
        &self,
        assumptions: &[Assumption],
        checkpoint: &mut Checkpoint,
        serial: u32,
        lent: &mut [u8],
    ) -> Result<Paged, Refusal> {
        page(&self.0, assumptions, checkpoint, serial, lent)
    }

    /// See [`to_dimacs`].
    pub fn to_dimacs(&self) -> Result<String, Refusal> {
        to_dimacs(&self.0)
    }

    /// The number of its variables. Of bytes that can't be read it means nothing.
    pub(crate) fn variables(&self) -> u8 {
        self.0.get(1).copied().unwrap_or(0)
    }

    /// The variables that some clause names, as a mask. Of bytes that can't be read it means nothing.
    pub(crate) fn named(&self) -> u64 {
        let mut named = 0;
        let mut bytes = self.0.iter().skip(2);
        while let Some(kind) = bytes.next() {
            // Behind the number of variables only literals have a body.
            if let 2 | 3 = kind {
                named |= bytes.next().map_or(0, |variable| mask_of(*variable));
            }
        }
        named
    }

    /// All models that are listed, in the order of the walk: [`walk`](walk()#models) says which these are.
    pub fn models(&self) -> Models<'_> {
        Models::new(&self.0)
    }

    /// Those that come after a checkpoint.
    pub fn models_from(&self, checkpoint: Checkpoint) -> Models<'_> {
        Models::resume(&self.0, checkpoint)
    }

    /// The listed models that keep the assumptions.
    ///
    /// ```
    /// use norwythai::{Assumption, Formula};
    ///
    /// // The assumption satisfies the only clause, which still names variable 2: it comes with both values. No clause names variable 3.
    /// let formula = Formula::from_dimacs(b"p cnf 3 1\n1 2 0\n")?;
    /// let known = [Assumption::positive(1)];
    /// let mut models = formula.models_under(&known);
    /// assert_eq!(models.next().unwrap()?.columns(&formula, &known).to_string(), "10-");
    ///
    /// // Later, under the same assumptions:
    /// let mut rest = formula.models_under_from(&known, models.checkpoint());
    /// assert_eq!(rest.next().unwrap()?.columns(&formula, &known).to_string(), "11-");
    /// assert!(rest.next().is_none());
    /// # Ok::<(), norwythai::Refusal>(())
    /// ```
    pub fn models_under(&self, assumptions: &[Assumption]) -> Models<'_> {
        Models::under(&self.0, assumptions)
    }

    /// Those of them that come after a checkpoint, which a walk under the same assumptions gave.
    pub fn models_under_from(
        &self,
        assumptions: &[Assumption],
        checkpoint: Checkpoint,
    ) -> Models<'_> {
        Models::resume_under(&self.0, assumptions, checkpoint)
    }
}

impl<'a> From<&'a [u8]> for Formula<'a> {
    fn from(bytes: &'a [u8]) -> Self {
        Formula(Cow::Borrowed(bytes))
    }
}

impl From<Vec<u8>> for Formula<'static> {
    fn from(bytes: Vec<u8>) -> Self {
        Formula(Cow::Owned(bytes))
    }
}

impl AsRef<[u8]> for Formula<'_> {
    fn as_ref(&self) -> &[u8] {
        &self.0
    }
}
