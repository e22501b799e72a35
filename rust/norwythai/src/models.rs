//! All models, one after the other.

use crate::acts::{list, Answer};
use crate::assignment::Assignment;
use crate::assumption::Assumption;
use crate::checkpoint::Checkpoint;
use crate::refusal::Refusal;
use std::iter::FusedIterator;

/// The most models that are listed at once. A list call tests its checkpoint, which takes as long as many models.
const MOST_AT_ONCE: usize = 256;

/// The models of an encoded formula that are listed, in the order of the walk: all, or those that keep some assumptions.
/// [`walk`](crate::walk()#models) says which are listed: a variable that no clause names and that is not assumed is false in each.
///
/// It may be stopped anywhere: its [`checkpoint`](Models::checkpoint) says where, and [`resume`](Models::resume) goes on from there, or
/// under the same assumptions [`resume_under`](Models::resume_under). After a refusal, which comes first if it comes, and after the end it
/// gives nothing more.
///
/// ```
/// use norwythai::{Checkpoint, Models};
///
/// let input = [1, 3, 2, 1, 2, 2, 4, 5]; // (1, 2), of three variables
/// let mut models = Models::new(&input);
/// assert_eq!(models.next().unwrap()?.bits(), 0b001);
/// let text = models.checkpoint().to_string();
///
/// // Later, perhaps somewhere else:
/// let checkpoint: Checkpoint = text.parse()?;
/// let rest: Result<Vec<_>, _> = Models::resume(&input, checkpoint).collect();
/// let rest: Vec<u64> = rest?.iter().map(|model| model.bits()).collect();
/// assert_eq!(rest, [0b010, 0b011]);
/// # Ok::<(), Box<dyn std::error::Error>>(())
/// ```
///
/// With a variable that is known to be true:
///
/// ```
/// use norwythai::{Assumption, Models};
///
/// let input = [1, 3, 2, 1, 2, 2, 4, 5];
/// let known = [Assumption::positive(2)];
/// let mut models = Models::under(&input, &known);
/// assert_eq!(models.next().unwrap()?.bits(), 0b010);
///
/// // The checkpoint doesn't hold what is assumed: keep that beside it.
/// let mut rest = Models::resume_under(&input, &known, models.checkpoint());
/// assert_eq!(rest.next().unwrap()?.bits(), 0b011);
/// assert!(rest.next().is_none());
/// # Ok::<(), norwythai::Refusal>(())
/// ```
#[must_use = "models are listed only when they are asked for"]
#[derive(Clone, Debug)]
pub struct Models<'a> {
    input: &'a [u8],
    assumptions: Vec<Assumption>,
    /// Where the batch begins.
    before: Checkpoint,
    /// Where the batch ends: at its last model, or with the walk.
    after: Checkpoint,
    /// The models listed last.
    batch: Vec<u64>,
    /// How many of them were given.
    given: usize,
    /// Whether no batch comes after this one.
    last: bool,
}

impl<'a> Models<'a> {
    /// All models.
    pub fn new(input: &'a [u8]) -> Self {
        Models::resume(input, Checkpoint::start())
    }

    /// The models that come after the checkpoint.
    pub fn resume(input: &'a [u8], checkpoint: Checkpoint) -> Self {
        Models::resume_under(input, &[], checkpoint)
    }

    /// The models that keep the assumptions.
    pub fn under(input: &'a [u8], assumptions: &[Assumption]) -> Self {
        Models::resume_under(input, assumptions, Checkpoint::start())
    }

    /// The models that keep the assumptions and come after the checkpoint.
    pub fn resume_under(
        input: &'a [u8],
        assumptions: &[Assumption],
        checkpoint: Checkpoint,
    ) -> Self {
        Models {
            input,
            assumptions: assumptions.to_vec(),
            before: checkpoint,
            after: checkpoint,
            batch: Vec::new(),
            given: 0,
            last: false,
        }
    }

    /// Where the walk stands after what was given so far: the end counts as given once `next` has said that nothing is left.
    pub fn checkpoint(&self) -> Checkpoint {
        if self.given == self.batch.len() && !(self.last && self.given > 0) {
            return self.after;
        }
        // Within the batch: go there again.
        let mut checkpoint = self.before;
        let mut models = vec![0; self.given];
        let listed = list(self.input, &self.assumptions, &mut checkpoint, &mut models);
        let listed = listed.expect("this batch was listed before");
        debug_assert_eq!(listed.written, self.given);
        checkpoint
    }

    /// Lists the next batch: first one model, so that it comes soon, and then twice as many each time.
    fn refill(&mut self) -> Result<(), Refusal> {
        let wanted = (2 * self.batch.len()).clamp(1, MOST_AT_ONCE);
        self.before = self.after;
        self.given = 0;
        self.last = true;
        self.batch.clear();
        let mut batch = vec![0; wanted];
        let listed = list(self.input, &self.assumptions, &mut self.after, &mut batch)?;
        batch.truncate(listed.written);
        self.batch = batch;
        self.last = listed.answer == Answer::Ended;
        Ok(())
    }
}

impl Iterator for Models<'_> {
    type Item = Result<Assignment, Refusal>;

    fn next(&mut self) -> Option<Self::Item> {
        if self.given == self.batch.len() && !self.last {
            if let Err(refusal) = self.refill() {
                return Some(Err(refusal));
            }
        }
        let Some(model) = self.batch.get(self.given) else {
            // The end is given: the batch is done with.
            self.batch.clear();
            self.given = 0;
            return None;
        };
        self.given += 1;
        Some(Ok(Assignment::from_bits(*model)))
    }
}

impl FusedIterator for Models<'_> {}
