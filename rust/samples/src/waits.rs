//! The steps between the models of a list of walk calls, added up over the calls, and what the trails say that they are.

use crate::calls::Checkpoint;

/// How a walk call ended.
#[derive(Clone, Copy, Debug, PartialEq, Eq)]
pub enum Stop {
    /// With a model.
    Model,
    /// With as many steps as its budget.
    Spent,
    /// With the end of the walk.
    Ended,
}

/// The steps up to a model or to the end, from the model before or from the start.
#[derive(Clone, Copy, Debug, PartialEq, Eq)]
pub struct Wait {
    /// Those that the calls made.
    pub steps: u64,
    /// Those that the trails tell: to the first model and to the end one for each variable that is assigned, and between two models two
    /// for each variable that is assigned after the longest beginning that their trails share.
    pub told: u64,
    /// Over how many calls they are divided.
    pub calls: usize,
}

/// A list of walk calls that begins at the start checkpoint.
#[derive(Clone, Debug, Default)]
pub struct Waits {
    trail: Option<Vec<u8>>,
    ended: bool,
    steps: u64,
    calls: usize,
}

/// The trail in a checkpoint: a byte for each assigned variable, in order.
pub fn trail_in(checkpoint: &Checkpoint) -> &[u8] {
    &checkpoint[2..2 + usize::from(checkpoint[1])]
}

/// How long the longest beginning is that two trails share.
pub fn shared(earlier: &[u8], later: &[u8]) -> usize {
    earlier
        .iter()
        .zip(later)
        .take_while(|(x, y)| x == y)
        .count()
}

impl Waits {
    /// The trail of the last model, if one came.
    pub fn trail(&self) -> Option<&[u8]> {
        self.trail.as_deref()
    }

    /// Takes the next call of the list, by its steps and by the checkpoint that came back. Gives the wait that it closes, if it brings a
    /// model or, for the first time, the end. Behind the end each call must say ended again, with no step made.
    pub fn call(&mut self, stop: Stop, steps: u32, checkpoint: &Checkpoint) -> Option<Wait> {
        if self.ended {
            assert_eq!((stop, steps), (Stop::Ended, 0), "behind the end");
            return None;
        }
        self.steps += u64::from(steps);
        self.calls += 1;
        let assigned = match stop {
            Stop::Spent => return None,
            Stop::Ended => self.trail.as_ref().expect("a model comes first").len(),
            Stop::Model => {
                let later = trail_in(checkpoint);
                match &self.trail {
                    None => later.len(),
                    Some(earlier) => 2 * (later.len() - shared(earlier, later)),
                }
            }
        };
        let wait = Wait {
            steps: self.steps,
            told: assigned as u64,
            calls: self.calls,
        };
        self.ended = stop == Stop::Ended;
        if stop == Stop::Model {
            self.trail = Some(trail_in(checkpoint).to_vec());
        }
        self.steps = 0;
        self.calls = 0;
        Some(wait)
    }
}
