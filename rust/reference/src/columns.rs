//! The columns of a model, as it is printed and on pages (S23.3).

use crate::assumptions::Assumed;
use crate::formula::Formula;

/// What is printed of the models of a formula under assumptions: a column for each variable, the first one first.
#[derive(Clone, Copy)]
pub struct Columns {
    variables: usize,
    visible: u64,
}

impl Columns {
    /// The columns of this formula.
    pub fn new(formula: &Formula, assumed: &Assumed) -> Self {
        Columns {
            variables: formula.variables(),
            visible: assumed.visible(formula),
        }
    }

    /// Those of a model: 1 or 0 for a visible variable, and a dash for any other.
    pub(crate) fn of(self, model: u64) -> impl Iterator<Item = char> {
        (0..self.variables).map(move |v| match (self.visible >> v & 1, model >> v & 1) {
            (0, _) => '-',
            (_, 0) => '0',
            _ => '1',
        })
    }
}
