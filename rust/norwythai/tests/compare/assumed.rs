//! A list of assumptions, as each side takes it.

use norwythai::Assumption;
use norwythai_reference as reference;
use norwythai_samples::{some_assumptions, Random};

/// The same list three times.
#[derive(Clone, Default)]
pub struct Assumed {
    pub list: Vec<Assumption>,
    pub reference: Vec<reference::Assumption>,
    /// As the C functions take it: true is any byte but 0.
    pub bytes: Vec<u8>,
}

impl Assumed {
    /// A list for an input, good or bad.
    pub fn some(random: &mut Random, input: &[u8]) -> Self {
        let mut assumed = Assumed::default();
        for (variable, value) in some_assumptions(random, input) {
            let truth = random.pick(&[1, 1, 2, 128, 255]);
            assumed.push(variable, value, truth);
        }
        assumed
    }

    /// One more, with this byte for true.
    pub fn push(&mut self, variable: u8, value: bool, truth: u8) {
        self.list.push(Assumption { variable, value });
        self.reference.push((variable, value).into());
        let byte = if value { truth } else { 0 };
        self.bytes.extend([variable, byte]);
    }

    pub fn is_empty(&self) -> bool {
        self.list.is_empty()
    }

    /// How many variables of a readable input are to be assigned; none if the list is bad.
    pub fn to_assign(&self, input: &[u8]) -> Option<usize> {
        let formula = reference::decode(input).ok()?;
        let masks = formula.assumed(&self.reference).ok()?;
        Some(masks.to_assign(&formula).count_ones() as usize)
    }

    /// Whether the input is accepted under the list, but only since stripping drops clauses.
    pub fn drops_clauses(&self, input: &[u8]) -> bool {
        let mut row = [0; 96];
        let judged = reference::judge(input, &self.reference, &mut row);
        judged.is_ok() && row.iter().any(|byte| *byte > 128)
    }

    /// Whether the list has the variable of this number.
    pub fn has(&self, variable: u8) -> bool {
        self.list.iter().any(|a| a.variable == variable)
    }
}
