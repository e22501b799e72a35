//! Writing encoded formulas.

use crate::formula::Formula;
use crate::limits::{MAX_CLAUSES, MAX_VARIABLES};
use std::error::Error;
use std::fmt;

/// A variable, by its number from 1, and the value that makes the literal true.
#[derive(Clone, Copy, Debug, PartialEq, Eq, Hash)]
pub struct Literal {
    /// The variable's number, 1 to 48.
    pub variable: u8,
    /// True for a positive literal.
    pub value: bool,
}

impl Literal {
    /// The literal that is true if the variable is.
    pub fn positive(variable: u8) -> Self {
        Literal {
            variable,
            value: true,
        }
    }

    /// The literal that is true if the variable is false.
    pub fn negative(variable: u8) -> Self {
        Literal {
            variable,
            value: false,
        }
    }
}

/// Writes an encoded formula that every act can read: see [`Formula`].
#[derive(Clone, Debug)]
pub struct FormulaBuilder {
    variables: u8,
    clauses: usize,
    bytes: Vec<u8>,
}

impl FormulaBuilder {
    /// A formula of this many variables, 1 to 48, with no clauses yet.
    pub fn new(variables: u8) -> Result<Self, BuildError> {
        if !(1..=MAX_VARIABLES).contains(&variables) {
            return Err(BuildError::BadVariableCount { variables });
        }
        Ok(FormulaBuilder {
            variables,
            clauses: 0,
            bytes: vec![1, variables],
        })
    }

    /// Adds a clause. A literal that it has more than once counts once, as in reading: it is written once, at its first place. To
    /// name a variable both ways is an error. If there is an error, nothing is added.
    pub fn clause(&mut self, literals: &[Literal]) -> Result<&mut Self, BuildError> {
        let clause = self.clauses;
        if clause == MAX_CLAUSES {
            return Err(BuildError::TooManyClauses);
        }
        let mut different: Vec<Literal> = Vec::new();
        for &literal in literals {
            let Literal { variable, value } = literal;
            if !(1..=self.variables).contains(&variable) {
                return Err(BuildError::NoSuchVariable { clause, variable });
            }
            let complement = Literal {
                variable,
                value: !value,
            };
            if different.contains(&complement) {
                return Err(BuildError::ComplementaryLiteral { clause, variable });
            }
            if !different.contains(&literal) {
                different.push(literal);
            }
        }
        for literal in different {
            let kind = if literal.value { 2 } else { 3 };
            self.bytes.extend([kind, literal.variable]);
        }
        self.bytes.push(4);
        self.clauses += 1;
        Ok(self)
    }

    /// The formula of the clauses so far.
    #[must_use]
    pub fn build(&self) -> Formula<'static> {
        let mut bytes = self.bytes.clone();
        bytes.push(5);
        Formula::from(bytes)
    }
}

/// Why a formula can't be written.
#[derive(Clone, Copy, Debug, PartialEq, Eq)]
pub enum BuildError {
    /// The number of variables is 0 or above 48.
    BadVariableCount {
        /// The number asked for.
        variables: u8,
    },
    /// A literal's variable is 0 or above the number of variables.
    NoSuchVariable {
        /// The clause, counted from 0.
        clause: usize,
        /// The number of the variable.
        variable: u8,
    },
    /// A clause has a literal and its complement: it names the variable both ways.
    ComplementaryLiteral {
        /// The clause, counted from 0.
        clause: usize,
        /// The number of the variable.
        variable: u8,
    },
    /// There are 96 clauses already.
    TooManyClauses,
}

/// In the words of this crate, as a caller of the builder has them; clauses are counted from 1.
impl fmt::Display for BuildError {
    fn fmt(&self, f: &mut fmt::Formatter) -> fmt::Result {
        match self {
            BuildError::BadVariableCount { variables } => {
                write!(
                    f,
                    "a formula has 1 to {MAX_VARIABLES} variables, not {variables}"
                )
            }
            BuildError::NoSuchVariable { clause, variable } => write!(
                f,
                "clause {} names variable {variable}, which the formula doesn't have",
                clause + 1
            ),
            BuildError::ComplementaryLiteral { clause, variable } => write!(
                f,
                "clause {} names variable {variable} both ways",
                clause + 1
            ),
            BuildError::TooManyClauses => write!(f, "a formula has at most {MAX_CLAUSES} clauses"),
        }
    }
}

impl Error for BuildError {}
