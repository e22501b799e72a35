//! Why judge gives no matching.

use crate::refusal::Refusal;
use std::error::Error;
use std::fmt;

/// Why a formula is not accepted: clauses that can't be matched, none of them marked without need. Stripping drops none of them, and no
/// assumption satisfies one. Without any single one of them the others can be matched, with variables that are not assumed.
///
/// It displays as clubs say it, with the numbers of the rules counted from 1:
///
/// ```
/// use norwythai::Violator;
///
/// let violator = Violator { clauses: vec![0, 3, 4], variables: 2 };
/// assert_eq!(violator.to_string(), "rules 1, 4, 5 name 2 switches, fixed ones not counted");
/// ```
#[derive(Clone, Debug, PartialEq, Eq)]
pub struct Violator {
    /// The marked clauses, counted from 0 and upward.
    pub clauses: Vec<usize>,
    /// How many variables they name, assumed ones not counted: exactly one fewer than they are.
    pub variables: usize,
}

impl Violator {
    /// The clauses as clubs name them: rules, by their numbers.
    fn numbered(&self) -> String {
        let numbers: Vec<String> = self.clauses.iter().map(|i| (i + 1).to_string()).collect();
        let word = if numbers.len() == 1 { "rule" } else { "rules" };
        format!("{word} {}", numbers.join(", "))
    }
}

impl fmt::Display for Violator {
    fn fmt(&self, f: &mut fmt::Formatter) -> fmt::Result {
        let word = if self.clauses.len() == 1 {
            "names"
        } else {
            "name"
        };
        let variables = match self.variables {
            0 => "no switch".to_string(),
            1 => "1 switch".to_string(),
            count => format!("{count} switches"),
        };
        write!(
            f,
            "{} {word} {variables}, fixed ones not counted",
            self.numbered()
        )
    }
}

/// Why judge gives no matching.
#[derive(Clone, Debug, PartialEq, Eq)]
pub enum JudgeError {
    /// What stripping leaves of the clauses that remain can't be matched.
    Unmatched {
        /// Clauses that stand in the way.
        violator: Violator,
    },
    /// The input is not a formula, or an assumption is bad.
    Refused(Refusal),
}

impl JudgeError {
    /// The refusal with its number and place.
    pub fn refusal(&self) -> Refusal {
        match self {
            JudgeError::Unmatched { violator } => Refusal::Unmatched {
                clauses: violator.clauses.len(),
            },
            JudgeError::Refused(refusal) => *refusal,
        }
    }
}

/// As the refusal, and with the rules' numbers, counted from 1, if they can't be paired.
impl fmt::Display for JudgeError {
    fn fmt(&self, f: &mut fmt::Formatter) -> fmt::Result {
        write!(f, "{}", self.refusal())?;
        if let JudgeError::Unmatched { violator } = self {
            write!(f, " ({})", violator.numbered())?;
        }
        Ok(())
    }
}

impl Error for JudgeError {}
