//! Counts of what calls came to, and of what was seen in words.

use norwythai_reference::Refusal;
use std::collections::BTreeMap;
use std::fmt;

/// Refusals by their numbers.
pub type Refusals = [usize; 19];

/// What the calls of an act came to.
#[derive(Default)]
pub struct Outcomes {
    /// Calls that were not refused.
    done: usize,
    refusals: Refusals,
}

impl Outcomes {
    pub fn count<T>(&mut self, answer: Result<T, Refusal>) {
        match answer {
            Ok(_) => self.done += 1,
            Err(refusal) => self.refusals[usize::from(refusal.number)] += 1,
        }
    }

    pub fn calls(&self) -> usize {
        self.done + self.refusals.iter().sum::<usize>()
    }

    /// Fails if an answer was seen too seldom, or a refusal came that the act doesn't give.
    pub fn require_enough(&self, act: &str, given: &[usize]) {
        let calls = self.calls();
        assert!(self.done >= calls / 4, "{act}: only {}", self.done);
        for (number, seen) in self.refusals.iter().enumerate() {
            if given.contains(&number) {
                assert!(
                    *seen >= calls / 1000,
                    "{act}: refusal {number}: only {seen}"
                );
            } else {
                assert_eq!(*seen, 0, "{act}: refusal {number}");
            }
        }
    }
}

impl fmt::Display for Outcomes {
    fn fmt(&self, f: &mut fmt::Formatter) -> fmt::Result {
        write!(f, "{} (done {}, refused", self.calls(), self.done)?;
        write_refusals(f, &self.refusals)?;
        write!(f, ")")
    }
}

/// Those that came, by number.
pub fn write_refusals(f: &mut fmt::Formatter, refusals: &Refusals) -> fmt::Result {
    let seen = refusals.iter().enumerate().filter(|(_, seen)| **seen > 0);
    for (number, seen) in seen {
        write!(f, " {number}: {seen}")?;
    }
    Ok(())
}

/// How often what was seen, in words.
#[derive(Default)]
pub struct Seen(BTreeMap<&'static str, usize>);

impl Seen {
    pub fn see(&mut self, what: &'static str, seen: bool) {
        *self.0.entry(what).or_default() += usize::from(seen);
    }

    /// Fails if something is not seen once of so many calls at least, or something else is seen.
    pub fn require_enough(&self, wanted: &[(&str, usize)], calls: usize) {
        for (what, of) in wanted {
            let seen = self.0.get(what).copied().unwrap_or(0);
            assert!(seen > calls / of, "{what}: only {seen}");
        }
        assert_eq!(self.0.len(), wanted.len());
    }
}

impl fmt::Display for Seen {
    fn fmt(&self, f: &mut fmt::Formatter) -> fmt::Result {
        let mut seen = self.0.iter();
        seen.try_for_each(|(what, seen)| write!(f, "\n  {what}: {seen}"))
    }
}
