//! Sets of clauses as masks: bit i is that of clause i.

use std::ops::{BitAnd, BitAndAssign, BitOr, BitOrAssign, Not};

/// A set of clauses. Masks of 64 bits do for fewer than 64 clauses, and are faster than those of 128, which do for all formulas.
pub(crate) trait ClauseSet:
    Copy
    + Default
    + PartialEq
    + BitAnd<Output = Self>
    + BitAndAssign
    + BitOr<Output = Self>
    + BitOrAssign
    + Not<Output = Self>
{
    /// The set of one clause.
    fn one(clause: usize) -> Self;

    /// The first so many clauses.
    fn first(count: usize) -> Self;

    /// How many clauses the set has.
    fn count(self) -> u32;

    /// Takes the lowest clause out of the set.
    fn take_lowest(&mut self) -> Option<usize>;

    /// Whether no clause is in the set.
    #[inline]
    fn is_empty(self) -> bool {
        self == Self::default()
    }

    /// The clauses of the set, upward.
    #[inline]
    fn clauses(mut self) -> impl Iterator<Item = usize> {
        std::iter::from_fn(move || self.take_lowest())
    }
}

macro_rules! clause_set {
    ($mask:ty) => {
        impl ClauseSet for $mask {
            #[inline]
            fn one(clause: usize) -> Self {
                1 << clause
            }

            #[inline]
            fn first(count: usize) -> Self {
                (1 << count) - 1
            }

            #[inline]
            fn count(self) -> u32 {
                self.count_ones()
            }

            #[inline]
            fn take_lowest(&mut self) -> Option<usize> {
                if *self == 0 {
                    return None;
                }
                let clause = self.trailing_zeros() as usize;
                *self &= *self - 1;
                Some(clause)
            }
        }
    };
}

clause_set!(u64);
clause_set!(u128);
