//! The limits of the format and of the interface.

/// The most variables that a formula has.
pub const MAX_VARIABLES: u8 = 48;

/// The most clauses that a formula has.
pub const MAX_CLAUSES: usize = 96;

/// Added to the variable in judge's byte for a clause that stripping drops.
pub const DROPPED: u8 = 128;

/// The bytes of a checkpoint: its mode, its length, and one for each variable.
pub(crate) const CHECKPOINT_LENGTH: usize = 2 + MAX_VARIABLES as usize;

/// The lines of a page.
pub const PAGE_LINES: usize = 50;

/// The bytes of a line of a page, its line feed among them.
pub const LINE_SIZE: usize = 60;

/// The bytes of a page, 3,000, and the fewest that may be lent for one.
pub const PAGE_SIZE: usize = PAGE_LINES * LINE_SIZE;

/// The highest serial of a page's first line: the last line's is then 999,999.
pub const MAX_SERIAL: u32 = 999_950;

/// The bytes that a buffer for an encoded formula must have, 9,315: the most that one has without repeats.
pub const FORMULA_BUFFER: usize = 3 + MAX_CLAUSES * (2 * MAX_VARIABLES as usize + 1);

/// The bytes that a buffer for a text must have, 18,636: 12 for the p line and, for each clause, 4 a variable and 2 for its end.
pub const TEXT_BUFFER: usize = 12 + MAX_CLAUSES * (4 * MAX_VARIABLES as usize + 2);
