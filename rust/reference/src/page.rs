//! The act page (S19; request: the notice-board page): the next models of a walk as lines of text.

use crate::assumptions::Assumption;
use crate::columns::Columns;
use crate::formula::{decode, Refusal, MAX_VARIABLES};
use crate::walking::{Answer, Checkpoint, Progress, Walker, LIST_BUDGET};
use std::ops::Range;

/// The lines of a page.
pub const PAGE_LINES: usize = 50;

/// The bytes of a line, its line feed among them.
pub const LINE_SIZE: usize = 60;

/// The bytes of a page, and the fewest that may be lent for one.
pub const PAGE_SIZE: usize = PAGE_LINES * LINE_SIZE;

/// The highest serial of a first line. The last line's is then 999,999, which has as many digits as there is room for.
pub const MAX_SERIAL: u32 = 999_950;

/// Where things stand in a line, with a blank between two of them: the serial, a column for each variable, and the steps.
const SERIAL: Range<usize> = 0..6;
const COLUMNS: Range<usize> = 7..7 + MAX_VARIABLES;
const STEPS: Range<usize> = 56..59;

/// What a page call gives.
#[derive(Clone, Copy, Debug, PartialEq, Eq)]
pub struct Paged {
    /// How many lines are filled, from the top.
    pub lines: usize,
    /// The checkpoint to go on from.
    pub checkpoint: Checkpoint,
}

/// A page to be filled: the bytes of its lines, and the serial of the first.
pub struct LentPage<'a> {
    bytes: &'a mut [u8],
    serial: u32,
}

impl<'a> LentPage<'a> {
    /// The page in the first bytes of those that are lent. Refuses by 17 if they are too few, and then by 18 if the serial is 0 or too
    /// high for the lines that follow.
    pub fn new(lent: &'a mut [u8], serial: u32) -> Result<Self, Refusal> {
        if lent.len() < PAGE_SIZE {
            return Err(Refusal::new(17, 0));
        }
        if serial == 0 || serial > MAX_SERIAL {
            return Err(Refusal::new(18, 0));
        }
        Ok(LentPage {
            bytes: &mut lent[..PAGE_SIZE],
            serial,
        })
    }

    /// Writes a line for each model that a walk call on an ample budget brings, and blank lines from the end on. Gives how many have
    /// a model.
    pub fn fill(self, columns: Columns, mut call: impl FnMut() -> Progress) -> usize {
        let mut filled = 0;
        for (line, serial) in self.bytes.chunks_exact_mut(LINE_SIZE).zip(self.serial..) {
            line.fill(b' ');
            line[LINE_SIZE - 1] = b'\n';
            let Progress { answer, steps, .. } = call();
            if let Answer::Model(model) = answer {
                put_right(&mut line[SERIAL], serial);
                for (byte, column) in line[COLUMNS].iter_mut().zip(columns.of(model)) {
                    *byte = column as u8;
                }
                put_right(&mut line[STEPS], steps);
                filled += 1;
            }
        }
        filled
    }
}

/// Writes a number, which has no more digits than there are bytes, into the last of them.
fn put_right(bytes: &mut [u8], number: u32) {
    let mut left = number;
    for byte in bytes.iter_mut().rev() {
        *byte = b'0' + (left % 10) as u8;
        left /= 10;
        if left == 0 {
            break;
        }
    }
}

/// The act page: writes the next 50 models of the walk from the checkpoint, or all that are left, into the lent page: the first
/// under the given serial, each other one under a serial that is one above that of the line before. A line's steps are those of the walk
/// call, with a budget of 96, that brings its model. The bytes behind the page stay, and at a refusal all do.
pub fn page(
    input: &[u8],
    assumptions: &[Assumption],
    checkpoint: &Checkpoint,
    serial: u32,
    lent: &mut [u8],
) -> Result<Paged, Refusal> {
    let page = LentPage::new(lent, serial)?;
    let mut formula = decode(input)?;
    let assumed = formula.assume(assumptions)?;
    let mut walker = Walker::resume(&formula, assumed, checkpoint)?;
    let columns = Columns::new(&formula, &assumed);
    let lines = page.fill(columns, || walker.advance(LIST_BUDGET));
    Ok(Paged {
        lines,
        checkpoint: walker.checkpoint(),
    })
}
