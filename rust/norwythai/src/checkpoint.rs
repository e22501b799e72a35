//! Checkpoints.

use crate::ffi;
use crate::limits::CHECKPOINT_LENGTH;
use std::error::Error;
use std::fmt;
use std::str::FromStr;

/// Where a walk stands. It may be kept and sent as bytes or as a line of text; whatever comes back is tested, and refused if
/// the walk of the formula never has it.
///
/// It is judged by the walk of today alone, and has no byte for the version that made it. Walks of earlier versions took variables in
/// another order. Their checkpoints are refused as [`ForeignCheckpoint`](crate::Refusal::ForeignCheckpoint), by 11, if the walk of today
/// never has them; one that happens to fit is taken as a checkpoint of this walk, so that models may come again or be missed. Begin anew
/// with [`start`](Checkpoint::start) instead.
///
/// ```
/// use norwythai::Checkpoint;
///
/// let checkpoint = Checkpoint::start();
/// let text = checkpoint.to_string();
/// assert_eq!(text.len(), 100);
/// assert_eq!(text.parse(), Ok(checkpoint));
/// ```
#[derive(Clone, Copy, Debug, PartialEq, Eq, Hash)]
pub struct Checkpoint([u8; Checkpoint::LENGTH]);

impl Checkpoint {
    /// The number of its bytes.
    pub const LENGTH: usize = CHECKPOINT_LENGTH;

    /// The checkpoint from which every walk begins.
    pub fn start() -> Self {
        Checkpoint(ffi::start())
    }

    /// A checkpoint from its bytes: mode, length, and the trail, a byte for each assigned variable in order, its number and 128 more if it
    /// is true; else 0.
    pub fn from_bytes(bytes: [u8; Checkpoint::LENGTH]) -> Self {
        Checkpoint(bytes)
    }

    /// Its bytes.
    pub fn as_bytes(&self) -> &[u8; Checkpoint::LENGTH] {
        &self.0
    }

    pub(crate) fn bytes_mut(&mut self) -> &mut [u8; Checkpoint::LENGTH] {
        &mut self.0
    }
}

impl Default for Checkpoint {
    fn default() -> Self {
        Checkpoint::start()
    }
}

/// Two hexadecimal digits a byte.
impl fmt::Display for Checkpoint {
    fn fmt(&self, f: &mut fmt::Formatter) -> fmt::Result {
        self.0.iter().try_for_each(|byte| write!(f, "{byte:02x}"))
    }
}

/// Why a text is not that of a checkpoint.
#[derive(Clone, Copy, Debug, PartialEq, Eq)]
pub enum ParseCheckpointError {
    /// A character is not a hexadecimal digit.
    NotADigit {
        /// How many characters stand before it.
        at: usize,
        /// The character.
        found: char,
    },
    /// All are digits, but there are not 100.
    WrongLength {
        /// How many there are.
        digits: usize,
    },
}

impl fmt::Display for ParseCheckpointError {
    fn fmt(&self, f: &mut fmt::Formatter) -> fmt::Result {
        match self {
            ParseCheckpointError::NotADigit { at, found } => write!(
                f,
                "a marker has hexadecimal digits only, but after {at} of them comes {found:?}"
            ),
            ParseCheckpointError::WrongLength { digits } => write!(
                f,
                "a marker has {} hexadecimal digits, but these are {digits}",
                2 * Checkpoint::LENGTH
            ),
        }
    }
}

impl Error for ParseCheckpointError {}

/// Reads what `Display` writes; capitals, and blanks and line ends around it, are read too.
impl FromStr for Checkpoint {
    type Err = ParseCheckpointError;

    fn from_str(text: &str) -> Result<Self, ParseCheckpointError> {
        let mut bytes = [0; Checkpoint::LENGTH];
        let mut digits = 0;
        for (at, found) in text.trim().chars().enumerate() {
            let Some(digit) = found.to_digit(16) else {
                return Err(ParseCheckpointError::NotADigit { at, found });
            };
            if let Some(byte) = bytes.get_mut(at / 2) {
                *byte = *byte << 4 | digit as u8;
            }
            digits = at + 1;
        }
        if digits != 2 * Checkpoint::LENGTH {
            return Err(ParseCheckpointError::WrongLength { digits });
        }
        Ok(Checkpoint(bytes))
    }
}
