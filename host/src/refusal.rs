//! Why a whole script is refused.

use std::fmt;

/// Why a script was not run. A call that is refused is no such case: its
/// number stands among the answers.
#[derive(Clone, Copy, Debug, PartialEq, Eq)]
pub enum Refusal {
    /// Over 65,536 bytes or over 4,096 lines.
    ScriptTooLong,
    /// Less than 16 bytes of output for each line of the script.
    OutputTooShort,
}

impl Refusal {
    /// The number that the refusal has in docs/REFUSALS.md.
    pub fn number(self) -> u64 {
        match self {
            Refusal::ScriptTooLong => 1,
            Refusal::OutputTooShort => 15,
        }
    }
}

impl fmt::Display for Refusal {
    fn fmt(&self, f: &mut fmt::Formatter<'_>) -> fmt::Result {
        let cause = match self {
            Refusal::ScriptTooLong => "the script has over 65,536 bytes or over 4,096 lines",
            Refusal::OutputTooShort => "the output has less than 16 bytes for each line",
        };
        write!(f, "no,{:02}: {cause}", self.number())
    }
}

impl std::error::Error for Refusal {}
