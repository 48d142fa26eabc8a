//! The season book for a Rust program: a safe wrapper over `run`, the proved
//! function that answers scripts.
//!
//! [`answers`] takes a script and gives its answers; [`answers_into`] writes
//! them to a buffer of the caller's; [`group_answers`] reads them as values,
//! each with the lines that it answers. The script's format is docs/SCRIPT.md.
//!
//! ```
//! let script = b"book,1,1,1,1\nholder,1\nsink,1,0\npath,0,0\ncarry,0,0,25\nnet,0,3\n";
//! assert_eq!(season_book::answers(script), Ok(b"ok\nok\nok,25\n".to_vec()));
//! ```

mod answer;
mod causes;
mod groups;
mod refusal;

pub use answer::{group_answers, Answer, AnswerMismatch, GroupAnswer};
pub use causes::cause;
pub use groups::{groups, script_lines, Group};
pub use refusal::Refusal;

/// Most bytes of a script.
pub const MAX_SCRIPT_BYTES: usize = 65_536;
/// Most lines of a script.
pub const MAX_SCRIPT_LINES: usize = 4_096;
/// Output bytes that each line of a script needs.
pub const OUTPUT_BYTES_PER_LINE: usize = 16;
/// Stack that one call may take.
pub const STACK_BYTES: usize = 1_048_576;

/// The number of the library counts a refusal in millions.
const REFUSAL_UNIT: u64 = 1_000_000;

extern "C" {
    #[cfg_attr(feature = "renamed", link_name = "season_book_run")]
    fn run(script: *const u8, script_length: usize, out: *mut u8, out_length: usize) -> u64;
}

/// The lines of a script: those that an LF ends, and one more if bytes stand
/// after the last LF.
pub fn count_lines(script: &[u8]) -> usize {
    let ended = script.iter().filter(|&&byte| byte == b'\n').count();
    let unended = script.last().is_some_and(|&byte| byte != b'\n');
    ended + usize::from(unended)
}

/// Output bytes with which no run of this script is refused for want of room.
pub fn output_bytes(script: &[u8]) -> usize {
    count_lines(script) * OUTPUT_BYTES_PER_LINE
}

/// The answers of a script, a line to each group. Refused calls are among
/// them; an `Err` is a script over 65,536 bytes or 4,096 lines.
pub fn answers(script: &[u8]) -> Result<Vec<u8>, Refusal> {
    if script.len() > MAX_SCRIPT_BYTES {
        return Err(Refusal::ScriptTooLong);
    }
    let mut out = vec![0; output_bytes(script)];
    let written = answers_into(script, &mut out)?;
    out.truncate(written);
    Ok(out)
}

/// Writes the answers of a script to the front of `out` and gives their
/// length. What is behind them, and all of `out` if the script is refused,
/// stays as it was.
pub fn answers_into(script: &[u8], out: &mut [u8]) -> Result<usize, Refusal> {
    let number = run_number(script, out);
    match number / REFUSAL_UNIT {
        0 => Ok(number as usize),
        1 => Err(Refusal::ScriptTooLong),
        _ => Err(Refusal::OutputTooShort),
    }
}

/// The library's one number: the refusal × 1,000,000 + the written length.
pub fn run_number(script: &[u8], out: &mut [u8]) -> u64 {
    // SAFETY: both slices are good for their lengths, `out` is lent to no one
    // else, and `run` is proved to read and write inside of the two alone.
    unsafe { run(script.as_ptr(), script.len(), out.as_mut_ptr(), out.len()) }
}
