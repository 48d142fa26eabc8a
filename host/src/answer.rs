//! Answers as values, each with the group that it answers.

use crate::groups::{groups, Group};
use std::fmt;

/// One line of the answers.
#[derive(Clone, Debug, PartialEq, Eq)]
pub enum Answer {
    /// `ok` with no value, `ok,V` with the query's figure.
    Accepted(Vec<i64>),
    /// `no,NN` with the number of docs/REFUSALS.md.
    Refused(u64),
}

/// An answer beside its group.
#[derive(Clone, Debug, PartialEq, Eq)]
pub struct GroupAnswer {
    pub group: Group,
    pub answer: Answer,
}

/// Bytes that are not the answers of the script they came with.
#[derive(Clone, Copy, Debug, PartialEq, Eq)]
pub struct AnswerMismatch {
    /// The line of the answers, counted from 1, that is no answer, is absent or
    /// has no group.
    pub line: usize,
}

impl fmt::Display for AnswerMismatch {
    fn fmt(&self, f: &mut fmt::Formatter<'_>) -> fmt::Result {
        let line = self.line;
        write!(
            f,
            "line {line} of the answers does not belong to the script"
        )
    }
}

impl std::error::Error for AnswerMismatch {}

/// The answers of a script as values, in the order of its groups.
///
/// ```
/// use season_book::{Answer, Group};
/// let script = b"book,1,1,1,1\nholder,1\nsink,1,0\npath,0,0\nnet,0,3\n";
/// let answers = season_book::answers(script).unwrap();
/// let last = season_book::group_answers(script, &answers).unwrap().pop().unwrap();
/// assert_eq!(last.answer, Answer::Accepted(vec![0]));
/// assert_eq!(last.group, Group { first_line: 5, lines: 1 });
/// ```
pub fn group_answers(script: &[u8], answers: &[u8]) -> Result<Vec<GroupAnswer>, AnswerMismatch> {
    let mut groups = groups(script);
    let mut read = Vec::new();
    for (place, line) in answers.split_inclusive(|&byte| byte == b'\n').enumerate() {
        let mismatch = AnswerMismatch { line: place + 1 };
        let group = *groups.get(place).ok_or(mismatch)?;
        let answer = answer(line).ok_or(mismatch)?;
        let book_refused = place == 0 && matches!(answer, Answer::Refused(_));
        if book_refused {
            groups.truncate(1);
        }
        read.push(GroupAnswer { group, answer });
    }
    if read.len() < groups.len() {
        let line = read.len() + 1;
        return Err(AnswerMismatch { line });
    }
    Ok(read)
}

/// Reads an answer with its LF.
fn answer(line: &[u8]) -> Option<Answer> {
    let line = std::str::from_utf8(line).ok()?.strip_suffix('\n')?;
    let mut fields = line.split(',');
    match fields.next()? {
        "ok" => {
            let values = fields.map(|field| field.parse().ok());
            values.collect::<Option<_>>().map(Answer::Accepted)
        }
        "no" => {
            let number = fields.next()?.parse().ok()?;
            fields.next().is_none().then_some(Answer::Refused(number))
        }
        _ => None,
    }
}
