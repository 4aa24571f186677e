//! Why a call does not accept, and what each number means.

use std::fmt;

/// What each number means, as the table of README.md has it: those from 1 on, and those of running.
const MEANINGS: [&str; 22] = [
    "reading is lent fewer than 12,288 item words or 65,536 name bytes",
    "the text has more than 65,535 bytes",
    "a byte or token is not allowed",
    "a number is out of range",
    "a parenthesis closes nothing, an element too many begins, or at the end a list is open or an element missing",
    "more than 2,047 elements, 1,024 names or 64 open lists",
    "the item table does not have the layout of a recipe whose first element is a list",
    "fuel exceeds 8,192, or a budget 65,535",
    "the work table has fewer than 24 words, or the core table fewer than 3, for each item and unit of fuel; or running is lent fewer than 16 words for each unit of its budget and one more",
    "the first element is not at most 256 distinct names that are no base forms",
    "a name that is looked up means nothing",
    "a form or macro stands as a bare expression, or `syntax-rules`, `...` or `_` heads one",
    "a form has another shape, a bound name is `...` or `_`, or the expression is `()`",
    "two names bound by one form are the same",
    "rules break their rules",
    "no rule matches a use",
    "lists that drive one ellipsis differ in length",
    "a step's result would take the sum past the fuel",
    "the words are not exactly one core term, or, in comparing, an operation has no name",
    "the output is shorter than the text",
    "a supplier's text is not in the core grammar",
    "a name in a supplier's text is neither bound round it nor an operation",
];
const RUNNING: [&str; 3] = [
    "an operand or head is of the wrong kind, an operation beyond the four or a decimal is evaluated, or a sum or difference leaves 32 bits",
    "a closure or operation is applied to a wrong number of operands",
    "the evaluation takes a unit beyond the budget",
];

/// What a number of documents 01 and 02 means; nothing for one that no call answers.
pub fn meaning(ground: u32) -> Option<&'static str> {
    let (list, first) = if ground < 25 { (&MEANINGS[..], 1) } else { (&RUNNING[..], 25) };
    list.get(ground.checked_sub(first)? as usize).copied()
}

/// A call refused: the number for which it is, and for 11 to 18 the counts of completed steps.
#[derive(Clone, Copy, Debug, PartialEq, Eq)]
pub struct Refused {
    pub ground: u32,
    pub steps: u32,
    pub sum: u32,
}

impl fmt::Display for Refused {
    fn fmt(&self, f: &mut fmt::Formatter<'_>) -> fmt::Result {
        write!(f, "refused with {}: {}", self.ground, meaning(self.ground).unwrap_or("no number of documents 01 and 02"))
    }
}

impl std::error::Error for Refused {}

/// Why a call does not accept.
#[derive(Clone, Copy, Debug, PartialEq, Eq)]
pub enum Error {
    /// The service refuses what it is lent.
    Refused(Refused),
    /// The call was not made: the caller's thread has not so many bytes of stack left, and the system gives no thread with them.
    NoStack(usize),
}

impl Error {
    /// The refusal, where it is one.
    pub fn refused(self) -> Option<Refused> {
        match self {
            Error::Refused(refused) => Some(refused),
            Error::NoStack(_) => None,
        }
    }
}

impl fmt::Display for Error {
    fn fmt(&self, f: &mut fmt::Formatter<'_>) -> fmt::Result {
        match self {
            Error::Refused(refused) => refused.fmt(f),
            Error::NoStack(bytes) => write!(f, "no thread has {bytes} bytes of stack"),
        }
    }
}

impl std::error::Error for Error {}

impl From<Refused> for Error {
    fn from(refused: Refused) -> Error {
        Error::Refused(refused)
    }
}
