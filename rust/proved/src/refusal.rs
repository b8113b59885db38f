//! The refusals, by their numbers on the paper's list.

use std::error::Error;
use std::fmt;

/// Why a call refuses what it is handed. A refused call changes nothing, but for the lines of a log before the refused one.
///
/// ```
/// use scene_log::{Check, Refusal};
///
/// let rule = b"RUL\x01\x00\x00\x02\x08\x00\x00\x03\x00\x00";
/// let refusal = Check::start().line(rule, b"E 4\n").unwrap_err();
/// assert_eq!(refusal, Refusal::NeverBegun);
/// assert_eq!(refusal.number(), 16);
/// assert_eq!(refusal.to_string(), "an end line has an id that never began");
/// ```
#[derive(Clone, Copy, PartialEq, Eq, PartialOrd, Ord, Hash, Debug)]
#[repr(u8)]
pub enum Refusal {
    RuleEndsEarly = 1,
    RuleMark = 2,
    RuleVersion = 3,
    RuleCount = 4,
    RuleLabel = 5,
    RuleNode = 6,
    RuleTooLong = 7,
    RuleNotATree = 8,
    RuleUnbound = 9,
    RuleTooDeep = 10,
    LineForm = 11,
    LineId = 12,
    LineLabel = 13,
    NoSet = 14,
    StillOpen = 15,
    NeverBegun = 16,
    NoneOpen = 17,
    TooManyRuns = 18,
    TooManyLabels = 19,
    ShortBuffer = 20,
    NoRecord = 21,
    NoFinishedRun = 22,
    SameRun = 23,
    NoTally = 24,
    RuleGrammar = 25,
    RuleNoSlips = 26,
    BookForm = 27,
}

use Refusal::*;

/// All refusals, in the order of their numbers, each with its sentence.
const ALL: [(Refusal, &str); 27] = [
    (RuleEndsEarly, "the rule file ends before the next part is whole"),
    (RuleMark, "the rule file's mark is not RUL"),
    (RuleVersion, "the rule file's version is not 1"),
    (RuleCount, "a count in the rule file is outside its range: 0 to 16 labels, 1 to 64 nodes"),
    (RuleLabel, "a label in the rule file has a wrong length or a wrong byte, or is listed twice"),
    (RuleNode, "a node's kind or one of its fields is outside its range"),
    (RuleTooLong, "bytes follow the last node of the rule file"),
    (RuleNotATree, "a node other than the root is not named exactly once"),
    (RuleUnbound, "a variable is used outside every \"some\" that binds it"),
    (RuleTooDeep, "five \"some\" nodes lie one inside another"),
    (LineForm, "the line has neither of the two forms, or its LF is not among its first 40 bytes"),
    (LineId, "the id is not in 1 to 65535"),
    (LineLabel, "the label has a wrong byte or more than 24 bytes"),
    (NoSet, "a relation set is above 63"),
    (StillOpen, "a begin line has an id whose run is still open"),
    (NeverBegun, "an end line has an id that never began"),
    (NoneOpen, "an end line has an id that has begun, and no run of it is open"),
    (TooManyRuns, "the line would begin a 129th run"),
    (TooManyLabels, "the line would bring a 65th label"),
    (ShortBuffer, "a lent buffer is shorter than stated"),
    (NoRecord, "no accepted lines leave this record, or the pair bytes are not that record's"),
    (NoFinishedRun, "a run number has no finished run, or a slip has a wrong number of runs"),
    (SameRun, "both numbers name the same finished run"),
    (NoTally, "the tally's counts are not the record's, or its failing lines exceed its lines"),
    (RuleGrammar, "the typed rule is outside the grammar or longer than 4,096 bytes"),
    (RuleNoSlips, "the rule is not a \"not\" over one to four \"some\" over a part without \"some\""),
    (BookForm, "the book is outside its form: a label, one = and 1 to 60 bytes of text a line, in order of capitals, no repeats"),
];

impl Refusal {
    /// The number on the list, 1 to 27.
    pub fn number(self) -> u8 {
        self as u8
    }

    /// The refusal with this number, if there is one.
    pub fn from_number(number: u8) -> Option<Refusal> {
        let place = usize::from(number).checked_sub(1)?;
        ALL.get(place).map(|(refusal, _)| *refusal)
    }
}

impl fmt::Display for Refusal {
    fn fmt(&self, out: &mut fmt::Formatter) -> fmt::Result {
        out.write_str(ALL[usize::from(self.number()) - 1].1)
    }
}

impl Error for Refusal {}

/// A log that is refused.
#[derive(Clone, Copy, PartialEq, Eq, Hash, Debug)]
pub struct LogRefused {
    /// Why.
    pub refusal: Refusal,
    /// The refused line, from 1 on; 0 where no line is to blame, but the rule or a buffer.
    pub line: u16,
}

impl LogRefused {
    /// How many lines were taken: those before the refused one.
    pub fn lines(self) -> u16 {
        self.line.saturating_sub(1)
    }
}

impl fmt::Display for LogRefused {
    fn fmt(&self, out: &mut fmt::Formatter) -> fmt::Result {
        if self.line != 0 {
            write!(out, "line {}: ", self.line)?;
        }
        self.refusal.fmt(out)
    }
}

impl Error for LogRefused {}

#[cfg(test)]
mod tests {
    use super::*;

    #[test]
    fn every_number_names_its_refusal() {
        for number in 0..=u8::MAX {
            let named = Refusal::from_number(number).map(Refusal::number);
            assert_eq!(named, (1..=27).contains(&number).then_some(number));
        }
    }
}
