//! Answers and findings.

use crate::error::OutOfMemory;
use crate::fault::Fault;
use crate::uid::{Mask, Uid};
use std::fmt;
use vicinity_sys as sys;

/// The answer to a log.
#[derive(Clone, Copy, Debug, PartialEq, Eq)]
pub enum Verdict {
    /// The list is complete, and has so many UIDs.
    Complete { count: u32 },
    /// The listed UID can't be there.
    Absent(Uid),
    /// The UID must be there and isn't listed.
    Unlisted(Uid),
    /// All UIDs of the mask may be there, and none is listed.
    Unsettled(Mask),
    /// The listed UID may be missing.
    Doubtful(Uid),
    /// The lines up to this one contradict each other.
    Impossible { line: u32 },
    /// The text is not a log.
    Refused { line: u32, fault: Fault },
}

/// A verdict, with the line and the exit status of the program. It displays as the line.
#[derive(Clone, Copy, PartialEq, Eq)]
pub struct Answer {
    pub verdict: Verdict,
    status: u8,
    line: [u8; 64],
}

impl Answer {
    /// Whether the list is complete.
    pub fn is_complete(&self) -> bool {
        matches!(self.verdict, Verdict::Complete { .. })
    }

    /// The exit status of `vicinity check`: 0 is complete.
    pub fn status(&self) -> u8 {
        self.status
    }

    /// The answer that the library wrote.
    pub(crate) fn of(told: &sys::vicinity_answer) -> Result<Answer, OutOfMemory> {
        let verdict = match told.kind {
            1 => Verdict::Complete { count: told.count },
            2 => Verdict::Absent(Uid::written(told.uid)),
            3 => Verdict::Unlisted(Uid::written(told.uid)),
            4 => Verdict::Unsettled(mask(told.mask_len, told.mask_value)),
            5 => Verdict::Doubtful(Uid::written(told.uid)),
            6 => Verdict::Impossible { line: told.line },
            7 => Verdict::Refused { line: told.line, fault: Fault::of(told.fault) },
            _ => return Err(OutOfMemory),
        };
        Ok(Answer { verdict, status: told.status as u8, line: told.text })
    }
}

impl fmt::Display for Answer {
    fn fmt(&self, f: &mut fmt::Formatter<'_>) -> fmt::Result {
        let end = self.line.iter().position(|byte| *byte == b'\n').unwrap_or(0);
        f.write_str(std::str::from_utf8(&self.line[..end]).unwrap_or(""))
    }
}

impl fmt::Debug for Answer {
    fn fmt(&self, f: &mut fmt::Formatter<'_>) -> fmt::Result {
        write!(f, "Answer({self})")
    }
}

/// An answer, and a counterexample.
#[derive(Clone, Debug, PartialEq, Eq)]
pub struct Explained {
    pub answer: Answer,
    /// The UIDs, in rising order, of tags that could have produced the log and differ from its
    /// list; none if there is no such answer, and perhaps none if there is.
    pub population: Vec<Uid>,
}

/// A finding. Lines count from 1.
#[derive(Clone, Copy, Debug, PartialEq, Eq)]
#[non_exhaustive]
pub enum Finding {
    /// The listed UID can't be there: the line rules it out.
    Absent { uid: Uid, line: u32 },
    /// The UID must be there and isn't listed: the line shows it.
    Unlisted { uid: Uid, line: u32 },
    /// All UIDs of the mask may be there, and none is listed.
    Unsettled(Mask),
    /// The listed UID may be missing.
    Doubtful(Uid),
    /// All UIDs of the mask may be there or not.
    OpenMask(Mask),
    /// There are more than sixteen open masks.
    MoreOpenMasks,
    /// One of the lines that contradict each other.
    ConflictLine(u32),
    /// The line that had silenced the tag whose reply is the conflict.
    SilencedBy(u32),
}

impl Finding {
    pub(crate) fn of(told: &sys::vicinity_finding) -> Finding {
        let uid = Uid::written(told.uid);
        let line = told.line;
        let mask = mask(told.mask_len, told.mask_value);
        match told.kind {
            2 => Finding::Absent { uid, line },
            3 => Finding::Unlisted { uid, line },
            4 => Finding::Unsettled(mask),
            5 => Finding::Doubtful(uid),
            8 => Finding::OpenMask(mask),
            9 => Finding::MoreOpenMasks,
            10 => Finding::ConflictLine(line),
            11 => Finding::SilencedBy(line),
            kind => unreachable!("a finding of kind {kind}, which interface 2 doesn't have"),
        }
    }
}

impl fmt::Display for Finding {
    fn fmt(&self, f: &mut fmt::Formatter<'_>) -> fmt::Result {
        match self {
            Finding::Absent { uid, .. } => write!(f, "absent {uid}"),
            Finding::Unlisted { uid, .. } => write!(f, "unlisted {uid}"),
            Finding::Unsettled(mask) => write!(f, "unsettled {mask}"),
            Finding::Doubtful(uid) => write!(f, "doubtful {uid}"),
            Finding::OpenMask(mask) => write!(f, "open {mask}"),
            Finding::MoreOpenMasks => f.write_str("more open"),
            Finding::ConflictLine(line) => write!(f, "by line {line}"),
            Finding::SilencedBy(line) => write!(f, "silenced by line {line}"),
        }
    }
}

/// An answer, and every finding.
#[derive(Clone, Debug, PartialEq, Eq)]
pub struct Report {
    pub answer: Answer,
    pub findings: Vec<Finding>,
}

/// Where a list is least sure.
#[derive(Clone, Copy, Debug, PartialEq, Eq)]
pub struct Weakest {
    /// In how many slots a tag that isn't listed would have had to be missed.
    pub margin: u32,
    /// The first mask, by length and then by value, whose UIDs have this margin and aren't listed.
    pub mask: Mask,
    /// Of a complete list the first mask of UIDs that aren't on it and could be there if each reply
    /// `R` may have hidden others. None if there is none: it is complete even so.
    pub hidden: Option<Mask>,
    /// The same if, besides, the reader may have gone deaf after the last slot in which a tag
    /// answered.
    pub deaf: Option<Mask>,
}

/// An answer, and how many misses of a tag it would take to make a complete list wrong.
#[derive(Clone, Copy, Debug, PartialEq, Eq)]
pub struct Margin {
    pub answer: Answer,
    /// None if the text is refused or the log impossible.
    pub weakest: Option<Weakest>,
}

impl Margin {
    pub(crate) fn of(
        told: &sys::vicinity_answer, least: &sys::vicinity_weakest,
    ) -> Result<Margin, OutOfMemory> {
        let answer = Answer::of(told)?;
        let weakest = (answer.status < 2).then(|| Weakest {
            margin: least.margin,
            mask: mask(least.mask_len, least.mask_value),
            hidden: (least.has_hidden != 0).then(|| mask(least.hidden_len, least.hidden_value)),
            deaf: (least.has_deaf != 0).then(|| mask(least.deaf_len, least.deaf_value)),
        });
        Ok(Margin { answer, weakest })
    }
}

/// A mask that the library wrote.
pub(crate) fn mask(len: u32, value: u64) -> Mask {
    Mask::new(len, value).unwrap_or(Mask::ALL)
}
