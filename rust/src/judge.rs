//! What comes of judging journey bytes.
use crate::{
    answer::Refusal,
    journey::BadLeg,
    names::{BAD_AREA, BAD_LEG, BAD_MOMENT, BAD_PLACE, FOUND},
};
use std::{error::Error, fmt};

/// Why journey bytes were not judged.
#[derive(Clone, Copy, Debug, PartialEq, Eq, Hash)]
pub enum JudgeError {
    /// 7 to 9: the query means nothing in these tables. Of number 6 there is none, since no workspace is lent.
    Refused(Refusal),
    /// 13: the bytes are not legs.
    BadLeg(BadLeg),
}

impl JudgeError {
    /// Yes or no, or why there is neither, from the number and what is told.
    pub(crate) fn verdict(number: u32, told: u64) -> Result<bool, JudgeError> {
        Err(match number {
            FOUND => return Ok(told == 1),
            BAD_PLACE => JudgeError::Refused(Refusal::Place),
            BAD_MOMENT => JudgeError::Refused(Refusal::Moment),
            BAD_AREA => JudgeError::Refused(Refusal::Area),
            BAD_LEG => JudgeError::BadLeg(BadLeg { offset: told as usize }), // no more than the bytes that there are
            _ => unreachable!("number {number} is not one for journeys in tables that were checked"),
        })
    }

    /// The number: document 01's 7 to 9, or 13.
    pub const fn number(&self) -> u32 {
        match self {
            JudgeError::Refused(refusal) => refusal.number(),
            JudgeError::BadLeg(bad) => bad.number(),
        }
    }
}

impl fmt::Display for JudgeError {
    fn fmt(&self, f: &mut fmt::Formatter<'_>) -> fmt::Result {
        match self {
            JudgeError::Refused(refusal) => refusal.fmt(f),
            JudgeError::BadLeg(bad) => bad.fmt(f),
        }
    }
}

impl Error for JudgeError {}
