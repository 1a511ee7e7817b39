//! What comes of a query.
use crate::{ffi::AnswerWords, journey::Journey, names::*, numbers::words_of};
use std::{error::Error, fmt};

/// Why a query was not searched. Nothing that was lent has changed.
#[derive(Clone, Copy, Debug, PartialEq, Eq, Hash)]
#[repr(u32)]
pub enum Refusal {
    /// 6: the workspace is one for tables of another size.
    Workspace = BAD_WORKSPACE,
    /// 7: there is no such stop or area.
    Place = BAD_PLACE,
    /// 8: the moment is not one of 1 to 1,000,000.
    Moment = BAD_MOMENT,
    /// 9: an area has no served stop.
    Area = BAD_AREA,
}

impl Refusal {
    /// Document 01's number, 6 to 9.
    pub const fn number(self) -> u32 {
        self as u32
    }
}

impl fmt::Display for Refusal {
    fn fmt(&self, f: &mut fmt::Formatter<'_>) -> fmt::Result {
        f.write_str(words_of(self.number()))
    }
}

impl Error for Refusal {}

/// The answer to a query. The journey stands in the buffer that was lent.
#[derive(Clone, Copy, Debug, PartialEq, Eq)]
pub enum Answer<'b> {
    /// 0: a journey was found.
    Found {
        /// The moment of arrival; for a query with [`When::Arrival`](crate::When::Arrival) that of the first departure.
        time: u32,
        /// The stop where that is.
        stop: u32,
        /// The round in which it was found: one less than the rides.
        round: u32,
        /// Its legs. Bytes of the buffer past them are as they were.
        journey: Journey<'b>,
    },
    /// 6 to 9: the query was not searched.
    Refused(Refusal),
    /// 10: there is no journey.
    NoRouteFound,
    /// 11: a stop was chosen, but has no leg. Proved never to come.
    FailedToBuildRoute,
    /// 12: the journey does not fit into the buffer, which is as it was.
    TooLong {
        /// How many bytes it takes.
        needed: usize,
    },
}

impl<'b> Answer<'b> {
    /// The answer that the words say; `buffer` is the one that the search wrote to.
    pub(crate) fn from_words(words: AnswerWords, buffer: &'b [u8]) -> Answer<'b> {
        let AnswerWords { number, time, stop, round, length } = words;
        let length = length as usize;
        match number {
            FOUND => {
                // the search writes whole legs; reading them costs little beside it, and then no other journey can be had
                let journey = Journey::read(&buffer[..length]).expect("the search writes legs");
                Answer::Found { time, stop, round, journey }
            }
            BAD_WORKSPACE => Answer::Refused(Refusal::Workspace),
            BAD_PLACE => Answer::Refused(Refusal::Place),
            BAD_MOMENT => Answer::Refused(Refusal::Moment),
            BAD_AREA => Answer::Refused(Refusal::Area),
            NO_ROUTE_FOUND => Answer::NoRouteFound,
            FAILED_TO_BUILD_ROUTE => Answer::FailedToBuildRoute,
            TOO_LONG => Answer::TooLong { needed: length },
            _ => unreachable!("number {number} is not one for tables that were checked"),
        }
    }

    /// Document 01's number: 0, or 6 to 12.
    pub fn number(&self) -> u32 {
        match self.journey() {
            Ok(_) => FOUND,
            Err(none) => none.number(),
        }
    }

    /// The journey, or why there is none.
    pub fn journey(&self) -> Result<Journey<'b>, NoJourney> {
        Err(match *self {
            Answer::Found { journey, .. } => return Ok(journey),
            Answer::Refused(refusal) => NoJourney::Refused(refusal),
            Answer::NoRouteFound => NoJourney::NoRouteFound,
            Answer::FailedToBuildRoute => NoJourney::FailedToBuildRoute,
            Answer::TooLong { needed } => NoJourney::TooLong { needed },
        })
    }
}

/// The answers without a journey, as an error.
#[derive(Clone, Copy, Debug, PartialEq, Eq, Hash)]
pub enum NoJourney {
    /// 6 to 9: the query was not searched.
    Refused(Refusal),
    /// 10: there is no journey.
    NoRouteFound,
    /// 11: a stop was chosen, but has no leg. Proved never to come.
    FailedToBuildRoute,
    /// 12: the journey does not fit into the buffer.
    TooLong {
        /// How many bytes it takes.
        needed: usize,
    },
}

impl NoJourney {
    /// Document 01's number, 6 to 12.
    pub const fn number(&self) -> u32 {
        match self {
            NoJourney::Refused(refusal) => refusal.number(),
            NoJourney::NoRouteFound => NO_ROUTE_FOUND,
            NoJourney::FailedToBuildRoute => FAILED_TO_BUILD_ROUTE,
            NoJourney::TooLong { .. } => TOO_LONG,
        }
    }
}

impl fmt::Display for NoJourney {
    fn fmt(&self, f: &mut fmt::Formatter<'_>) -> fmt::Result {
        f.write_str(words_of(self.number()))?;
        match self {
            NoJourney::TooLong { needed } => write!(f, " (it takes {needed} bytes)"),
            _ => Ok(()),
        }
    }
}

impl Error for NoJourney {}
