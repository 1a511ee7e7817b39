//! Journey bytes and the legs in them: one byte of kind, then a body whose length the kind fixes.
use crate::{
    ffi::{read_journey, read_leg},
    names::*,
    numbers::words_of,
};
use std::{error::Error, fmt, iter::FusedIterator};

/// What a leg is.
#[derive(Clone, Copy, Debug, PartialEq, Eq, Hash)]
pub enum LegKind {
    /// A ride on a trip.
    Ride {
        /// The trip's number.
        trip: u32,
    },
    /// A listed transfer.
    Transfer,
    /// A walk.
    Walk,
}

/// One leg of a journey. Moments are in seconds.
#[derive(Clone, Copy, Debug, PartialEq, Eq, Hash)]
pub struct Leg {
    /// The stop that it leaves.
    pub from: u32,
    /// The stop that it comes to.
    pub to: u32,
    /// When it leaves.
    pub departure: u32,
    /// When it comes.
    pub arrival: u32,
    /// What it is.
    pub kind: LegKind,
}

/// The line that the program `showlegs` prints: kind, from, to, trip or a dash, departure, arrival.
impl fmt::Display for Leg {
    fn fmt(&self, f: &mut fmt::Formatter<'_>) -> fmt::Result {
        let Leg { from, to, departure, arrival, kind } = self;
        match kind {
            LegKind::Ride { trip } => write!(f, "ride {from} {to} {trip} {departure} {arrival}"),
            LegKind::Transfer => write!(f, "transfer {from} {to} - {departure} {arrival}"),
            LegKind::Walk => write!(f, "walk {from} {to} - {departure} {arrival}"),
        }
    }
}

/// The leg that starts at an offset and where it ends; None where there is no whole leg.
fn leg_at(bytes: &[u8], at: usize) -> Option<(Leg, usize)> {
    let ([kind, from, to, trip, departure, arrival], size) = read_leg(bytes, at)?;
    let kind = match kind {
        RIDE => LegKind::Ride { trip },
        TRANSFER => LegKind::Transfer,
        _ => LegKind::Walk,
    };
    Some((Leg { from, to, departure, arrival, kind }, at + size))
}

/// Journey bytes that were read: whole legs, in riding order. Two journeys are equal where their legs are.
#[derive(Clone, Copy, PartialEq, Eq, Hash)]
pub struct Journey<'b> {
    bytes: &'b [u8],
}

impl<'b> Journey<'b> {
    /// Reads any bytes. Empty bytes are zero legs. What the values of the fields mean is not asked; only the search promises that.
    pub fn read(bytes: &'b [u8]) -> Result<Journey<'b>, BadLeg> {
        match read_journey(bytes) {
            Ok(_) => Ok(Journey { bytes }),
            Err(offset) => Err(BadLeg { offset }),
        }
    }

    /// The bytes, as they were read.
    pub fn bytes(&self) -> &'b [u8] {
        self.bytes
    }

    /// The legs, in riding order.
    pub fn legs(&self) -> Legs<'b> {
        Legs { bytes: self.bytes, at: 0 }
    }
}

impl fmt::Debug for Journey<'_> {
    fn fmt(&self, f: &mut fmt::Formatter<'_>) -> fmt::Result {
        f.debug_list().entries(self.legs()).finish()
    }
}

impl<'b> IntoIterator for Journey<'b> {
    type Item = Leg;
    type IntoIter = Legs<'b>;

    fn into_iter(self) -> Legs<'b> {
        self.legs()
    }
}

impl<'b> IntoIterator for &Journey<'b> {
    type Item = Leg;
    type IntoIter = Legs<'b>;

    fn into_iter(self) -> Legs<'b> {
        self.legs()
    }
}

/// The legs of a journey that are still to come.
#[derive(Clone, Debug)]
pub struct Legs<'b> {
    /// whole legs, since they come from a journey
    bytes: &'b [u8],
    at: usize,
}

impl Iterator for Legs<'_> {
    type Item = Leg;

    fn next(&mut self) -> Option<Leg> {
        let (leg, end) = leg_at(self.bytes, self.at)?;
        self.at = end;
        Some(leg)
    }
}

impl FusedIterator for Legs<'_> {}

/// Number 13: bytes that are no journey.
#[derive(Clone, Copy, Debug, PartialEq, Eq, Hash)]
pub struct BadLeg {
    /// Where the first bad leg begins.
    pub offset: usize,
}

impl BadLeg {
    /// Document 01's number, 13.
    pub const fn number(&self) -> u32 {
        BAD_LEG
    }
}

impl fmt::Display for BadLeg {
    fn fmt(&self, f: &mut fmt::Formatter<'_>) -> fmt::Result {
        write!(f, "{} (at offset {})", words_of(self.number()), self.offset)
    }
}

impl Error for BadLeg {}
