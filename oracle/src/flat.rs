//! Flat tables taken apart: a header of 21 words, then 20 sections. Who writes them: ../compare/network.c and ../tools/timetable.py.
use crate::{raptor::time_to_walk, shared::geo::Distance};

/// No parent, or an unstated span.
pub const NONE: u32 = u32::MAX;

/// The sections in their order. A list stands right behind its starts; the last one, a row for each trip, has none.
#[derive(Clone, Copy)]
pub enum Section {
    StopList,
    Stations,
    ChildStarts,
    Children,
    CallStarts,
    Calls,
    Served,
    TransferStarts,
    Transfers,
    WalkStarts,
    Walks,
    RouteStopStarts,
    RouteStops,
    RouteTripStarts,
    RouteTrips,
    TimeStarts,
    Times,
    AreaStarts,
    AreaStops,
    Standing,
}
use Section::*;

/// The words of the header, which is the layout's number.
const HEADER: usize = Standing as usize + 2;

/// A flat image taken apart.
pub struct Flat<'a> {
    words: &'a [u32],
}

impl<'a> Flat<'a> {
    pub fn new(words: &'a [u32]) -> Result<Self, String> {
        let whole = words.len() >= HEADER && words[0] as usize == HEADER && words[HEADER - 1] as usize == words.len();
        if !whole || !words[..HEADER].is_sorted() {
            return Err("the header is wrong".into());
        }
        Ok(Flat { words })
    }

    fn at(&self, k: usize) -> &'a [u32] {
        &self.words[self.words[k] as usize..self.words[k + 1] as usize]
    }

    pub fn section(&self, section: Section) -> &'a [u32] {
        self.at(section as usize)
    }

    /// The rows (of `width` words) of a list under entry `i` of its starts.
    pub fn under(&self, list: Section, width: usize, i: usize) -> &'a [u32] {
        let starts = self.at(list as usize - 1);
        &self.section(list)[starts[i] as usize * width..starts[i + 1] as usize * width]
    }

    pub fn stops(&self) -> usize {
        self.section(StopList).len()
    }

    pub fn routes(&self) -> usize {
        self.section(RouteStopStarts).len() - 1
    }

    pub fn trips(&self) -> usize {
        self.section(TimeStarts).len() - 1
    }

    pub fn areas(&self) -> usize {
        self.section(AreaStarts).len() - 1
    }
}

/// The words of a `net` line.
pub fn words(line: &str) -> Option<Vec<u32>> {
    line.strip_prefix("net ")?.split_ascii_whitespace().map(|x| x.parse().ok()).collect()
}

/// The image with each moment m as 2m - 1 and each footpath's span as twice itself (see harness::reaching).
pub fn doubled(words: &[u32]) -> Result<Vec<u32>, String> {
    Flat::new(words)?;
    let extent = |section: Section| words[section as usize] as usize..words[section as usize + 1] as usize;
    // 3 metres are 2 seconds, and 3 times a whole number of seconds is a float without rounding
    let twice =
        |metres: u32| (3.0 * time_to_walk(Distance::from_meters(f32::from_bits(metres))).as_seconds() as f32).to_bits();
    let mut out = words.to_vec();
    for row in out[extent(Transfers)].chunks_mut(4) {
        if row[2] != NONE {
            row[2] *= 2
        }
        row[3] = twice(row[3]);
    }
    for row in out[extent(Walks)].chunks_mut(2) {
        row[1] = twice(row[1])
    }
    for moment in &mut out[extent(Times)] {
        *moment = 2 * *moment - 1
    }
    Ok(out)
}
