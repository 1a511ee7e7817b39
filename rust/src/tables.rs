//! The tables, what a search on them needs, and the search.
use crate::{
    answer::Answer,
    ffi::{Checked, Lent, Room},
    judge::JudgeError,
    names::*,
    numbers::words_of,
    query::Query,
};
use std::{error::Error, fmt};

/// Why tables were refused.
#[derive(Clone, Copy, Debug, PartialEq, Eq, Hash)]
#[repr(u32)]
pub enum TablesError {
    /// 1: a count, a length or the header is wrong.
    Count = BAD_COUNT,
    /// 2: an index or a listing rule.
    Listing = BAD_LISTING,
    /// 3: the moments of a trip.
    Timetable = BAD_TIMETABLE,
    /// 4: the order of a route's trips.
    Order = BAD_ORDER,
    /// 5: a footpath's distance or span.
    Footpath = BAD_FOOTPATH,
}

impl TablesError {
    fn from_number(number: u32) -> TablesError {
        match number {
            BAD_COUNT => TablesError::Count,
            BAD_LISTING => TablesError::Listing,
            BAD_TIMETABLE => TablesError::Timetable,
            BAD_ORDER => TablesError::Order,
            BAD_FOOTPATH => TablesError::Footpath,
            _ => unreachable!("number {number} is not one for tables"),
        }
    }

    /// Document 01's number, 1 to 5.
    pub const fn number(self) -> u32 {
        self as u32
    }
}

impl fmt::Display for TablesError {
    fn fmt(&self, f: &mut fmt::Formatter<'_>) -> fmt::Result {
        f.write_str(words_of(self.number()))
    }
}

impl Error for TablesError {}

/// Tables that were checked. They borrow their words, so the words cannot change while a search may read them:
///
/// ```compile_fail,E0506
/// # use kiosk::Tables;
/// let mut words = vec![0; 21];
/// let tables = Tables::check(&words);
/// words[0] = 21;
/// println!("{tables:?}");
/// ```
///
/// The words may stand in memory that is mapped from a file; then nobody may write to the file meanwhile.
#[derive(Clone, Copy)]
pub struct Tables<'a> {
    checked: Checked<'a>,
}

impl<'a> Tables<'a> {
    /// Checks the words, once, so that no search need do it again. The lowest number that applies is given.
    pub fn check(words: &'a [u32]) -> Result<Tables<'a>, TablesError> {
        match Checked::new(words) {
            Ok(checked) => Ok(Tables { checked }),
            Err(number) => Err(TablesError::from_number(number)),
        }
    }

    /// The words that were checked.
    pub fn words(&self) -> &'a [u32] {
        self.checked.words()
    }

    /// Searches. The journey is written to the front of the buffer; where there is none the buffer stays as it was. No journey
    /// takes more than 17 bytes for each stop of the tables and 60 beside, nor more than [`MOST_JOURNEY`].
    pub fn solve<'b>(&self, workspace: &mut Workspace, buffer: &'b mut [u8], query: &Query) -> Answer<'b> {
        let lent = Lent {
            words: &mut workspace.words,
            marks: &mut workspace.marks,
            places: &mut workspace.places,
            journey: buffer,
        };
        let words = self.checked.solve(lent, &query.words());
        Answer::from_words(words, buffer)
    }

    /// Judges journey bytes, wherever they come from: whether they are a journey of the query in these tables. It searches nothing, and the query's mode
    /// is not looked at.
    ///
    /// They are where there is a leg and 1 to 15 of the legs are rides; where each leg leaves from where the one before comes to, and no sooner; where each
    /// ride fits an earlier and a later position of its trip, and each footpath one that is listed and lasts exactly its span, of its own kind, walks only
    /// where the query does not bar them; and where the first leg leaves a stop that the query's first place stands for, the last one comes to one of the
    /// second's. For [`When::Departure`](crate::When::Departure) the first leg is a ride and leaves at the moment or later; for
    /// [`When::Arrival`](crate::When::Arrival) the last leg is a ride and comes at the moment or sooner. No leg at all is a no.
    ///
    /// What [`solve`](Tables::solve) writes gets a yes for its own query; where an arrival was asked for, if each footpath that the query allows is listed
    /// the other way too, as the same kind and with the same span.
    pub fn judge(&self, query: &Query, bytes: &[u8]) -> Result<bool, JudgeError> {
        let (number, told) = self.checked.judge(bytes, &query.words());
        JudgeError::verdict(number, told)
    }
}

impl fmt::Debug for Tables<'_> {
    fn fmt(&self, f: &mut fmt::Formatter<'_>) -> fmt::Result {
        write!(f, "Tables({} words)", self.words().len())
    }
}

/// Where a search works. It is for one search at a time and serves any number of them, each of which clears it first.
///
/// It fits all tables of the same size; with others the answer is number 6, and the workspace stays as it was.
#[derive(Clone, PartialEq, Eq)]
pub struct Workspace {
    words: Vec<u32>,
    marks: Vec<u64>,
    places: Vec<u32>,
}

impl Workspace {
    /// A workspace of the size that the tables ask for.
    pub fn for_tables(tables: &Tables<'_>) -> Workspace {
        let Room { words, marks, places } = tables.checked.room();
        Workspace { words: vec![0; words], marks: vec![0; marks], places: vec![0; places] }
    }
}

impl fmt::Debug for Workspace {
    fn fmt(&self, f: &mut fmt::Formatter<'_>) -> fmt::Result {
        let Workspace { words, marks, places } = self;
        let (words, marks, places) = (words.len(), marks.len(), places.len());
        write!(f, "Workspace({words} words, {marks} marks, {places} places)")
    }
}
