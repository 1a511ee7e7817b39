//! Feeds as operators send them: GTFS's stop_times.txt and transfers.txt, read into rows of numbers, and such rows written.
//!
//! The reader and the writers are the proved ones of `kiosk_gtfs.h`, where it stands what a line must be. What makes tables of the rows,
//! [`Feed::tables`], is tested, not proved: its words go through [`Tables::check`](crate::Tables::check) as those of any other loader.
//!
//! ```
//! use kiosk::gtfs::{Feed, StopTime};
//!
//! let stop_times = b"trip_id,arrival_time,departure_time,stop_id,stop_sequence\n\
//!     bus,7:00:00,7:00:00,\"Harbour, east\",1\n\
//!     bus,7:10:00,7:11:00,Market,2\n";
//! let transfers = b"from_stop_id,to_stop_id,transfer_type\n";
//! let feed = Feed::read(stop_times, transfers)?;
//! assert_eq!((feed.stops(), feed.trips()), (2, 1));
//! assert_eq!(feed.stop_id(0), "Harbour, east");
//! let day = kiosk::DAY; // the reader adds it to every moment
//! let first = StopTime { trip: 0, stop: 0, arrival: day + 25_200, departure: day + 25_200 };
//! assert_eq!(feed.times().next(), Some(first));
//!
//! let words = feed.tables(|_from, _to| 100.0);
//! let tables = kiosk::Tables::check(&words)?;
//! # Ok::<(), Box<dyn std::error::Error>>(())
//! ```
use crate::{
    ffi::{self, FeedRoom},
    loader,
    names::FOUND,
    numbers::words_of,
};
use std::{borrow::Cow, error::Error, fmt};

/// The most stops that a feed may have.
pub const MOST_STOPS: usize = 4_096;
/// The most trips.
pub const MOST_TRIPS: usize = 16_384;
/// The most rows of stop_times.txt.
pub const MOST_TIMES: usize = 262_144;
/// The most rows of transfers.txt.
pub const MOST_TRANSFERS: usize = 16_384;
/// The span of a transfer whose type is not 2.
pub const UNSTATED: u32 = 4_294_967_295;
/// A line that is not as it should be.
pub const BAD_LINE: u32 = 14;
/// A table that is full.
pub const FULL: u32 = 15;

/// A row of stop_times.txt. Its position is how many rows of the trip stand before it.
#[derive(Clone, Copy, Debug, PartialEq, Eq, Hash)]
pub struct StopTime {
    /// The trip's number.
    pub trip: u32,
    /// The stop's number.
    pub stop: u32,
    /// When the trip comes there, with [`DAY`](crate::DAY) added.
    pub arrival: u32,
    /// When it leaves, with [`DAY`](crate::DAY) added.
    pub departure: u32,
}

/// A row of transfers.txt.
#[derive(Clone, Copy, Debug, PartialEq, Eq, Hash)]
pub struct Transfer {
    /// The stop that it leaves.
    pub from: u32,
    /// The stop that it leads to.
    pub to: u32,
    /// GTFS's transfer_type, 0 to 5; an empty one is 0.
    pub kind: u32,
    /// The seconds that a type 2 states; [`UNSTATED`] with any other.
    pub span: u32,
}

impl StopTime {
    fn from_words(row: &[u32]) -> StopTime {
        StopTime { trip: row[0], stop: row[1], arrival: row[2], departure: row[3] }
    }

    fn words(&self) -> [u32; 4] {
        [self.trip, self.stop, self.arrival, self.departure]
    }
}

impl Transfer {
    fn from_words(row: &[u32]) -> Transfer {
        Transfer { from: row[0], to: row[1], kind: row[2], span: row[3] }
    }

    fn words(&self) -> [u32; 4] {
        [self.from, self.to, self.kind, self.span]
    }
}

/// One of the two files.
#[derive(Clone, Copy, Debug, PartialEq, Eq, Hash)]
pub enum File {
    /// stop_times.txt
    StopTimes,
    /// transfers.txt
    Transfers,
}

impl fmt::Display for File {
    fn fmt(&self, f: &mut fmt::Formatter<'_>) -> fmt::Result {
        f.write_str(match self {
            File::StopTimes => "stop_times.txt",
            File::Transfers => "transfers.txt",
        })
    }
}

/// Why a feed was not read, or rows were not written.
#[derive(Clone, Copy, Debug, PartialEq, Eq, Hash)]
pub struct FeedError {
    /// 1: a file above 4,294,967,295 bytes. 14: a bad line. 15: more stops, trips or rows than there may be. Of rows that are written: 1,
    /// too many of them; 2, a stop or a trip that is neither one before nor the next; 3, a moment that no clock shows; 5, a type above 5,
    /// a type 2 without a span, or a span of another type.
    pub number: u32,
    /// The bad line, counted from 1; with another number 0.
    pub line: u32,
    /// Where it stands; with another number nowhere.
    pub file: Option<File>,
}

impl FeedError {
    fn of_number(number: u32) -> FeedError {
        FeedError { number, line: 0, file: None }
    }
}

impl fmt::Display for FeedError {
    fn fmt(&self, f: &mut fmt::Formatter<'_>) -> fmt::Result {
        match self.file {
            Some(file) => write!(f, "{file}, line {}: {}", self.line, words_of(self.number)),
            None => f.write_str(match self.number {
                1 => "a file that is too long, or rows that are too many",
                2 => "a stop or a trip that is out of order",
                3 => "a moment that no clock shows",
                5 => "a transfer's type or span that is none",
                other => words_of(other),
            }),
        }
    }
}

impl Error for FeedError {}

/// What two files say: stops and trips are numbered in the order in which they appear, stop_times.txt first. It borrows the files, since
/// an id is where it stands there.
#[derive(Clone)]
pub struct Feed<'a> {
    files: [&'a [u8]; 2],
    /// of each stop where its id begins and ends; those below `split` in the first file, the others in the second
    stops: Vec<[u32; 2]>,
    split: usize,
    trips: Vec<[u32; 2]>,
    /// rows of four words
    times: Vec<u32>,
    paths: Vec<u32>,
}

/// The places of the ids that a book holds.
fn places(book: &[u32], most: usize, count: usize) -> Vec<[u32; 2]> {
    book[most..].chunks_exact(3).take(count).map(|name| [name[0], name[1]]).collect()
}

/// The first rows alone.
fn cut(mut rows: Vec<u32>, count: usize) -> Vec<u32> {
    rows.truncate(4 * count);
    rows.shrink_to_fit();
    rows
}

/// A doubled quote stands for one.
fn undoubled(text: &[u8]) -> Cow<'_, [u8]> {
    if !text.contains(&b'"') {
        return Cow::Borrowed(text);
    }
    let mut bytes = Vec::with_capacity(text.len());
    let mut rest = text.iter();
    while let Some(&byte) = rest.next() {
        bytes.push(byte);
        if byte == b'"' {
            rest.next(); // the second of two
        }
    }
    Cow::Owned(bytes)
}

fn text(bytes: Cow<'_, [u8]>) -> Cow<'_, str> {
    match bytes {
        Cow::Borrowed(bytes) => String::from_utf8_lossy(bytes),
        Cow::Owned(bytes) => Cow::Owned(String::from_utf8_lossy(&bytes).into_owned()),
    }
}

impl<'a> Feed<'a> {
    /// Reads both files. The first line that is refused decides. A feed without transfers has a transfers.txt with its header alone.
    pub fn read(stop_times: &'a [u8], transfers: &'a [u8]) -> Result<Feed<'a>, FeedError> {
        let room = |most: usize| vec![0; 4 * most];
        let (mut times, mut paths) = (room(MOST_TIMES), room(MOST_TRANSFERS));
        let (mut stops, mut trips) = (room(MOST_STOPS), room(MOST_TRIPS));
        let lent = FeedRoom { times: &mut times, paths: &mut paths, stops: &mut stops, trips: &mut trips };
        let told = ffi::read_feed(stop_times, transfers, lent);
        if told.number != FOUND {
            let file = match told.file {
                1 => Some(File::StopTimes),
                2 => Some(File::Transfers),
                _ => None,
            };
            return Err(FeedError { number: told.number, line: told.line, file });
        }
        Ok(Feed {
            files: [stop_times, transfers],
            stops: places(&stops, MOST_STOPS, told.stops),
            split: told.split,
            trips: places(&trips, MOST_TRIPS, told.trips),
            times: cut(times, told.times),
            paths: cut(paths, told.transfers),
        })
    }

    /// How many stops there are.
    pub fn stops(&self) -> u32 {
        self.stops.len() as u32
    }

    /// How many trips there are.
    pub fn trips(&self) -> u32 {
        self.trips.len() as u32
    }

    /// The operator's id of a stop, byte by byte.
    ///
    /// # Panics
    /// Where there is no such stop.
    pub fn stop_bytes(&self, stop: u32) -> Cow<'a, [u8]> {
        let file = self.files[usize::from(stop as usize >= self.split)];
        let [from, end] = self.stops[stop as usize];
        undoubled(&file[from as usize..end as usize])
    }

    /// The operator's id of a stop. What is no UTF-8 in it is shown by a mark.
    ///
    /// # Panics
    /// Where there is no such stop.
    pub fn stop_id(&self, stop: u32) -> Cow<'a, str> {
        text(self.stop_bytes(stop))
    }

    /// The operator's id of a trip, byte by byte.
    ///
    /// # Panics
    /// Where there is no such trip.
    pub fn trip_bytes(&self, trip: u32) -> Cow<'a, [u8]> {
        let [from, end] = self.trips[trip as usize];
        undoubled(&self.files[0][from as usize..end as usize])
    }

    /// The operator's id of a trip. What is no UTF-8 in it is shown by a mark.
    ///
    /// # Panics
    /// Where there is no such trip.
    pub fn trip_id(&self, trip: u32) -> Cow<'a, str> {
        text(self.trip_bytes(trip))
    }

    /// The number of the stop with this id. It looks at one after the other.
    pub fn stop_of(&self, id: &str) -> Option<u32> {
        (0..self.stops()).find(|&stop| self.stop_bytes(stop) == id.as_bytes())
    }

    /// The number of the trip with this id. It looks at one after the other.
    pub fn trip_of(&self, id: &str) -> Option<u32> {
        (0..self.trips()).find(|&trip| self.trip_bytes(trip) == id.as_bytes())
    }

    /// The rows of stop_times.txt, in the order of their lines.
    pub fn times(&self) -> impl ExactSizeIterator<Item = StopTime> + '_ {
        self.times.chunks_exact(4).map(StopTime::from_words)
    }

    /// The rows of transfers.txt, in the order of their lines.
    pub fn transfers(&self) -> impl ExactSizeIterator<Item = Transfer> + '_ {
        self.paths.chunks_exact(4).map(Transfer::from_words)
    }

    /// stop_times.txt once more: ids are the numbers, sequences the positions, columns in GTFS's order. Read again it gives the same rows.
    pub fn write_times(&self) -> Vec<u8> {
        write_times_words(&self.times).expect("rows that were read can be written")
    }

    /// transfers.txt once more.
    pub fn write_transfers(&self) -> Vec<u8> {
        write_transfers_words(&self.paths, self.split as u32).expect("rows that were read can be written")
    }

    /// The words of tables: stops and trips keep their numbers. Trips with the same stops are one route, or several where one overtakes
    /// another, and stand there in the order of their times. A transfer of type 0 or 1 takes the metres between its stops, which the files
    /// do not say; one of type 2 its seconds; those of type 3, which are not possible, and of 4 and 5, which are within a vehicle, are
    /// left out. There are no stations, walks and areas.
    ///
    /// [`Tables::check`](crate::Tables::check) says what is wrong with them: 1 for more than 1,024 routes or 128 stops of a trip, 3 for
    /// times that fall along a trip, 5 for metres and seconds that are too many.
    pub fn tables(&self, metres: impl Fn(u32, u32) -> f32) -> Vec<u32> {
        let times: Vec<StopTime> = self.times().collect();
        let transfers: Vec<Transfer> = self.transfers().collect();
        loader::words(self.stops(), self.trips(), &times, &transfers, metres)
    }
}

impl fmt::Debug for Feed<'_> {
    fn fmt(&self, f: &mut fmt::Formatter<'_>) -> fmt::Result {
        let (times, transfers) = (self.times().len(), self.transfers().len());
        write!(f, "Feed({} stops, {} trips, {times} times, {transfers} transfers)", self.stops(), self.trips())
    }
}

fn write_times_words(words: &[u32]) -> Result<Vec<u8>, FeedError> {
    let mut out = vec![0; 58 + 9 * words.len()]; // the header; the longest row is of 36 bytes
    let length = ffi::write_times(words, &mut out).map_err(FeedError::of_number)?;
    out.truncate(length);
    Ok(out)
}

fn write_transfers_words(words: &[u32], stops: u32) -> Result<Vec<u8>, FeedError> {
    let mut out = vec![0; 56 + 6 * words.len()]; // the header; the longest row is of 23 bytes
    let length = ffi::write_transfers(words, stops, &mut out).map_err(FeedError::of_number)?;
    out.truncate(length);
    Ok(out)
}

/// Any rows as stop_times.txt, where they are as the reader gives them: each stop and each trip has stood before or is the next number,
/// the rows of a trip stand together. The first row that is not so decides the number.
pub fn write_times(times: &[StopTime]) -> Result<Vec<u8>, FeedError> {
    let words: Vec<u32> = times.iter().flat_map(StopTime::words).collect();
    write_times_words(&words)
}

/// Any rows as transfers.txt, alike; `stops` is how many stops the times have.
pub fn write_transfers(transfers: &[Transfer], stops: u32) -> Result<Vec<u8>, FeedError> {
    let words: Vec<u32> = transfers.iter().flat_map(Transfer::words).collect();
    write_transfers_words(&words, stops)
}
