//! The functions of `kiosk.h` and `kiosk_gtfs.h`, each behind a safe one. All that is unsafe in this crate is here.
//!
//! [`Checked`] can be had from [`Checked::new`] alone, so no code outside this file can search words that were not checked.
#![allow(unsafe_code)]

use crate::names::{BAD_LEG, FOUND};

// As in crates/kiosk_c/include/kiosk.h and crates/gtfs_c/include/kiosk_gtfs.h, with which tests/kiosk/header.rs compares it.
extern "C" {
    fn kiosk_check(tables: *const u32, tables_len: usize) -> u32;

    fn kiosk_room(tables: *const u32, tables_len: usize, room: *mut u32, room_len: usize) -> u32;

    fn kiosk_solve_checked(
        tables: *const u32,
        tables_len: usize,
        words: *mut u32,
        words_len: usize,
        marks: *mut u64,
        marks_len: usize,
        places: *mut u32,
        places_len: usize,
        journey: *mut u8,
        journey_len: usize,
        from_kind: u32,
        from: u32,
        to_kind: u32,
        to: u32,
        when: u32,
        moment: u32,
        walks: u32,
        mode: u32,
        answer: *mut u32,
        answer_len: usize,
    ) -> u32;

    fn kiosk_read(journey: *const u8, journey_len: usize, told: *mut u64, told_len: usize) -> u32;

    fn kiosk_leg(journey: *const u8, journey_len: usize, at: usize, leg: *mut u32, leg_len: usize) -> u32;

    fn kiosk_judge_checked(
        tables: *const u32,
        tables_len: usize,
        journey: *const u8,
        journey_len: usize,
        from_kind: u32,
        from: u32,
        to_kind: u32,
        to: u32,
        when: u32,
        moment: u32,
        walks: u32,
        told: *mut u64,
        told_len: usize,
    ) -> u32;

    fn kiosk_gtfs_read(
        stop_times: *const u8,
        stop_times_len: usize,
        transfers: *const u8,
        transfers_len: usize,
        times: *mut u32,
        times_len: usize,
        paths: *mut u32,
        paths_len: usize,
        stops: *mut u32,
        stops_len: usize,
        trips: *mut u32,
        trips_len: usize,
        told: *mut u32,
        told_len: usize,
    ) -> u32;

    fn kiosk_gtfs_write_times(
        times: *const u32,
        times_len: usize,
        out: *mut u8,
        out_len: usize,
        told: *mut u32,
        told_len: usize,
    ) -> u32;

    fn kiosk_gtfs_write_transfers(
        paths: *const u32,
        paths_len: usize,
        stops: u32,
        out: *mut u8,
        out_len: usize,
        told: *mut u32,
        told_len: usize,
    ) -> u32;
}

/// The lengths that tables ask of a workspace.
pub(crate) struct Room {
    pub(crate) words: usize,
    pub(crate) marks: usize,
    pub(crate) places: usize,
}

/// What a query lends to the search beside the tables.
pub(crate) struct Lent<'w> {
    pub(crate) words: &'w mut [u32],
    pub(crate) marks: &'w mut [u64],
    pub(crate) places: &'w mut [u32],
    pub(crate) journey: &'w mut [u8],
}

/// A query as the C face takes it.
pub(crate) struct QueryWords {
    pub(crate) from: [u32; 2],
    pub(crate) to: [u32; 2],
    pub(crate) when: [u32; 2],
    pub(crate) walks: u32,
    pub(crate) mode: u32,
}

/// An answer as the C face gives it.
pub(crate) struct AnswerWords {
    pub(crate) number: u32,
    pub(crate) time: u32,
    pub(crate) stop: u32,
    pub(crate) round: u32,
    pub(crate) length: u32,
}

/// Words that the check answered with 0. They are borrowed, so they stay as they were checked.
#[derive(Clone, Copy)]
pub(crate) struct Checked<'a>(&'a [u32]);

impl<'a> Checked<'a> {
    /// The words, or the number that the check gives instead of 0.
    pub(crate) fn new(words: &'a [u32]) -> Result<Checked<'a>, u32> {
        // SAFETY: pointer and length are those of one slice, which the check only reads. It asks nothing of the words themselves.
        match unsafe { kiosk_check(words.as_ptr(), words.len()) } {
            FOUND => Ok(Checked(words)),
            number => Err(number),
        }
    }

    pub(crate) fn words(self) -> &'a [u32] {
        self.0
    }

    pub(crate) fn room(self) -> Room {
        let mut room = [0; 3];
        // SAFETY: each pointer goes with the length of its slice; the tables are only read, and the three words of `room` are ours.
        let number = unsafe { kiosk_room(self.0.as_ptr(), self.0.len(), room.as_mut_ptr(), room.len()) };
        assert_eq!(number, FOUND, "the tables were checked");
        let [words, marks, places] = room.map(|length| length as usize);
        Room { words, marks, places }
    }

    /// The search. What is lent may be of any length and the query of any words: the answer then says what is wrong.
    pub(crate) fn solve(self, lent: Lent<'_>, query: &QueryWords) -> AnswerWords {
        let mut answer = [0; 5];
        // SAFETY: each pointer goes with the length of its slice. What is written to is borrowed by `&mut`, so it is nobody else's
        // and no two of the slices overlap. kiosk_check answered these words with 0, which is all that this function requires; they
        // are borrowed since, so nobody changed them. The library keeps no pointer and nothing of its own between two calls.
        let number = unsafe {
            kiosk_solve_checked(
                self.0.as_ptr(),
                self.0.len(),
                lent.words.as_mut_ptr(),
                lent.words.len(),
                lent.marks.as_mut_ptr(),
                lent.marks.len(),
                lent.places.as_mut_ptr(),
                lent.places.len(),
                lent.journey.as_mut_ptr(),
                lent.journey.len(),
                query.from[0],
                query.from[1],
                query.to[0],
                query.to[1],
                query.when[0],
                query.when[1],
                query.walks,
                query.mode,
                answer.as_mut_ptr(),
                answer.len(),
            )
        };
        let [first, time, stop, round, length] = answer;
        debug_assert_eq!(number, first, "the number is the answer's first word too");
        AnswerWords { number, time, stop, round, length }
    }

    /// Judges journey bytes: the number, and what is told. The query and the bytes may be any.
    pub(crate) fn judge(self, bytes: &[u8], query: &QueryWords) -> (u32, u64) {
        let mut told = [0; 1];
        // SAFETY: each pointer goes with the length of its slice; the tables and the bytes are only read, and the word of `told` is ours.
        // kiosk_check answered these words with 0, which is all that this function requires; they are borrowed since, so nobody changed them.
        let number = unsafe {
            kiosk_judge_checked(
                self.0.as_ptr(),
                self.0.len(),
                bytes.as_ptr(),
                bytes.len(),
                query.from[0],
                query.from[1],
                query.to[0],
                query.to[1],
                query.when[0],
                query.when[1],
                query.walks,
                told.as_mut_ptr(),
                told.len(),
            )
        };
        (number, told[0])
    }
}

/// How many legs journey bytes are, or where the first bad leg begins.
pub(crate) fn read_journey(bytes: &[u8]) -> Result<usize, usize> {
    let mut told = [0; 1];
    // SAFETY: each pointer goes with the length of its slice; the bytes are only read, and the word of `told` is ours.
    let number = unsafe { kiosk_read(bytes.as_ptr(), bytes.len(), told.as_mut_ptr(), told.len()) };
    let told = told[0] as usize; // no more than the bytes that there are
    if number == FOUND {
        Ok(told)
    } else {
        Err(told)
    }
}

/// The six words of the leg that starts at an offset, and how many bytes it takes; None where there is no whole leg.
pub(crate) fn read_leg(bytes: &[u8], at: usize) -> Option<([u32; 6], usize)> {
    let mut leg = [0; 6];
    // SAFETY: each pointer goes with the length of its slice; the bytes are only read, and the words of `leg` are ours. Any offset may be
    // asked.
    let size = unsafe { kiosk_leg(bytes.as_ptr(), bytes.len(), at, leg.as_mut_ptr(), leg.len()) };
    (size > BAD_LEG).then_some((leg, size as usize))
}

/// What a reading of a feed is lent: two tables of rows and two books of ids.
pub(crate) struct FeedRoom<'r> {
    pub(crate) times: &'r mut [u32],
    pub(crate) paths: &'r mut [u32],
    pub(crate) stops: &'r mut [u32],
    pub(crate) trips: &'r mut [u32],
}

/// What is told of a reading.
#[derive(Clone, Copy)]
pub(crate) struct FeedTold {
    pub(crate) number: u32,
    pub(crate) line: u32,
    pub(crate) file: u32,
    pub(crate) stops: usize,
    pub(crate) split: usize,
    pub(crate) trips: usize,
    pub(crate) times: usize,
    pub(crate) transfers: usize,
}

/// Reads both files of a feed. The room may be of any length.
pub(crate) fn read_feed(stop_times: &[u8], transfers: &[u8], room: FeedRoom<'_>) -> FeedTold {
    let mut told = [0; 8];
    // SAFETY: each pointer goes with the length of its slice. The files are only read. What is written to is borrowed by `&mut`, so it is
    // nobody else's and no two of the slices overlap. Any bytes may be read. The library keeps no pointer.
    let number = unsafe {
        kiosk_gtfs_read(
            stop_times.as_ptr(),
            stop_times.len(),
            transfers.as_ptr(),
            transfers.len(),
            room.times.as_mut_ptr(),
            room.times.len(),
            room.paths.as_mut_ptr(),
            room.paths.len(),
            room.stops.as_mut_ptr(),
            room.stops.len(),
            room.trips.as_mut_ptr(),
            room.trips.len(),
            told.as_mut_ptr(),
            told.len(),
        )
    };
    let [first, line, file, counts @ ..] = told;
    debug_assert_eq!(number, first, "the number is the first word that is told too");
    let [stops, split, trips, times, transfers] = counts.map(|count| count as usize);
    FeedTold { number, line, file, stops, split, trips, times, transfers }
}

/// How many bytes rows of times were written as, or the number of the refusal. They may be any words.
pub(crate) fn write_times(times: &[u32], out: &mut [u8]) -> Result<usize, u32> {
    let mut told = [0; 2];
    // SAFETY: each pointer goes with the length of its slice; the rows are only read, the bytes are borrowed by `&mut`, the words of
    // `told` are ours.
    let number = unsafe {
        kiosk_gtfs_write_times(times.as_ptr(), times.len(), out.as_mut_ptr(), out.len(), told.as_mut_ptr(), told.len())
    };
    if number == FOUND {
        Ok(told[1] as usize)
    } else {
        Err(number)
    }
}

/// The same of rows of transfers, behind so many stops.
pub(crate) fn write_transfers(paths: &[u32], stops: u32, out: &mut [u8]) -> Result<usize, u32> {
    let mut told = [0; 2];
    // SAFETY: as with the times.
    let number = unsafe {
        kiosk_gtfs_write_transfers(
            paths.as_ptr(),
            paths.len(),
            stops,
            out.as_mut_ptr(),
            out.len(),
            told.as_mut_ptr(),
            told.len(),
        )
    };
    if number == FOUND {
        Ok(told[1] as usize)
    } else {
        Err(number)
    }
}
