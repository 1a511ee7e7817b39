//! The names of `kiosk.h`, without its `KIOSK_`. The tests compare the two.

/// Raised by one whenever the tables' layout changes, or a function, a number, a word or a leg's bytes come to mean something else.
pub const VERSION: u32 = 2;
/// No journey takes more bytes, so a buffer of so many is never too short: theorem `length_most` of crates/raptor/proofs/Promises.antt.
pub const MOST_JOURNEY: usize = 69_692;
/// What a loader adds to every moment of the timetable: add it to what is asked, take it off what is shown.
pub const DAY: u32 = 86_400;
/// The trip of a footpath, in the words of a leg.
pub const NO_TRIP: u32 = 4_294_967_295;

// The numbers given back.
/// A journey was found; the tables are good; the bytes are legs, or were judged.
pub const FOUND: u32 = 0;
/// A count over its limit, a route without a stop, a section of wrong length.
pub const BAD_COUNT: u32 = 1;
/// An index out of range, or a list that breaks a listing rule.
pub const BAD_LISTING: u32 = 2;
/// A timetable moment outside 1 to 1,000,000, or moments of a trip that fall.
pub const BAD_TIMETABLE: u32 = 3;
/// Trips of a route out of order.
pub const BAD_ORDER: u32 = 4;
/// A distance that is NaN, below 0 or above 100,000; a stated transfer span above 86,400.
pub const BAD_FOOTPATH: u32 = 5;
/// A workspace slice of wrong length, or too few words for what is told.
pub const BAD_WORKSPACE: u32 = 6;
/// A stop or area that does not exist.
pub const BAD_PLACE: u32 = 7;
/// A query moment outside 1 to 1,000,000, or another word of the query that means nothing.
pub const BAD_MOMENT: u32 = 8;
/// An area without a served stop.
pub const BAD_AREA: u32 = 9;
/// There is no journey.
pub const NO_ROUTE_FOUND: u32 = 10;
/// A chosen stop but no leg; proved never to be given.
pub const FAILED_TO_BUILD_ROUTE: u32 = 11;
/// The journey is longer than its buffer.
pub const TOO_LONG: u32 = 12;
/// Journey bytes: an unknown kind or a cut body.
pub const BAD_LEG: u32 = 13;

// The words of a query.
/// A place is a stop.
pub const STOP: u32 = 0;
/// A place is an area.
pub const AREA: u32 = 1;
/// Leave at the moment or later.
pub const DEPARTURE: u32 = 0;
/// Arrive at the moment or sooner.
pub const ARRIVAL: u32 = 1;
/// The query does not say whether walks are allowed: they are.
pub const WALKS_UNSAID: u32 = 0;
/// Walks are allowed.
pub const WALKS_ALLOWED: u32 = 1;
/// Walks are not allowed.
pub const WALKS_BARRED: u32 = 2;
/// The routes' marks are filled once per query.
pub const SOURCE: u32 = 0;
/// The routes' marks are filled before every round.
pub const RESCAN: u32 = 1;

// The kinds of a leg.
/// A ride on a trip.
pub const RIDE: u32 = 1;
/// A listed transfer.
pub const TRANSFER: u32 = 2;
/// A walk.
pub const WALK: u32 = 3;
