//! Document 01's numbers in its words.

/// When the number is given.
pub(crate) fn words_of(number: u32) -> &'static str {
    match number {
        0 => "journey found",
        1 => "a count over its limit, a route without a stop, a slice of wrong length",
        2 => "an index out of range, or a list breaking a listing rule",
        3 => {
            "a timetable moment outside 1 to 1,000,000; arrival after departure at a position; \
             departure after the next position's arrival"
        }
        4 => "trips of a route out of order",
        5 => {
            "a distance that is NaN, below 0 or above 100,000; \
             a stated transfer span above 86,400"
        }
        6 => "a workspace slice of wrong length",
        7 => "a stop or area that doesn't exist",
        8 => "query moment outside 1 to 1,000,000",
        9 => "an area without a served stop",
        10 => "no chosen stop",
        11 => "a chosen stop but no leg",
        12 => "journey longer than its buffer",
        13 => "journey bytes: unknown kind or cut body",
        14 => "a bad line",
        15 => "a table that is full",
        _ => "no such number",
    }
}
