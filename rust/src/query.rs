//! What is asked.
use crate::{ffi::QueryWords, names::*};

/// Where a journey starts or ends.
#[derive(Clone, Copy, Debug, PartialEq, Eq, Hash)]
pub enum Place {
    /// A stop by its number: the stops of its station where it has one, its own where it is one, else itself.
    Stop(u32),
    /// An area by its number: the served stops of the stations that it names.
    Area(u32),
}

/// The moment of a query, in seconds, 1 to 1,000,000. Where the loader added [`DAY`] to the timetable's moments, it is added here too, and taken off
/// each moment that is shown.
#[derive(Clone, Copy, Debug, PartialEq, Eq, Hash)]
pub enum When {
    /// Leave no sooner than this.
    Departure(u32),
    /// Arrive no later than this.
    Arrival(u32),
}

/// Whether walks may be used. Transfers may always be.
#[derive(Clone, Copy, Debug, Default, PartialEq, Eq, Hash)]
pub enum Walks {
    /// The query does not say: they are allowed.
    #[default]
    Unsaid,
    /// They are allowed.
    Allowed,
    /// They are not.
    Barred,
}

/// When the marks of the routes are filled.
#[derive(Clone, Copy, Debug, Default, PartialEq, Eq, Hash)]
pub enum Mode {
    /// Once per query.
    #[default]
    Source,
    /// Before every round.
    Rescan,
}

/// A query: two places and a moment; by itself it does not say whether walks are allowed, and is in the source's mode.
#[derive(Clone, Copy, Debug, PartialEq, Eq, Hash)]
pub struct Query {
    from: Place,
    to: Place,
    when: When,
    walks: Walks,
    mode: Mode,
}

impl Query {
    /// From a place to a place at a moment. Any numbers may stand here; the search refuses those that mean nothing.
    pub const fn new(from: Place, to: Place, when: When) -> Query {
        Query { from, to, when, walks: Walks::Unsaid, mode: Mode::Source }
    }

    /// The same query with a word on walks.
    pub const fn walks(self, walks: Walks) -> Query {
        Query { walks, ..self }
    }

    /// The same query in another mode.
    pub const fn mode(self, mode: Mode) -> Query {
        Query { mode, ..self }
    }

    pub(crate) fn words(&self) -> QueryWords {
        let place = |place| match place {
            Place::Stop(stop) => [STOP, stop],
            Place::Area(area) => [AREA, area],
        };
        QueryWords {
            from: place(self.from),
            to: place(self.to),
            when: match self.when {
                When::Departure(moment) => [DEPARTURE, moment],
                When::Arrival(moment) => [ARRIVAL, moment],
            },
            walks: match self.walks {
                Walks::Unsaid => WALKS_UNSAID,
                Walks::Allowed => WALKS_ALLOWED,
                Walks::Barred => WALKS_BARRED,
            },
            mode: match self.mode {
                Mode::Source => SOURCE,
                Mode::Rescan => RESCAN,
            },
        }
    }
}
