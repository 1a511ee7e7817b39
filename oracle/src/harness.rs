//! One query through the source's search: the query line in, the answer line out.
use crate::{
    flat::doubled,
    lent,
    raptor::{Allocator, Error, Leg, LegType, Location},
    repository::{Repository, source::build},
    shared::time::Time,
};
use std::fmt::Write;
use std::panic::{AssertUnwindSafe, catch_unwind};

#[derive(Clone, Copy, Debug, PartialEq)]
pub struct Query {
    pub from: (char, u32),
    pub to: (char, u32),
    pub arrival: bool,
    pub moment: u32,
    pub walks: bool,
}

impl Query {
    /// `q s 0 s 4 d 50 1`
    pub fn parse(line: &str) -> Option<Query> {
        let v: Vec<&str> = line.split_ascii_whitespace().collect();
        let place = |kind: &str, number: &str| match kind {
            "s" => Some(('s', number.parse().ok()?)),
            "a" => Some(('a', number.parse().ok()?)),
            _ => None,
        };
        if v.len() != 8 || v[0] != "q" || !["d", "a"].contains(&v[5]) || !["0", "1"].contains(&v[7]) {
            return None;
        }
        Some(Query {
            from: place(v[1], v[2])?,
            to: place(v[3], v[4])?,
            arrival: v[5] == "a",
            moment: v[6].parse().ok()?,
            walks: v[7] == "1",
        })
    }

    pub fn line(&self) -> String {
        let (when, walks) = (if self.arrival { 'a' } else { 'd' }, self.walks as u32);
        format!("q {} {} {} {} {when} {} {walks}", self.from.0, self.from.1, self.to.0, self.to.1, self.moment)
    }
}

/// A place by its text id; of one that exists the repository has the text.
fn location(repository: &Repository, place: (char, u32)) -> Location {
    let at = place.1 as usize;
    match place.0 {
        'a' => repository.areas.get(at).map_or_else(|| Location::Area(format!("a{at}").into()), Location::from),
        _ => repository.stops.get(at).map_or_else(|| Location::Stop(format!("s{at}").into()), Location::from),
    }
}

pub fn stop_number(place: &Location) -> u32 {
    match place {
        Location::Stop(id) => id[1..].parse().unwrap(),
        _ => unreachable!(),
    }
}

/// What the source found.
pub struct Found {
    pub time: u32,
    pub stop: u32,
    pub round: u32,
    pub legs: Vec<Leg>,
}

fn line(found: &Found) -> String {
    let mut s = format!("0 {} {} {} {}", found.time, found.stop, found.round, found.legs.len());
    for leg in &found.legs {
        let (from, to) = (stop_number(&leg.from), stop_number(&leg.to));
        let (dep, arr) = (leg.departue_time.as_seconds(), leg.arrival_time.as_seconds());
        match leg.leg_type {
            LegType::Transit(trip) => write!(s, " | ride {from} {to} {trip} {dep} {arr}"),
            LegType::Transfer => write!(s, " | transfer {from} {to} {dep} {arr}"),
            LegType::Walk => write!(s, " | walk {from} {to} {dep} {arr}"),
        }
        .unwrap();
    }
    s
}

/// A network given to the source: its repository, with its distances lent.
pub struct Ready(Repository);

impl Ready {
    pub fn new(words: &[u32]) -> Result<Ready, String> {
        let (repository, distances) = build(words)?;
        lent::lend(distances);
        Ok(Ready(repository))
    }

    /// A new allocator for the network.
    pub fn allocator(&self) -> Allocator {
        Allocator::new(&self.0)
    }

    /// The search itself, with an allocator that is new or was reset. The chosen stop and round stand in the allocator only, hence
    /// this code inside the crate.
    pub fn search(&self, q: &Query, allocator: &mut Allocator) -> Result<Found, Error> {
        let router = self.0.router(location(&self.0, q.from), location(&self.0, q.to)).allow_walks(q.walks);
        let moment = Time::from_seconds(q.moment);
        let router = if q.arrival { router.arrival_at(moment) } else { router.departure_at(moment) };
        let found = router.solve_with_allocator(allocator)?;
        let target = &allocator.target;
        Ok(Found {
            time: target.tau_star.as_seconds(),
            stop: target.best_stop.unwrap(),
            round: target.best_round.unwrap() as u32,
            legs: found.legs,
        })
    }

    /// `0 time stop round L | ride from to trip dep arr | transfer from to dep arr | walk from to dep arr`, `7`, `10`, `11`, or
    /// `panic`. Only the network made ready last may be asked, since the distances are lent to one at a time.
    pub fn answer(&self, q: &Query) -> String {
        match catch_unwind(AssertUnwindSafe(|| self.search(q, &mut self.allocator()))) {
            Err(_) => "panic".into(),
            Ok(Err(Error::InvalidAreaID | Error::InvalidStopID)) => "7".into(),
            Ok(Err(Error::NoRouteFound)) => "10".into(),
            Ok(Err(Error::FailedToBuildRoute)) => "11".into(),
            Ok(Ok(found)) => line(&found),
        }
    }
}

/// Which of the queries meet, in an arrival search, a span that reaches its label (equals it or is above it). The source panics
/// only where it is above. With each moment m taken as 2m - 1 and each span as twice itself every comparison comes out as before,
/// while a span that equals its label comes to stand above it; so the source itself tells.
pub fn reaching(words: &[u32], queries: &[Query]) -> Result<Vec<bool>, String> {
    let ready = Ready::new(&doubled(words)?)?;
    Ok(queries
        .iter()
        .map(|q| q.arrival && ready.answer(&Query { moment: 2 * q.moment - 1, ..*q }) == "panic")
        .collect())
}

/// Panics are answers here, so they say nothing; and they must come, so a build without overflow checks is refused.
pub fn prepare() {
    std::panic::set_hook(Box::new(|_| {}));
    let checked = catch_unwind(|| std::hint::black_box(0u32) - std::hint::black_box(1)).is_err();
    if !checked {
        eprintln!("built without overflow checks: use build.sh");
        std::process::exit(2);
    }
}
