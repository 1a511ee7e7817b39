//! From the rows of a feed to the words of tables, as docs/TABLES.md has them: trips are grouped into routes. Tested, not proved: the
//! check of the tables is.
use crate::gtfs::{StopTime, Transfer};
use std::collections::HashMap;

const ABSENT: u32 = u32::MAX;
const HEADER: usize = 21;

/// The words of the tables.
pub(crate) fn words(
    stops: u32,
    trips: u32,
    times: &[StopTime],
    transfers: &[Transfer],
    metres: impl Fn(u32, u32) -> f32,
) -> Vec<u32> {
    let trips = calls_of_trips(trips, times);
    let routes = routes(&trips);

    let mut calls = vec![vec![]; stops as usize];
    let mut served = vec![0; stops as usize];
    let mut standing = vec![0; 2 * trips.len()]; // of each trip its route, and its place among the trips of all routes
    let mut place = 0;
    for (number, route) in (0..).zip(&routes) {
        let mut ends: Vec<(u32, u32, u32)> = vec![]; // stop, first position, last position
        let mut at: HashMap<u32, usize> = HashMap::new();
        for (position, call) in (0..).zip(trips[route[0] as usize]) {
            let place = *at.entry(call.stop).or_insert_with(|| {
                ends.push((call.stop, position, position));
                ends.len() - 1
            });
            ends[place].2 = position;
        }
        for (stop, first, last) in ends {
            calls[stop as usize].extend([number, first, last]);
            served[stop as usize] = 1;
        }
        for &trip in route {
            standing[2 * trip as usize] = number;
            standing[2 * trip as usize + 1] = place;
            place += 1;
        }
    }
    let mut paths = vec![vec![]; stops as usize];
    for &Transfer { from, to, kind, span } in transfers {
        match kind {
            0 | 1 => paths[from as usize].extend([from, to, ABSENT, metres(from, to).to_bits()]),
            2 => paths[from as usize].extend([from, to, span, 0]),
            _ => {} // 3 is not possible, 4 and 5 are within a vehicle
        }
    }

    let none = vec![vec![]; stops as usize];
    let route_stops: Vec<Vec<u32>> =
        routes.iter().map(|route| trips[route[0] as usize].iter().map(|call| call.stop).collect()).collect();
    let moments: Vec<Vec<u32>> =
        trips.iter().map(|calls| calls.iter().flat_map(|call| [call.arrival, call.departure]).collect()).collect();
    let mut sections = vec![(0..stops).collect(), vec![ABSENT; stops as usize]];
    sections.extend(starts_and_list(1, &none)); // children
    sections.extend(starts_and_list(3, &calls));
    sections.push(served);
    sections.extend(starts_and_list(4, &paths));
    sections.extend(starts_and_list(2, &none)); // walks
    sections.extend(starts_and_list(1, &route_stops));
    sections.extend(starts_and_list(1, &routes));
    sections.extend(starts_and_list(2, &moments));
    sections.extend(starts_and_list(1, &[])); // areas
    sections.push(standing);

    let mut words = vec![HEADER as u32];
    for section in &sections {
        words.push(words[words.len() - 1] + section.len() as u32);
    }
    debug_assert_eq!(words.len(), HEADER);
    words.extend(sections.concat());
    words
}

/// A starts section and its list: the rows under each entry, one entry after another.
fn starts_and_list(width: usize, entries: &[Vec<u32>]) -> [Vec<u32>; 2] {
    let mut starts = vec![0];
    let mut list = vec![];
    for rows in entries {
        list.extend(rows);
        starts.push((list.len() / width) as u32);
    }
    [starts, list]
}

/// The rows of each trip, which stand together.
fn calls_of_trips(trips: u32, times: &[StopTime]) -> Vec<&[StopTime]> {
    let mut rest = times;
    let rows = |trip| {
        let (own, others) = rest.split_at(rest.iter().take_while(|call| call.trip == trip).count());
        rest = others;
        own
    };
    (0..trips).map(rows).collect()
}

/// The trips of each route. Trips with the same stops are sorted by their times; each then goes behind the first route of these stops
/// whose last trip it overtakes nowhere. Routes stand in the order in which their stops appear.
fn routes(trips: &[&[StopTime]]) -> Vec<Vec<u32>> {
    let mut groups: Vec<Vec<u32>> = vec![];
    let mut known: HashMap<Vec<u32>, usize> = HashMap::new();
    for (number, calls) in (0..).zip(trips) {
        let group = *known.entry(calls.iter().map(|call| call.stop).collect()).or_insert_with(|| {
            groups.push(vec![]);
            groups.len() - 1
        });
        groups[group].push(number);
    }
    let mut routes = vec![];
    for mut group in groups {
        let moments = |&trip: &u32| trips[trip as usize].iter().map(|call| (call.arrival, call.departure));
        group.sort_by(|one, two| moments(one).cmp(moments(two)));
        let mut own: Vec<Vec<u32>> = vec![];
        for trip in group {
            let behind = |last: &u32| moments(last).zip(moments(&trip)).all(|(a, b)| a.0 <= b.0 && a.1 <= b.1);
            match own.iter_mut().find(|route| route.last().into_iter().all(behind)) {
                Some(route) => route.push(trip),
                None => own.push(vec![trip]),
            }
        }
        routes.extend(own);
    }
    routes
}
