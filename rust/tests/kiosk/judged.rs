//! Journeys judged: N's, the edges of each sentence of request 2, and what is refused.
use crate::ask::{arrive, depart};
use crate::journeys::{bytes_of, n1_bytes};
use crate::network::{n, n_both_ways, n_with_areas, Network, Route, Transfer, Walk, ABSENT};
use kiosk::{BadLeg, JudgeError, Leg, LegKind, Place, Query, Refusal, Tables, Walks, When, Workspace};

fn ride(trip: u32, [from, to]: [u32; 2], [departure, arrival]: [u32; 2]) -> Leg {
    Leg { from, to, departure, arrival, kind: LegKind::Ride { trip } }
}
fn transfer([from, to]: [u32; 2], [departure, arrival]: [u32; 2]) -> Leg {
    Leg { from, to, departure, arrival, kind: LegKind::Transfer }
}
fn walk(stops: [u32; 2], moments: [u32; 2]) -> Leg {
    Leg { kind: LegKind::Walk, ..transfer(stops, moments) }
}

/// N1: by trip 0 from stop 0 to stop 2, on foot to stop 3, by trip 2 to stop 4.
fn n1() -> [Leg; 3] {
    [ride(0, [0, 2], [100, 300]), transfer([2, 3], [300, 330]), ride(2, [3, 4], [350, 450])]
}

fn judge(network: &Network, query: &Query, bytes: &[u8]) -> Result<bool, JudgeError> {
    Tables::check(&network.words()).unwrap().judge(query, bytes)
}
fn is_journey(network: &Network, query: &Query, legs: &[Leg]) -> bool {
    let bytes: Vec<u8> = legs.iter().flat_map(bytes_of).collect();
    judge(network, query, &bytes).unwrap()
}
/// N1's legs after a change, for the query of N1.
fn changed(change: impl FnOnce(&mut Vec<Leg>)) -> bool {
    let mut legs = n1().to_vec();
    change(&mut legs);
    is_journey(&n(), &depart(0, 4, 50), &legs)
}

#[test]
fn n1_and_the_moment_asked() {
    assert_eq!(judge(&n(), &depart(0, 4, 50), &n1_bytes()), Ok(true));
    assert!(changed(|_| ()));
    for (moment, right) in [(1, true), (99, true), (100, true), (101, false), (1_000_000, false)] {
        assert_eq!(is_journey(&n(), &depart(0, 4, moment), &n1()), right, "{moment}");
    }
}

#[test]
fn what_is_not_all_of_it() {
    assert!(!changed(Vec::clear));
    assert_eq!(judge(&n(), &depart(0, 4, 50), &[]), Ok(false));
    assert!(!changed(|legs| legs.truncate(1)));
    assert!(!changed(|legs| legs.truncate(2)));
    assert!(!changed(|legs| _ = legs.remove(0)));
    assert!(!changed(|legs| _ = legs.remove(1)));
    assert!(!changed(|legs| *legs = vec![legs[2]]));
    assert!(!changed(|legs| legs.swap(0, 2)));
    assert!(!changed(|legs| legs.extend(n1())));
    // the parts are journeys of their own queries
    assert!(is_journey(&n(), &depart(0, 2, 50), &n1()[..1]));
    assert!(is_journey(&n(), &depart(0, 3, 50), &n1()[..2]));
    assert!(is_journey(&n(), &depart(3, 4, 350), &n1()[2..]));
}

#[test]
fn a_departure_begins_with_a_ride_an_arrival_ends_with_one() {
    let (network, legs) = (n_both_ways(), n1());
    assert!(is_journey(&network, &depart(0, 3, 50), &legs[..2]));
    assert!(!is_journey(&network, &arrive(0, 3, 450), &legs[..2]));
    assert!(is_journey(&network, &arrive(2, 4, 450), &legs[1..]));
    assert!(!is_journey(&network, &depart(2, 4, 50), &legs[1..]));
    assert!(!is_journey(&network, &depart(2, 3, 50), &legs[1..2]));
    assert!(!is_journey(&network, &arrive(2, 3, 450), &legs[1..2]));
}

#[test]
fn an_arrival_asks_for_the_last_moment_alone() {
    for (moment, right) in [(449, false), (450, true), (451, true), (1_000_000, true)] {
        assert_eq!(is_journey(&n(), &arrive(0, 4, moment), &n1()), right, "{moment}");
    }
    // as N9 has it, with the transfer as late as may be; and as early
    for leaves in [299, 300, 310, 320, 321] {
        let mut legs = n1();
        legs[1] = transfer([2, 3], [leaves, leaves + 30]);
        assert_eq!(is_journey(&n_both_ways(), &arrive(0, 4, 450), &legs), (300..=320).contains(&leaves), "{leaves}");
        assert_eq!(is_journey(&n_both_ways(), &depart(0, 4, 50), &legs), (300..=320).contains(&leaves), "{leaves}");
    }
    // nothing is asked of the first departure: it may be one of long ago
    assert!(is_journey(&n(), &arrive(0, 4, 1_000_000), &n1()));
}

#[test]
fn a_footpath_lasts_its_span_and_is_listed() {
    for arrival in [0, 299, 300, 329, 331, 350, u32::MAX] {
        assert!(!changed(|legs| legs[1].arrival = arrival), "{arrival}");
    }
    assert!(!changed(|legs| legs[1].kind = LegKind::Walk));
    assert!(!changed(|legs| legs[1].from = 5));
    assert!(!changed(|legs| legs[1].to = 5));
    // listed the other way only, as an arrival search may walk it
    let mut network = n();
    network.transfers[0] = Transfer { from: 3, to: 2, span: 30, metres: 0.0 };
    let legs = [ride(0, [0, 2], [100, 300]), transfer([2, 3], [320, 350]), ride(2, [3, 4], [350, 450])];
    assert!(!is_journey(&network, &arrive(0, 4, 450), &legs));
    assert!(is_journey(&n_both_ways(), &arrive(0, 4, 450), &legs));
    // listed twice: either span
    network.transfers = [20, 30].map(|span| Transfer { from: 2, to: 3, span, metres: 0.0 }).to_vec();
    for (arrival, right) in [(319, false), (320, true), (325, false), (330, true)] {
        let legs = [n1()[0], transfer([2, 3], [300, arrival]), n1()[2]];
        assert_eq!(is_journey(&network, &depart(0, 4, 50), &legs), right, "{arrival}");
    }
}

#[test]
fn spans_by_distance() {
    let mut network = n();
    network.transfers[0] = Transfer { from: 2, to: 3, span: ABSENT, metres: 44.0 }; // 29.33 seconds
    assert!(is_journey(&network, &depart(0, 4, 50), &n1()));
    network.transfers[0].metres = 45.1;
    assert!(!is_journey(&network, &depart(0, 4, 50), &n1()));
}

#[test]
fn walks_where_they_are_allowed() {
    let mut network = n();
    network.transfers.clear();
    network.walks = vec![Walk { from: 2, to: 3, metres: 45.0 }];
    let (query, legs) = (depart(0, 4, 50), [n1()[0], walk([2, 3], [300, 330]), n1()[2]]);
    assert!(!is_journey(&network, &query, &n1()));
    for (walks, right) in [(Walks::Unsaid, true), (Walks::Allowed, true), (Walks::Barred, false)] {
        assert_eq!(is_journey(&network, &query.walks(walks), &legs), right, "{walks:?}");
    }
    assert!(is_journey(&n(), &query.walks(Walks::Barred), &n1()));
}

#[test]
fn a_ride_fits_its_trip() {
    assert!(!changed(|legs| legs[2] = ride(2, [3, 4], [650, 750]))); // the moments of trip 3
    assert!(changed(|legs| legs[2] = ride(3, [3, 4], [650, 750])));
    for trip in [1, 2, 3, 4, 9, u32::MAX] {
        assert!(!changed(|legs| legs[0] = ride(trip, [0, 2], [100, 300])), "{trip}");
    }
    assert!(!changed(|legs| legs[0].to = 1));
    for (leg, right) in [
        (ride(0, [0, 1], [100, 200]), true),
        (ride(0, [0, 1], [100, 210]), false), // 210 is the departure there
        (ride(0, [1, 2], [210, 300]), true),
        (ride(0, [1, 2], [200, 300]), false),
        (ride(0, [1, 0], [210, 100]), false),
        (ride(0, [1, 1], [210, 200]), false),
        (ride(0, [0, 0], [100, 100]), false),
        (ride(1, [0, 2], [100, 600]), false),
    ] {
        assert_eq!(is_journey(&n(), &depart(leg.from, leg.to, 50), &[leg]), right, "{leg}");
    }
}

#[test]
fn a_stop_that_a_trip_visits_twice() {
    let network = Network {
        routes: vec![Route { stops: vec![0, 0], trips: vec![vec![(3, 4), (4, 4)]] }],
        ..Network::with_stops(1)
    };
    for (moments, right) in [([4, 4], true), ([3, 4], false), ([4, 3], false), ([3, 3], false)] {
        assert_eq!(is_journey(&network, &depart(0, 0, 1), &[ride(0, [0, 0], moments)]), right, "{moments:?}");
    }
    // the same ride twice, at one moment
    assert!(is_journey(&network, &depart(0, 0, 1), &[ride(0, [0, 0], [4, 4]); 2]));
    assert!(is_journey(&network, &depart(0, 0, 1), &[ride(0, [0, 0], [4, 4]); 15]));
    assert!(!is_journey(&network, &depart(0, 0, 1), &[ride(0, [0, 0], [4, 4]); 16]));
}

/// Buses to and fro between two stops, each as soon as the one before has come.
#[test]
fn fifteen_rides_and_no_more() {
    let trips = |first: u32| (0..9).map(|k| [first + 20 * k, first + 20 * k + 10].map(|m| (m, m)).to_vec()).collect();
    let routes = vec![Route { stops: vec![0, 1], trips: trips(10) }, Route { stops: vec![1, 0], trips: trips(20) }];
    let network = Network { routes, ..Network::with_stops(2) };
    let leg = |i: u32| ride(i % 2 * 9 + i / 2, [i % 2, 1 - i % 2], [10 * i + 10, 10 * i + 20]);
    for rides in 1..=17 {
        let legs: Vec<Leg> = (0..rides).map(leg).collect();
        assert_eq!(is_journey(&network, &depart(0, rides % 2, 10), &legs), rides <= 15, "{rides}");
        assert_eq!(is_journey(&network, &arrive(0, rides % 2, 10 * rides + 10), &legs), rides <= 15, "{rides}");
    }
}

/// What a departure search writes: two footpaths in a row with a wait between, back to where it began.
#[test]
fn chains_and_waits() {
    let still = |moments: &[u32]| moments.iter().map(|&m| (m, m)).collect();
    let path = |from, to, span| Transfer { from, to, span, metres: 0.0 };
    let network = Network {
        routes: vec![Route { stops: vec![2, 0, 1], trips: vec![still(&[8, 10, 12])] }],
        transfers: vec![path(0, 1, 0), path(1, 2, 1)],
        ..Network::with_stops(3)
    };
    let words = network.words();
    let tables = Tables::check(&words).unwrap();
    let mut buffer = [0; 64];
    let answer = tables.solve(&mut Workspace::for_tables(&tables), &mut buffer, &depart(2, 2, 7));
    let journey = answer.journey().unwrap();
    let legs = [ride(0, [2, 0], [8, 10]), transfer([0, 1], [10, 10]), transfer([1, 2], [12, 13])];
    assert_eq!(journey.legs().collect::<Vec<Leg>>(), legs);
    assert_eq!(tables.judge(&depart(2, 2, 7), journey.bytes()), Ok(true));
    assert!(is_journey(&network, &depart(2, 2, 7), &[legs[0], legs[1], transfer([1, 2], [10, 11])]));
    assert!(!is_journey(&network, &depart(2, 2, 7), &[legs[0], legs[1], transfer([1, 2], [9, 10])]));
}

/// Bytes hold any u32: nothing runs over.
#[test]
fn no_moment_runs_over() {
    let far = transfer([2, 3], [u32::MAX - 29, 0]);
    for legs in [vec![n1()[0], far, n1()[2]], vec![n1()[0], far]] {
        for to in [3, 4] {
            assert!(!is_journey(&n(), &depart(0, to, 50), &legs));
            assert!(!is_journey(&n(), &arrive(0, to, 1_000_000), &legs));
        }
    }
    // as late as can be
    assert!(is_journey(&n(), &depart(0, 3, 50), &[n1()[0], transfer([2, 3], [u32::MAX - 30, u32::MAX])]));
    let most = Leg { from: u32::MAX, to: u32::MAX, departure: u32::MAX, arrival: u32::MAX, kind: LegKind::Transfer };
    for kind in [LegKind::Ride { trip: u32::MAX }, LegKind::Transfer, LegKind::Walk] {
        assert!(!is_journey(&n(), &depart(0, 4, 50), &[Leg { kind, ..most }]));
        assert!(!is_journey(&n(), &depart(0, 4, 50), &[n1()[0], Leg { kind, from: 2, ..most }]));
    }
}

#[test]
fn places() {
    let (network, stop, area) = (n_with_areas(), Place::Stop, Place::Area);
    let query = |from, to| Query::new(from, to, When::Departure(50));
    // a stop and its station stand for the same; and so does the area that names the station
    for from in [stop(0), stop(5), area(0)] {
        for to in [stop(4), stop(6), area(1)] {
            assert!(is_journey(&network, &query(from, to), &n1()), "{from:?} to {to:?}");
        }
    }
    for (from, to) in
        [(stop(1), stop(4)), (area(1), area(1)), (area(0), area(0)), (stop(0), stop(3)), (stop(6), stop(5))]
    {
        assert!(!is_journey(&network, &query(from, to), &n1()), "{from:?} to {to:?}");
    }
}

#[test]
fn refusals() {
    let (network, bytes) = (n_with_areas(), n1_bytes());
    let refused = |query: &Query, refusal| {
        // before 13, and whatever the legs are
        for bytes in [&bytes[..], &bytes[..58], &[][..], &[9][..]] {
            assert_eq!(judge(&network, query, bytes), Err(JudgeError::Refused(refusal)), "{query:?}");
        }
    };
    for missing in [Place::Stop(9), Place::Stop(u32::MAX), Place::Area(4), Place::Area(u32::MAX)] {
        refused(&Query::new(missing, Place::Stop(4), When::Departure(50)), Refusal::Place);
        refused(&Query::new(Place::Area(2), missing, When::Arrival(0)), Refusal::Place);
    }
    for moment in [0, 1_000_001, u32::MAX] {
        refused(&depart(0, 4, moment), Refusal::Moment);
        refused(&Query::new(Place::Area(2), Place::Stop(4), When::Arrival(moment)), Refusal::Moment);
    }
    for barren in [Place::Area(2), Place::Area(3)] {
        refused(&Query::new(barren, Place::Stop(4), When::Departure(50)), Refusal::Area);
        refused(&Query::new(Place::Stop(0), barren, When::Arrival(450)), Refusal::Area);
    }
    let error = judge(&network, &depart(0, 9, 50), &bytes).unwrap_err();
    assert_eq!((error.number(), error.to_string()), (7, "a stop or area that doesn't exist".into()));
}

#[test]
fn bytes_that_are_no_legs() {
    let bad = |bytes: &[u8]| judge(&n(), &depart(0, 4, 50), bytes);
    let at = |offset| Err(JudgeError::BadLeg(BadLeg { offset }));
    let bytes = n1_bytes();
    for length in 0..=bytes.len() {
        let offset = [0, 21, 38, 59].into_iter().rfind(|&end| end <= length).unwrap();
        let wanted = if offset == length { Ok(length == 59) } else { at(offset) };
        assert_eq!(bad(&bytes[..length]), wanted, "{length} bytes");
    }
    // an unknown kind behind a good journey, and behind a wrong one
    assert_eq!(bad(&[&bytes[..], &[9]].concat()), at(59));
    assert_eq!(bad(&[&bytes[21..], &[9]].concat()), at(38));
    assert_eq!(bad(&[0]), at(0));
    let error = bad(&bytes[..58]).unwrap_err();
    assert_eq!(
        (error.number(), error.to_string()),
        (13, "journey bytes: unknown kind or cut body (at offset 38)".into())
    );
}

#[test]
fn what_the_search_writes() {
    let words = n_both_ways().words();
    let tables = Tables::check(&words).unwrap();
    let mut workspace = Workspace::for_tables(&tables);
    let mut found = 0;
    for moment in (1..800).step_by(7) {
        for (from, to) in (0..5).flat_map(|from| (0..5).map(move |to| (from, to))) {
            for query in [depart(from, to, moment), arrive(from, to, moment)] {
                let mut buffer = [0; 256];
                if let Ok(journey) = tables.solve(&mut workspace, &mut buffer, &query).journey() {
                    assert_eq!(tables.judge(&query, journey.bytes()), Ok(true), "{query:?}");
                    found += 1;
                }
            }
        }
    }
    assert!(found > 500, "{found}");
}
