//! Numbers 1 to 11: each by itself, the lowest where two apply, what they leave untouched, and their words.
use crate::ask::{arrive, ask, ask_with, depart, Given};
use crate::network::{m, n, n_with_areas, Network, Route, Transfer, Walk, ABSENT};
use kiosk::{NoJourney, Place, Query, Refusal, Tables, TablesError, When, Workspace};

fn number_of(words: &[u32]) -> u32 {
    Tables::check(words).map_or_else(|error| error.number(), |_| 0)
}

/// The number of N after a change.
fn changed(change: impl FnOnce(&mut Network)) -> u32 {
    let mut network = n();
    change(&mut network);
    number_of(&network.words())
}

#[test]
fn good_tables() {
    for network in [n(), m(), n_with_areas(), Network::default()] {
        let words = network.words();
        assert_eq!(Tables::check(&words).unwrap().words(), words);
    }
}

#[test]
fn tables_1_lengths() {
    let words = n().words();
    assert_eq!(number_of(&[]), 1);
    for length in 0..words.len() {
        assert_eq!(number_of(&words[..length]), 1, "{length} words");
    }
    for at in 0..21 {
        let mut words = words.clone();
        words[at] += 1;
        assert_eq!(number_of(&words), 1, "header word {at}");
    }
}

/// The tables of the layout before: a header of 20 words, and no standings.
#[test]
fn tables_1_older() {
    for network in [n(), m(), Network::default()] {
        let words = network.words();
        let header = words[..20].iter().map(|at| at - 1);
        let older: Vec<u32> = header.chain(words[21..words[19] as usize].iter().copied()).collect();
        assert_eq!(older[19] as usize, older.len());
        assert_eq!(number_of(&older), 1);
    }
}

#[test]
fn tables_1_counts() {
    assert_eq!(changed(|n| n.routes.push(Route::default())), 1);
    assert_eq!(number_of(&Network::with_stops(4096).words()), 0);
    assert_eq!(number_of(&Network::with_stops(4097).words()), 1);
    let positions = |count| Route { stops: vec![0; count], trips: vec![] };
    assert_eq!(changed(|n| n.routes.push(positions(128))), 0);
    assert_eq!(changed(|n| n.routes.push(positions(129))), 1);
}

#[test]
fn tables_2() {
    assert_eq!(changed(|n| n.transfers[0].to = 5), 2);
    assert_eq!(changed(|n| n.areas.push(vec![5])), 2);
    assert_eq!(changed(|n| n.areas.push(vec![3, 3])), 2);
    assert_eq!(changed(|n| n.areas.push(vec![3, 4])), 0);
    assert_eq!(changed(|n| _ = n.routes[0].trips[0].pop()), 2);
}

/// A trip's row names its route and its place there: 0 0, 0 1, 1 2, 1 3.
#[test]
fn tables_2_standing() {
    let words = n().words();
    let standing = words.len() - 8;
    for (at, word) in [(0, 2), (0, 1), (1, 1), (1, 4), (3, 2), (4, 0), (5, 3), (7, u32::MAX)] {
        let mut words = words.clone();
        words[standing + at] = word;
        assert_eq!(number_of(&words), 2, "word {at} of the standings is {word}");
    }
}

#[test]
fn tables_3() {
    assert_eq!(changed(|n| n.routes[0].trips[0][0] = (0, 100)), 3);
    assert_eq!(changed(|n| n.routes[0].trips[0][0] = (1, 1)), 0);
    assert_eq!(changed(|n| n.routes[1].trips[1][1] = (750, 1_000_000)), 0);
    assert_eq!(changed(|n| n.routes[1].trips[1][1] = (750, 1_000_001)), 3);
    assert_eq!(changed(|n| n.routes[0].trips[0][1] = (211, 210)), 3);
    assert_eq!(changed(|n| n.routes[0].trips[0][1] = (200, 301)), 3);
}

#[test]
fn tables_4() {
    assert_eq!(changed(|n| n.routes[0].trips.swap(0, 1)), 4);
}

#[test]
fn tables_5() {
    let transfer = |span, metres| move |n: &mut Network| n.transfers.push(Transfer { from: 0, to: 1, span, metres });
    let walk = |metres| move |n: &mut Network| n.walks.push(Walk { from: 0, to: 1, metres });
    for metres in [f32::NAN, -1.0, 100_000.01, f32::INFINITY] {
        assert_eq!(changed(walk(metres)), 5, "walk of {metres}");
        assert_eq!(changed(transfer(ABSENT, metres)), 5, "transfer of {metres}");
        assert_eq!(changed(transfer(30, metres)), 5, "transfer of 30 seconds and {metres}");
    }
    for metres in [0.0, -0.0, 100_000.0] {
        assert_eq!(changed(walk(metres)), 0, "walk of {metres}");
        assert_eq!(changed(transfer(ABSENT, metres)), 0, "transfer of {metres}");
    }
    assert_eq!(changed(transfer(86_400, 0.0)), 0);
    assert_eq!(changed(transfer(86_401, 0.0)), 5);
}

#[test]
fn tables_lowest() {
    let far = |n: &mut Network| n.walks.push(Walk { from: 0, to: 1, metres: -1.0 });
    let swapped = |n: &mut Network| n.routes[0].trips.swap(0, 1);
    let order_and_distance = |n: &mut Network| {
        far(n);
        swapped(n);
    };
    let all_three = |n: &mut Network| {
        order_and_distance(n);
        n.transfers[0].to = 5;
    };
    assert_eq!(changed(far), 5);
    assert_eq!(changed(order_and_distance), 4);
    assert_eq!(changed(all_three), 2);
}

#[test]
fn tables_as_errors() {
    let words_of = |error: TablesError| (error.number(), error.to_string());
    let all = [
        (1, "a count over its limit, a route without a stop, a slice of wrong length"),
        (2, "an index out of range, or a list breaking a listing rule"),
        (
            3,
            "a timetable moment outside 1 to 1,000,000; arrival after departure at a position; departure after the next position's arrival",
        ),
        (4, "trips of a route out of order"),
        (5, "a distance that is NaN, below 0 or above 100,000; a stated transfer span above 86,400"),
    ];
    let errors =
        [TablesError::Count, TablesError::Listing, TablesError::Timetable, TablesError::Order, TablesError::Footpath];
    assert_eq!(errors.map(words_of), all.map(|(number, words)| (number, words.to_string())));
    assert_eq!(Tables::check(&[]).unwrap_err(), TablesError::Count);
}

/// The number of a query on the network with areas, which must leave the workspace as it was.
fn refused(query: Query) -> u32 {
    let words = n_with_areas().words();
    let tables = Tables::check(&words).unwrap();
    let mut workspace = Workspace::for_tables(&tables);
    ask_with(&tables, &mut workspace, 64, &depart(0, 4, 50)); // so that there is something to leave
    let before = workspace.clone();
    let given = ask_with(&tables, &mut workspace, 64, &query);
    assert!(workspace == before, "{query:?}: the workspace");
    assert_eq!(given, Given::only(given.number));
    given.number
}

#[test]
fn workspace_6() {
    let all = [n(), m(), n_with_areas(), Network::default(), Network::with_stops(65)];
    let all = all.map(|network| network.words());
    let all: Vec<Tables> = all.iter().map(|words| Tables::check(words).unwrap()).collect();
    for (i, tables) in all.iter().enumerate() {
        for (k, others) in all.iter().enumerate() {
            let mut workspace = Workspace::for_tables(others);
            let before = workspace.clone();
            // 6 comes before 7: none of them has this stop
            let given = ask_with(tables, &mut workspace, 64, &depart(99, 99, 0));
            assert_eq!(given, Given::only(if i == k { 7 } else { 6 }));
            assert!(workspace == before);
        }
    }
}

#[test]
fn query_7() {
    let place = |from, to| refused(Query::new(from, to, When::Departure(50)));
    for missing in [Place::Stop(9), Place::Stop(u32::MAX), Place::Area(4), Place::Area(u32::MAX)] {
        assert_eq!(place(missing, Place::Stop(0)), 7);
        assert_eq!(place(Place::Stop(0), missing), 7);
        assert_eq!(place(missing, missing), 7);
        // 7 comes before 8 and 9
        assert_eq!(refused(Query::new(Place::Stop(0), missing, When::Arrival(0))), 7);
        assert_eq!(place(Place::Area(2), missing), 7);
    }
}

#[test]
fn query_8() {
    for moment in [0, 1_000_001, u32::MAX] {
        assert_eq!(refused(depart(0, 4, moment)), 8);
        assert_eq!(refused(arrive(0, 4, moment)), 8);
        // 8 comes before 9
        let query = Query::new(Place::Area(2), Place::Stop(4), When::Departure(moment));
        assert_eq!(refused(query), 8);
    }
    for moment in [1, 1_000_000] {
        let number = |query| ask(&n().words(), &query).number;
        assert_eq!(number(depart(0, 4, moment)), if moment == 1 { 0 } else { 10 });
        assert_eq!(number(arrive(3, 4, moment)), if moment == 1 { 10 } else { 0 });
    }
}

#[test]
fn query_9() {
    for barren in [Place::Area(2), Place::Area(3)] {
        for when in [When::Departure(50), When::Arrival(450)] {
            assert_eq!(refused(Query::new(barren, Place::Stop(4), when)), 9);
            assert_eq!(refused(Query::new(Place::Stop(0), barren, when)), 9);
            assert_eq!(refused(Query::new(barren, barren, when)), 9);
        }
    }
    // an unserved stop is no area: nothing comes there, and nothing is refused
    assert_eq!(ask(&n_with_areas().words(), &depart(0, 7, 50)), Given::only(10));
}

#[test]
fn queries_as_errors() {
    let refusals = [Refusal::Workspace, Refusal::Place, Refusal::Moment, Refusal::Area];
    let all = [
        (6, "a workspace slice of wrong length"),
        (7, "a stop or area that doesn't exist"),
        (8, "query moment outside 1 to 1,000,000"),
        (9, "an area without a served stop"),
        (10, "no chosen stop"),
        (11, "a chosen stop but no leg"),
    ];
    for (refusal, (number, words)) in refusals.into_iter().zip(all) {
        assert_eq!((refusal.number(), refusal.to_string()), (number, words.to_string()));
    }
    let errors = refusals.map(NoJourney::Refused).into_iter();
    for (error, (number, words)) in errors.chain([NoJourney::NoRouteFound, NoJourney::FailedToBuildRoute]).zip(all) {
        assert_eq!((error.number(), error.to_string()), (number, words.to_string()));
    }
}

#[test]
fn all_errors_go_where_errors_go() {
    fn kept(words: &[u32], query: &Query) -> Result<usize, Box<dyn std::error::Error + Send + Sync>> {
        let tables = Tables::check(words)?;
        let mut buffer = [0; 64];
        let answer = tables.solve(&mut Workspace::for_tables(&tables), &mut buffer, query);
        Ok(answer.journey()?.legs().count())
    }
    let said = |words: &[u32], query| kept(words, &query).map_err(|error| error.to_string());
    let words = n().words();
    assert_eq!(said(&words, depart(0, 4, 50)), Ok(3));
    assert_eq!(said(&words, depart(0, 4, 0)), Err("query moment outside 1 to 1,000,000".into()));
    assert_eq!(said(&words, depart(0, 4, 401)), Err("no chosen stop".into()));
    assert!(said(&words[1..], depart(0, 4, 50)).unwrap_err().starts_with("a count over its limit"));
}
