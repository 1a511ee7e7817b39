//! N1 to N10, M1 and M2, and what they leave out: areas, walks, tables of the least size.
use crate::ask::{arrive, ask, ask_with, depart, Given};
use crate::network::{m, n, n_both_ways, n_with_areas, Network, Walk};
use kiosk::{Answer, Leg, LegKind, Mode, NoJourney, Place, Query, Tables, Walks, When, Workspace};

/// The answer is found, with these values and legs.
fn found(given: &Given, time: u32, stop: u32, round: u32, lines: &[&str]) {
    let length = lines.iter().map(|line| if line.starts_with("ride") { 21 } else { 17 }).sum();
    let all = (given.number, given.time, given.stop, given.round, given.length);
    assert_eq!(all, (0, time, stop, round, length));
    assert_eq!(given.lines(), lines);
}

const N1: [&str; 3] = ["ride 0 2 0 100 300", "transfer 2 3 - 300 330", "ride 3 4 2 350 450"];
const N3: [&str; 3] = ["ride 0 2 1 400 600", "transfer 2 3 - 600 630", "ride 3 4 3 650 750"];

#[test]
fn n1_and_n2() {
    for moment in [50, 100] {
        found(&ask(&n().words(), &depart(0, 4, moment)), 450, 4, 1, &N1);
    }
}

#[test]
fn n1_as_legs() {
    let legs = [
        Leg { from: 0, to: 2, departure: 100, arrival: 300, kind: LegKind::Ride { trip: 0 } },
        Leg { from: 2, to: 3, departure: 300, arrival: 330, kind: LegKind::Transfer },
        Leg { from: 3, to: 4, departure: 350, arrival: 450, kind: LegKind::Ride { trip: 2 } },
    ];
    assert_eq!(ask(&n().words(), &depart(0, 4, 50)).legs, legs);
}

#[test]
fn n3() {
    found(&ask(&n().words(), &depart(0, 4, 101)), 750, 4, 1, &N3);
}

#[test]
fn n4_the_last_bus_has_left() {
    assert_eq!(ask(&n().words(), &depart(0, 4, 401)), Given::only(10));
}

#[test]
fn n5_boards_by_arrival() {
    found(&ask(&n().words(), &depart(1, 2, 205)), 600, 2, 0, &["ride 1 2 1 510 600"]);
}

#[test]
fn n6_no_footpath_before_a_ride() {
    assert_eq!(ask(&n().words(), &depart(2, 3, 50)), Given::only(10));
}

#[test]
fn n7_no_ride_comes_back() {
    assert_eq!(ask(&n().words(), &depart(0, 0, 50)), Given::only(10));
}

#[test]
fn n8_the_transfer_is_one_way() {
    assert_eq!(ask(&n().words(), &arrive(0, 4, 450)), Given::only(10));
}

#[test]
fn n9_the_transfer_both_ways() {
    let lines = ["ride 0 2 0 100 300", "transfer 2 3 - 320 350", "ride 3 4 2 350 450"];
    found(&ask(&n_both_ways().words(), &arrive(0, 4, 450)), 100, 0, 1, &lines);
}

#[test]
fn n10_a_byte_too_few() {
    let words = n().words();
    let tables = Tables::check(&words).unwrap();
    let mut workspace = Workspace::for_tables(&tables);
    let mut ask = |room| ask_with(&tables, &mut workspace, room, &depart(0, 4, 50));
    for room in [0, 1, 21, 58] {
        assert_eq!(ask(room), Given { length: 59, ..Given::only(12) });
    }
    found(&ask(59), 450, 4, 1, &N1);
    found(&ask(60), 450, 4, 1, &N1);
}

#[test]
fn n10_as_an_error() {
    let words = n().words();
    let tables = Tables::check(&words).unwrap();
    let mut workspace = Workspace::for_tables(&tables);
    let mut buffer = [0; 58];
    let answer = tables.solve(&mut workspace, &mut buffer, &depart(0, 4, 50));
    assert_eq!(answer, Answer::TooLong { needed: 59 });
    let error = answer.journey().unwrap_err();
    assert_eq!(error, NoJourney::TooLong { needed: 59 });
    assert_eq!(error.to_string(), "journey longer than its buffer (it takes 59 bytes)");
}

#[test]
fn m1_and_m2_the_modes() {
    let (words, query) = (m().words(), depart(0, 2, 120));
    assert_eq!(ask(&words, &query), Given::only(10));
    assert_eq!(ask(&words, &query.mode(Mode::Source)), Given::only(10));
    let lines = ["ride 0 1 1 150 200", "ride 1 2 0 300 400"];
    found(&ask(&words, &query.mode(Mode::Rescan)), 400, 2, 1, &lines);
}

#[test]
fn one_workspace_for_tables_of_one_size() {
    let (one_way, both_ways) = (n().words(), n_both_ways().words());
    let one_way = Tables::check(&one_way).unwrap();
    let both_ways = Tables::check(&both_ways).unwrap();
    let mut workspace = Workspace::for_tables(&one_way);
    assert_eq!(ask_with(&both_ways, &mut workspace, 64, &arrive(0, 4, 450)).time, 100);
    assert_eq!(ask_with(&one_way, &mut workspace, 64, &arrive(0, 4, 450)), Given::only(10));
    assert_eq!(ask_with(&one_way, &mut workspace, 64, &depart(0, 4, 50)).time, 450);
}

#[test]
fn areas_at_either_end() {
    let words = n_with_areas().words();
    let (stop, area) = (Place::Stop, Place::Area);
    for (from, to) in [(area(0), stop(4)), (stop(0), area(1)), (area(0), area(1))] {
        let query = Query::new(from, to, When::Departure(50));
        found(&ask(&words, &query), 450, 4, 1, &N1);
    }
    // a station stands for its stops
    found(&ask(&words, &depart(5, 6, 101)), 750, 4, 1, &N3);
}

#[test]
fn walks_said_and_unsaid() {
    let mut network = n();
    network.transfers.clear();
    network.walks = vec![Walk { from: 2, to: 3, metres: 45.0 }];
    let (words, query) = (network.words(), depart(0, 4, 50));
    let lines = [N1[0], "walk 2 3 - 300 330", N1[2]];
    for query in [query, query.walks(Walks::Unsaid), query.walks(Walks::Allowed)] {
        found(&ask(&words, &query), 450, 4, 1, &lines);
    }
    assert_eq!(ask(&words, &query.walks(Walks::Barred)), Given::only(10));
}

#[test]
fn no_stop_at_all() {
    assert_eq!(ask(&Network::default().words(), &depart(0, 0, 1)), Given::only(7));
}

#[test]
fn threads_share_tables() {
    let words = n().words();
    let tables = Tables::check(&words).unwrap();
    std::thread::scope(|threads| {
        for moment in [50, 101] {
            threads.spawn(move || {
                let mut workspace = Workspace::for_tables(&tables);
                let given = ask_with(&tables, &mut workspace, 64, &depart(0, 4, moment));
                assert_eq!(given.time, if moment == 50 { 450 } else { 750 });
            });
        }
    });
}
