//! The Rust's kept answers (oracle/README.md has the form of the lines): every query asked through this crate.
use crate::ask::{ask_with, Given};
use crate::journeys::bytes_of;
use crate::network::{m, n, n_both_ways};
use kiosk::{LegKind, Place, Query, Tables, Walks, When, Workspace};
use std::fmt::Write;

fn read(name: &str) -> String {
    let path = format!("{}/../oracle/{name}", env!("CARGO_MANIFEST_DIR"));
    std::fs::read_to_string(&path).unwrap_or_else(|error| panic!("{path}: {error}"))
}

fn words(line: &str) -> Vec<u32> {
    line.split(' ').map(|word| word.parse().unwrap()).collect()
}

/// `s 0 s 4 d 50 1`
fn query(line: &str) -> Query {
    let parts: Vec<&str> = line.split(' ').collect();
    let number = |at: usize| parts[at].parse().unwrap();
    let place = |at: usize| match parts[at] {
        "s" => Place::Stop(number(at + 1)),
        _ => Place::Area(number(at + 1)),
    };
    let when = if parts[4] == "d" { When::Departure(number(5)) } else { When::Arrival(number(5)) };
    let walks = if parts[6] == "1" { Walks::Allowed } else { Walks::Barred };
    Query::new(place(0), place(2), when).walks(walks)
}

/// The answer as a line of the list.
fn line(given: &Given) -> String {
    let Given { number, time, stop, round, legs, .. } = given;
    if *number != 0 {
        return number.to_string();
    }
    let mut line = format!("0 {time} {stop} {round} {}", legs.len());
    for leg in legs {
        let stops = format!("{} {}", leg.from, leg.to);
        let moments = format!("{} {}", leg.departure, leg.arrival);
        match leg.kind {
            LegKind::Ride { trip } => write!(line, " | ride {stops} {trip} {moments}"),
            LegKind::Transfer => write!(line, " | transfer {stops} {moments}"),
            LegKind::Walk => write!(line, " | walk {stops} {moments}"),
        }
        .unwrap();
    }
    line
}

#[test]
fn all_kept_answers() {
    let (cases, answers) = (read("cases.txt"), read("answers.txt"));
    let mut answers = answers.lines();
    let mut asked = 0;
    let mut judged = 0;
    let mut network = vec![];
    for case in cases.lines() {
        if let Some(net) = case.strip_prefix("net ") {
            network = words(net);
        } else if let Some(asks) = case.strip_prefix("q ") {
            let tables = Tables::check(&network).expect("good tables");
            let mut workspace = Workspace::for_tables(&tables);
            let given = ask_with(&tables, &mut workspace, 4096, &query(asks));
            assert_eq!(Some(line(&given).as_str()), answers.next(), "{asks} on {network:?}");
            asked += 1;
            // what it found is a journey; of arrivals that is said only where footpaths are listed both ways (compare/judge.sh)
            if given.number == 0 && asks.contains(" d ") {
                let bytes: Vec<u8> = given.legs.iter().flat_map(bytes_of).collect();
                assert_eq!(tables.judge(&query(asks), &bytes), Ok(true), "{asks} on {network:?}");
                judged += 1;
            }
        }
    }
    assert_eq!((asked, answers.next()), (7855, None));
    assert!(judged > 2000, "{judged}");
}

/// The words that these tests write are those that the list has for the same networks.
#[test]
fn networks_n_and_m() {
    let cases = read("cases.txt");
    let nets = cases.lines().filter_map(|line| line.strip_prefix("net "));
    let first: Vec<Vec<u32>> = nets.take(3).map(words).collect();
    assert_eq!(first, [n().words(), n_both_ways().words(), m().words()]);
}
