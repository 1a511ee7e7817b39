//! Feeds: what is read and refused, what is written, and the tables that the loader makes of them.
use crate::ask::{arrive, ask, depart};
use crate::network::{Network, Route, Transfer as Listed, ABSENT};
use kiosk::gtfs::{self, Feed, FeedError, File, StopTime, Transfer, UNSTATED};
use kiosk::{LegKind, Mode, Tables, TablesError, DAY};

const TIMES: &str = "trip_id,arrival_time,departure_time,stop_id,stop_sequence\n";
const TRANSFERS: &str = "from_stop_id,to_stop_id,transfer_type,min_transfer_time\n";

fn sample(name: &str) -> Vec<u8> {
    let path = format!("{}/../examples/feed/{name}", env!("CARGO_MANIFEST_DIR"));
    std::fs::read(&path).unwrap_or_else(|error| panic!("{path}: {error}"))
}

/// stop_times.txt of trips: `id: stop time, stop time`.
fn times_of(trips: &[&str]) -> String {
    let mut text = TIMES.to_string();
    for trip in trips {
        let (id, calls) = trip.split_once(": ").unwrap();
        for (position, call) in calls.split(", ").enumerate() {
            let (stop, moment) = call.split_once(' ').unwrap();
            let (arrival, departure) = moment.split_once('/').unwrap_or((moment, moment));
            text += &format!("{id},{arrival},{departure},{stop},{position}\n");
        }
    }
    text
}

/// A moment as the reader gives it.
fn at(hours: u32, minutes: u32, seconds: u32) -> u32 {
    DAY + hours * 3600 + minutes * 60 + seconds
}

fn number(stop_times: &str, transfers: &str) -> (u32, u32, Option<File>) {
    match Feed::read(stop_times.as_bytes(), transfers.as_bytes()) {
        Ok(_) => (0, 0, None),
        Err(FeedError { number, line, file }) => (number, line, file),
    }
}

#[test]
fn the_sample() {
    let (one, two) = (sample("stop_times.txt"), sample("transfers.txt"));
    let feed = Feed::read(&one, &two).unwrap();
    let ids: Vec<_> = (0..feed.stops()).map(|stop| feed.stop_id(stop)).collect();
    assert_eq!(ids, ["Harbour, east", "Market", "School", "Platform \"A\"", "Hill", "Pier"]);
    let ids: Vec<_> = (0..feed.trips()).map(|trip| feed.trip_id(trip)).collect();
    assert_eq!(ids, ["bus 1", "bus, 2", "the \"express\"", "tram-1", "tram-2", "night"]);
    assert_eq!((feed.stop_of("Pier"), feed.stop_of("pier"), feed.trip_of("bus, 2")), (Some(5), None, Some(1)));
    let times: Vec<StopTime> = feed.times().collect();
    assert_eq!(times.len(), 15);
    assert_eq!(times[1], StopTime { trip: 0, stop: 1, arrival: at(8, 5, 0), departure: at(8, 6, 0) });
    assert_eq!(times[7], StopTime { trip: 2, stop: 1, arrival: at(8, 33, 0), departure: at(8, 33, 30) });
    assert_eq!(times[14], StopTime { trip: 5, stop: 3, arrival: at(25, 10, 0), departure: at(25, 10, 0) });
    let transfers: Vec<_> = feed.transfers().map(|t| [t.from, t.to, t.kind, t.span]).collect();
    let none = UNSTATED;
    let listed = [
        [3, 1, 2, 120],
        [1, 3, 2, 120],
        [5, 2, 0, none],
        [2, 5, 0, none],
        [1, 1, 2, 0],
        [4, 2, 3, none],
        [2, 4, 3, none],
    ];
    assert_eq!(transfers, listed);
    assert_eq!(format!("{feed:?}"), "Feed(6 stops, 6 trips, 15 times, 7 transfers)");
}

#[test]
fn the_sample_from_stop_to_stop() {
    let (one, two) = (sample("stop_times.txt"), sample("transfers.txt"));
    let feed = Feed::read(&one, &two).unwrap();
    let words = feed.tables(|_, _| 90.0);
    let lines = |from, to, moment| ask(&words, &depart(from, to, DAY + moment)).lines();
    let (seven, half) = (7 * 3600, 8 * 3600 + 26 * 60);
    let ride = |from, to, trip, leaves, comes| format!("ride {from} {to} {trip} {leaves} {comes}");
    let first = ride(0, 1, 0, at(7, 55, 0), at(8, 5, 0));
    let change = format!("transfer 1 3 - {} {}", at(8, 5, 0), at(8, 7, 0));
    let second = ride(3, 4, 3, at(8, 10, 0), at(8, 20, 0));
    assert_eq!(lines(0, 4, seven), [first, change, second]);
    // a transfer without seconds takes its metres
    let pier = format!("transfer 2 5 - {} {}", at(8, 15, 0), at(8, 16, 0));
    assert_eq!(lines(0, 5, seven), [ride(0, 2, 0, at(7, 55, 0), at(8, 15, 0)), pier]);
    // the express overtakes the bus before it
    assert_eq!(lines(0, 2, half), [ride(0, 2, 2, at(8, 28, 0), at(8, 41, 0))]);
    // type 3 is no way
    assert_eq!(ask(&words, &depart(2, 4, DAY + seven)).number, 10);
}

#[test]
fn what_is_written_reads_the_same() {
    let (one, two) = (sample("stop_times.txt"), sample("transfers.txt"));
    let feed = Feed::read(&one, &two).unwrap();
    let (times, transfers) = (feed.write_times(), feed.write_transfers());
    let again = Feed::read(&times, &transfers).unwrap();
    assert!(feed.times().eq(again.times()) && feed.transfers().eq(again.transfers()));
    assert_eq!((feed.stops(), feed.trips()), (again.stops(), again.trips()));
    assert!((0..again.stops()).all(|stop| again.stop_id(stop) == stop.to_string()));
    assert!(String::from_utf8(times)
        .unwrap()
        .starts_with(&format!("{TIMES}0,07:55:00,07:55:00,0,0\n0,08:05:00,08:06:00,1,1\n")));
    assert!(String::from_utf8(transfers).unwrap().starts_with(&format!("{TRANSFERS}3,1,2,120\n1,3,2,120\n5,2,0,\n")));
    // the rows by themselves
    let rows: (Vec<StopTime>, Vec<Transfer>) = (feed.times().collect(), feed.transfers().collect());
    assert_eq!(gtfs::write_times(&rows.0).unwrap(), feed.write_times());
    assert_eq!(gtfs::write_transfers(&rows.1, 5).unwrap(), feed.write_transfers());
    // nothing at all
    assert_eq!(gtfs::write_times(&[]).unwrap(), TIMES.as_bytes());
    assert_eq!(gtfs::write_transfers(&[], 0).unwrap(), TRANSFERS.as_bytes());
}

#[test]
fn rows_that_are_not_written() {
    let row = |trip, stop, arrival| StopTime { trip, stop, arrival, departure: DAY };
    let refused = |rows: &[StopTime]| gtfs::write_times(rows).map_or_else(|error| error.number, |_| 0);
    assert_eq!(refused(&[row(0, 0, DAY)]), 0);
    assert_eq!(refused(&[row(1, 0, DAY)]), 2);
    assert_eq!(refused(&[row(0, 1, DAY)]), 2);
    assert_eq!(refused(&[row(0, 0, DAY), row(1, 1, DAY), row(0, 1, DAY)]), 2);
    assert_eq!(refused(&[row(0, 0, DAY - 1)]), 3);
    assert_eq!(refused(&[row(0, 0, DAY + 359_999)]), 0);
    assert_eq!(refused(&[row(0, 0, DAY + 360_000), row(9, 9, 0)]), 3);
    assert_eq!(refused(&vec![row(0, 0, DAY); 262_145]), 1);
    let path = |kind, span| {
        gtfs::write_transfers(&[Transfer { from: 0, to: 1, kind, span }], 1).map_or_else(|error| error.number, |_| 0)
    };
    assert_eq!([path(2, 0), path(0, UNSTATED), path(2, UNSTATED), path(0, 0), path(6, UNSTATED)], [0, 0, 5, 5, 5]);
}

#[test]
fn bad_lines() {
    let good = times_of(&["t: A 8:00:00, B 8:10:00"]);
    assert_eq!(number(&good, TRANSFERS), (0, 0, None));
    assert_eq!(number("", TRANSFERS), (14, 1, Some(File::StopTimes)));
    assert_eq!(number(&good, ""), (14, 1, Some(File::Transfers)));
    assert_eq!(number(&format!("{good}t,8:20:00,,C,7\n"), TRANSFERS), (14, 4, Some(File::StopTimes)));
    assert_eq!(number(&format!("{good}t,8:20:00,8:20:00,C,1\n"), TRANSFERS), (14, 4, Some(File::StopTimes)));
    assert_eq!(number(&good, &format!("{TRANSFERS}A,B,2,\n")), (14, 2, Some(File::Transfers)));
    assert_eq!(number(&good, &format!("{TRANSFERS}A,B,,\n\n")), (14, 3, Some(File::Transfers)));
    let many =
        |count| TIMES.to_string() + &(0..count).map(|i| format!("t,8:00:00,8:00:00,s{i},{i}\n")).collect::<String>();
    assert_eq!(number(&many(4096), TRANSFERS), (0, 0, None));
    assert_eq!(number(&many(4097), TRANSFERS), (15, 0, None));
    let error = |one: &str, two: &str| Feed::read(one.as_bytes(), two.as_bytes()).unwrap_err().to_string();
    assert_eq!(error(&good, "x"), "transfers.txt, line 1: a bad line");
    assert_eq!(error(&many(4097), TRANSFERS), "a table that is full");
}

#[test]
fn ids_that_are_no_text() {
    let mut times = TIMES.as_bytes().to_vec();
    times.extend(b"\xFF,8:00:00,8:00:00,\"\"\"\",0\n");
    let feed = Feed::read(&times, TRANSFERS.as_bytes()).unwrap();
    assert_eq!((feed.trip_id(0).as_ref(), feed.trip_bytes(0).as_ref()), ("\u{FFFD}", &b"\xFF"[..]));
    assert_eq!(feed.stop_id(0), "\"");
}

/// The tables of the feed are those of the network, whose trips are numbered in the feed's order.
#[test]
fn the_words_are_those_of_lists() {
    let one = times_of(&["t0: A 0:01:40, B 0:03:20/0:03:30, C 0:05:00", "t1: A 0:06:40, B 0:08:20/0:08:30, C 0:10:00"]);
    let one = one + times_of(&["t2: D 0:05:50, E 0:07:30", "t3: D 0:10:50, E 0:12:30"]).strip_prefix(TIMES).unwrap();
    let two = format!("{TRANSFERS}C,D,2,30\nA,A,1,\nE,A,4,\n");
    let feed = Feed::read(one.as_bytes(), two.as_bytes()).unwrap();
    let mut n = crate::network::n();
    for route in &mut n.routes {
        for moment in route.trips.iter_mut().flatten() {
            *moment = (moment.0 + DAY, moment.1 + DAY);
        }
    }
    n.transfers.push(Listed { from: 0, to: 0, span: ABSENT, metres: 7.5 });
    assert_eq!(feed.tables(|_, _| 7.5), n.words());
    let empty = Feed::read(TIMES.as_bytes(), TRANSFERS.as_bytes()).unwrap();
    assert_eq!(empty.tables(|_, _| 0.0), Network::default().words());
}

/// The trips of each route, and the route's stops.
fn routes_of(words: &[u32]) -> Vec<(Vec<u32>, Vec<u32>)> {
    let section = |k: usize| &words[words[k] as usize..words[k + 1] as usize];
    let rows = |starts: &[u32], list: &[u32], at: usize| list[starts[at] as usize..starts[at + 1] as usize].to_vec();
    let count = section(11).len() - 1;
    (0..count).map(|r| (rows(section(13), section(14), r), rows(section(11), section(12), r))).collect()
}

#[test]
fn trips_are_grouped_sorted_and_split() {
    let one = times_of(&[
        "late: A 9:00:00, B 9:10:00",
        "other: B 9:00:00, A 9:10:00",
        "soon: A 8:00:00, B 8:30:00",
        "fast: A 8:05:00, B 8:15:00",
        "same: A 8:05:00, B 8:15:00",
        "round: A 8:00:00, B 8:10:00, A 8:20:00",
    ]);
    let feed = Feed::read(one.as_bytes(), TRANSFERS.as_bytes()).unwrap();
    let words = feed.tables(|_, _| 0.0);
    assert!(Tables::check(&words).is_ok());
    let routes = routes_of(&words);
    let wanted = [(vec![2, 0], vec![0, 1]), (vec![3, 4], vec![0, 1]), (vec![1], vec![1, 0]), (vec![5], vec![0, 1, 0])];
    assert_eq!(routes, wanted);
    let ride = ask(&words, &depart(0, 1, DAY + 8 * 3600)).legs[0];
    assert_eq!((ride.kind, ride.arrival), (LegKind::Ride { trip: 5 }, DAY + 8 * 3600 + 600));
}

#[test]
fn what_the_check_says_of_bad_feeds() {
    let check = |one: &str, two: &str, metres: f32| {
        let feed = Feed::read(one.as_bytes(), two.as_bytes()).unwrap();
        Tables::check(&feed.tables(|_, _| metres)).map(|_| ()).err()
    };
    let good = times_of(&["t: A 8:00:00, B 8:10:00"]);
    assert_eq!(check(&good, TRANSFERS, f32::NAN), None);
    assert_eq!(check(&times_of(&["t: A 8:00:00, B 7:59:59"]), TRANSFERS, 0.0), Some(TablesError::Timetable));
    assert_eq!(check(&times_of(&["t: A 8:00:01/8:00:00"]), TRANSFERS, 0.0), Some(TablesError::Timetable));
    assert_eq!(check(&good, &format!("{TRANSFERS}A,B,2,86401\n"), 0.0), Some(TablesError::Footpath));
    assert_eq!(check(&good, &format!("{TRANSFERS}A,B,2,86400\n"), f32::NAN), None);
    assert_eq!(check(&good, &format!("{TRANSFERS}A,B,0,\n"), f32::NAN), Some(TablesError::Footpath));
    let long =
        |count| TIMES.to_string() + &(0..count).map(|i| format!("t,8:00:00,8:00:00,s,{i}\n")).collect::<String>();
    assert_eq!(check(&long(128), TRANSFERS, 0.0), None);
    assert_eq!(check(&long(129), TRANSFERS, 0.0), Some(TablesError::Count));
}

/// 4,096 stops, 16,384 trips on 512 routes, 262,144 times, 16,384 transfers.
#[test]
fn a_feed_at_the_limits() {
    let (mut one, mut two) = (TIMES.to_string(), TRANSFERS.to_string());
    let clock = |seconds: u32| format!("{}:{:02}:{:02}", seconds / 3600, seconds / 60 % 60, seconds % 60);
    for trip in 0..16_384 {
        for position in 0..16 {
            let (moment, stop) = (trip / 512 * 3600 + position * 60, (trip % 512 * 8 + position) % 4096);
            one += &format!("t{trip},{0},{0},s{stop},{position}\n", clock(moment));
        }
    }
    for stop in 0..16_384 {
        two += &format!("s{},s{},2,{}\n", stop % 4096, (stop + 1) % 4096, 70_000 + stop);
    }
    let feed = Feed::read(one.as_bytes(), two.as_bytes()).unwrap();
    assert_eq!(format!("{feed:?}"), "Feed(4096 stops, 16384 trips, 262144 times, 16384 transfers)");
    let words = feed.tables(|_, _| 0.0);
    assert_eq!(routes_of(&words).len(), 512);
    assert!(routes_of(&words).iter().all(|(trips, stops)| trips.len() == 32 && stops.len() == 16));
    assert_eq!(ask(&words, &depart(0, 20, DAY)).time, at(1, 12, 0));
    let (times, transfers) = (feed.write_times(), feed.write_transfers());
    let again = Feed::read(&times, &transfers).unwrap();
    assert!(feed.times().eq(again.times()) && feed.transfers().eq(again.transfers()));
    // one more of each
    let more = |one: &str, two: &str| number(one, two).0;
    assert_eq!(more(&(one.clone() + "t16383,8:00:00,8:00:00,s0,99\n"), &two), 15);
    assert_eq!(more(&one, &(two.clone() + "s0,s0,0,\n")), 15);
    assert_eq!(more(&one, &two.replacen("s0,s1,", "s0,s4096,", 1)), 15);
}

/// Splitmix64.
struct Dice(u64);

impl Dice {
    fn below(&mut self, n: u32) -> u32 {
        self.0 = self.0.wrapping_add(0x9E37_79B9_7F4A_7C15);
        let z = (self.0 ^ (self.0 >> 30)).wrapping_mul(0xBF58_476D_1CE4_E5B9);
        let z = (z ^ (z >> 27)).wrapping_mul(0x94D0_49BB_1331_11EB);
        ((z ^ (z >> 31)) >> 32) as u32 % n
    }
}

/// Random trips over few stops: the tables are accepted, each trip stands in one route, and a search finds what a search over the trips as
/// routes of their own finds.
#[test]
fn any_trips() {
    for seed in 0..300 {
        let mut dice = Dice(seed);
        let (stops, count) = (2 + dice.below(4), 1 + dice.below(8));
        let mut trips = vec![];
        for trip in 0..count {
            let mut at = DAY + dice.below(60);
            let mut calls = vec![];
            for _ in 0..1 + dice.below(4) {
                let leaves = at + dice.below(3);
                calls.push(StopTime { trip, stop: dice.below(stops), arrival: at, departure: leaves });
                at = leaves + dice.below(20);
            }
            if trip > 0 && dice.below(3) > 0 {
                let other: &Vec<StopTime> = &trips[dice.below(trip) as usize];
                let by = dice.below(9);
                let shifted = |call: &StopTime| StopTime {
                    trip,
                    arrival: call.arrival + by,
                    departure: call.departure + by,
                    ..*call
                };
                calls = other.iter().map(shifted).collect();
                if let (Some(last), true) = (calls.last_mut(), dice.below(2) == 0) {
                    last.arrival = last.arrival.max(by) + dice.below(6);
                    last.departure = last.arrival;
                }
            }
            trips.push(calls);
        }
        let clock = |m: u32| format!("{}:{:02}:{:02}", (m - DAY) / 3600, (m - DAY) / 60 % 60, (m - DAY) % 60);
        let line = |(p, c): (usize, &StopTime)| {
            format!("{},{},{},{},{p}\n", c.trip, clock(c.arrival), clock(c.departure), c.stop)
        };
        let text =
            TIMES.to_string() + &trips.iter().flat_map(|calls| calls.iter().enumerate().map(line)).collect::<String>();
        let feed = Feed::read(text.as_bytes(), TRANSFERS.as_bytes()).unwrap();
        let words = feed.tables(|_, _| 0.0);
        assert!(Tables::check(&words).is_ok(), "seed {seed}");
        let mut listed: Vec<u32> = routes_of(&words).into_iter().flat_map(|(trips, _)| trips).collect();
        listed.sort();
        assert!(listed.into_iter().eq(0..count), "seed {seed}");

        let rows: Vec<StopTime> = feed.times().collect();
        let route = |trip| {
            let own: Vec<&StopTime> = rows.iter().filter(|row| row.trip == trip).collect();
            let times = own.iter().map(|row| (row.arrival, row.departure)).collect();
            Route { stops: own.iter().map(|row| row.stop).collect(), trips: vec![times] }
        };
        let apart =
            Network { routes: (0..count).map(route).collect(), ..Network::with_stops(feed.stops() as usize) }.words();
        for (from, to) in (0..feed.stops()).flat_map(|from| (0..feed.stops()).map(move |to| (from, to))) {
            for query in [depart(from, to, DAY + 20), arrive(from, to, DAY + 50)] {
                let query = query.mode(Mode::Rescan);
                let (one, two) = (ask(&words, &query), ask(&apart, &query));
                assert_eq!((one.number, one.time), (two.number, two.time), "seed {seed}: {query:?}\n{text}");
            }
        }
    }
}
