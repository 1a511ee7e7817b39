//! Asks for a journey in a feed as operators send it, by their own ids:
//!
//! gtfs FOLDER FROM TO depart|arrive MOMENT
//!
//! FOLDER has stop_times.txt and transfers.txt; FROM and TO are stop_ids. Where stops lie stands in neither file, so here each transfer
//! that states no seconds is 150 metres long; a program with the operator's stops.txt would measure it. Tested, not proved; the reader and
//! the search that it calls are the proved ones. Exit status: 0 a journey, 1 none or refused, 2 bad arguments.
use kiosk::gtfs::Feed;
use kiosk::{LegKind, Place, Query, Tables, When, Workspace, DAY, MOST_JOURNEY};
use std::{env, fs, io, io::Write, process::ExitCode};

const USAGE: &str = "usage: gtfs FOLDER FROM TO depart|arrive MOMENT";
const METRES: f32 = 150.0;

/// H:MM:SS, as seconds.
fn seconds(arg: &str) -> Option<u32> {
    let parts: Vec<u32> = arg.split(':').map(|part| part.parse().ok()).collect::<Option<_>>()?;
    match parts[..] {
        [h @ 0..=99, m @ 0..=59, s @ 0..=59] => Some(h * 3600 + m * 60 + s),
        _ => None,
    }
}

fn clock(moment: u32) -> String {
    let t = moment - DAY;
    format!("{}:{:02}:{:02}", t / 3600, t / 60 % 60, t % 60)
}

fn answer(folder: &str, from: &str, to: &str, when: When) -> Result<String, String> {
    let read = |name| fs::read(format!("{folder}/{name}")).map_err(|why| format!("{folder}/{name}: {why}"));
    let (stop_times, transfers) = (read("stop_times.txt")?, read("transfers.txt")?);
    let feed = Feed::read(&stop_times, &transfers).map_err(|why| format!("{folder}: {}: {why}", why.number))?;
    let words = feed.tables(|_from, _to| METRES);
    let tables = Tables::check(&words).map_err(|why| format!("{folder}: {}: {why}", why.number()))?;

    let stop = |id| feed.stop_of(id).map(Place::Stop).ok_or(format!("{folder}: there is no stop {id}"));
    let mut buffer = vec![0; MOST_JOURNEY];
    let query = Query::new(stop(from)?, stop(to)?, when);
    let answer = tables.solve(&mut Workspace::for_tables(&tables), &mut buffer, &query);
    let journey = answer.journey().map_err(|none| format!("{}: {none}", none.number()))?;

    let place = |stop, at| format!("{} at {}", feed.stop_id(stop), clock(at));
    let mut text = String::new();
    for leg in journey.legs() {
        let what = match leg.kind {
            LegKind::Ride { trip } => format!("ride {}", feed.trip_id(trip)),
            LegKind::Transfer => "transfer".into(),
            LegKind::Walk => "walk".into(),
        };
        text += &format!("{what} from {} to {}\n", place(leg.from, leg.departure), place(leg.to, leg.arrival));
    }
    Ok(text)
}

fn main() -> ExitCode {
    let args: Vec<String> = env::args().skip(1).collect();
    let asked = match &args[..] {
        [folder, from, to, when, moment] => match (when.as_str(), seconds(moment).map(|moment| moment + DAY)) {
            ("depart", Some(moment)) => Ok((folder, from, to, When::Departure(moment))),
            ("arrive", Some(moment)) => Ok((folder, from, to, When::Arrival(moment))),
            (_, None) => Err(format!("{moment} is no moment: give H:MM:SS")),
            _ => Err(format!("{when} is neither depart nor arrive")),
        },
        _ => Err("five arguments are wanted".into()),
    };
    let (folder, from, to, when) = match asked {
        Ok(asked) => asked,
        Err(why) => {
            eprintln!("{why}\n{USAGE}");
            return ExitCode::from(2);
        }
    };
    match answer(folder, from, to, when) {
        Ok(text) => match io::stdout().write_all(text.as_bytes()) {
            Err(why) if why.kind() != io::ErrorKind::BrokenPipe => {
                eprintln!("the journey cannot be printed: {why}");
                ExitCode::FAILURE
            }
            _ => ExitCode::SUCCESS, // whoever reads it may have enough after some lines
        },
        Err(why) => {
            eprintln!("{why}");
            ExitCode::FAILURE
        }
    }
}
