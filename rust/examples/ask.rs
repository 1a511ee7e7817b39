//! Asks for a journey in tables of any size that the library takes, as `./kiosk` does in small ones:
//!
//! ask TABLES FROM TO depart|arrive MOMENT [walks:no] [mode:rescan] [midnight:SECONDS]
//!
//! Tested, not proved; the search that it calls is the proved one. Exit status: 0 a journey, 1 none or refused, 2 bad arguments.
use kiosk::{Journey, Leg, LegKind, Mode, Place, Query, Tables, Walks, When, Workspace, MOST_JOURNEY};
use std::{env, fs, io, io::Write, process::ExitCode};

const USAGE: &str = "usage: ask TABLES FROM TO depart|arrive MOMENT [walks:no] [mode:rescan] [midnight:SECONDS]";

/// The words of a tables file: numbers with blanks between them; `net` may stand before them.
fn words(text: &str) -> Result<Vec<u32>, String> {
    let bare = text.trim_start().strip_prefix("net").unwrap_or(text);
    bare.split_ascii_whitespace().map(|word| word.parse().map_err(|_| format!("{word} is no word of tables"))).collect()
}

fn place(arg: &str) -> Result<Place, String> {
    let bad = |_| format!("{arg} is no place: give the number of a stop, or area: and a number");
    match arg.strip_prefix("area:") {
        Some(area) => area.parse().map(Place::Area).map_err(bad),
        None => arg.parse().map(Place::Stop).map_err(bad),
    }
}

/// Seconds, or H:MM:SS.
fn seconds(arg: &str) -> Option<u32> {
    let parts: Vec<u32> = arg.split(':').map(|part| part.parse().ok()).collect::<Option<_>>()?;
    match parts[..] {
        [all] => Some(all),
        [h, m @ 0..=59, s @ 0..=59] => h.checked_mul(3600)?.checked_add(m * 60 + s),
        _ => None,
    }
}

/// What is asked, and the seconds that the tables count midnight as.
fn asked(args: &[String]) -> Result<(Query, u32), String> {
    let [from, to, when, moment, options @ ..] = args else { return Err("too few arguments".into()) };
    let midnight = match options.iter().find_map(|option| option.strip_prefix("midnight:")) {
        Some(said) => said.parse().map_err(|_| format!("midnight:{said} names no seconds"))?,
        None => 0,
    };
    let bad = || format!("{moment} is no moment: give seconds, or H:MM:SS");
    let moment = seconds(moment).and_then(|moment| moment.checked_add(midnight)).ok_or_else(bad)?;
    let when = match when.as_str() {
        "depart" => When::Departure(moment),
        "arrive" => When::Arrival(moment),
        _ => return Err(format!("{when} is neither depart nor arrive")),
    };
    let mut query = Query::new(place(from)?, place(to)?, when);
    for option in options {
        query = match option.as_str() {
            "walks:no" => query.walks(Walks::Barred),
            "mode:rescan" => query.mode(Mode::Rescan),
            other if other.starts_with("midnight:") => query,
            other => return Err(format!("{other} is no option")),
        }
    }
    Ok((query, midnight))
}

fn clock(moment: u32, midnight: u32) -> String {
    let (sign, t) = if moment < midnight { ("-", midnight - moment) } else { ("", moment - midnight) };
    format!("{sign}{}:{:02}:{:02}", t / 3600, t / 60 % 60, t % 60)
}

/// The journey in words, a line for its two ends and one for each leg.
fn told(journey: Journey<'_>, midnight: u32) -> String {
    let stop = |stop, at| format!("stop {stop} at {}", clock(at, midnight));
    let legs: Vec<Leg> = journey.legs().collect();
    let (first, last) = (legs[0], legs[legs.len() - 1]);
    let mut text = format!("Leave {}, arrive at {}.\n", stop(first.from, first.departure), stop(last.to, last.arrival));
    for leg in legs {
        let what = match leg.kind {
            LegKind::Ride { trip } => format!("ride trip {trip}"),
            LegKind::Transfer => "transfer".into(),
            LegKind::Walk => "walk".into(),
        };
        text += &format!("{what} from {} to {}\n", stop(leg.from, leg.departure), stop(leg.to, leg.arrival));
    }
    text
}

fn answer(file: &str, query: Query, midnight: u32) -> Result<(), String> {
    let text = fs::read_to_string(file).map_err(|why| format!("{file}: {why}"))?;
    let words = words(&text).map_err(|why| format!("{file}: {why}"))?;
    let tables = Tables::check(&words).map_err(|fault| format!("{file}: {fault} (tools/fault.py says where)"))?;
    let mut buffer = vec![0; MOST_JOURNEY];
    let answer = tables.solve(&mut Workspace::for_tables(&tables), &mut buffer, &query);
    let text = told(answer.journey().map_err(|none| format!("{}: {none}", none.number()))?, midnight);
    match io::stdout().write_all(text.as_bytes()) {
        Err(why) if why.kind() != io::ErrorKind::BrokenPipe => Err(format!("the journey cannot be printed: {why}")),
        _ => Ok(()), // whoever reads it may have enough after some lines
    }
}

fn main() -> ExitCode {
    let args: Vec<String> = env::args().skip(1).collect();
    let read = match args.split_first() {
        Some((file, rest)) => asked(rest).map(|(query, midnight)| (file, query, midnight)),
        None => Err("TABLES is not given".into()),
    };
    let (file, query, midnight) = match read {
        Ok(read) => read,
        Err(why) => {
            eprintln!("{why}\n{USAGE}");
            return ExitCode::from(2);
        }
    };
    match answer(file, query, midnight) {
        Ok(()) => ExitCode::SUCCESS,
        Err(why) => {
            eprintln!("{why}");
            ExitCode::FAILURE
        }
    }
}
