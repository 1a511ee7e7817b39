//! Asking, and holding the buffer against what document 01 says of it.
use kiosk::{Answer, Journey, Leg, Place, Query, Tables, When, Workspace};

pub const JUNK: u8 = 0xA5;

/// An answer with document 01's values: what it does not give is 0, and no legs.
#[derive(Clone, Debug, Default, PartialEq)]
pub struct Given {
    pub number: u32,
    pub time: u32,
    pub stop: u32,
    pub round: u32,
    pub length: usize,
    pub legs: Vec<Leg>,
}

impl Given {
    pub fn only(number: u32) -> Given {
        Given { number, ..Given::default() }
    }

    /// The legs as `showlegs` prints them.
    pub fn lines(&self) -> Vec<String> {
        self.legs.iter().map(Leg::to_string).collect()
    }
}

/// Asks with a buffer of so many bytes of junk. Where a journey is found it can be read back, and the junk past it is still
/// there; in all other cases all of it is.
pub fn ask_with(tables: &Tables, workspace: &mut Workspace, room: usize, query: &Query) -> Given {
    let mut buffer = vec![JUNK; room];
    let answer = tables.solve(workspace, &mut buffer, query);
    let number = answer.number();
    let given = match answer {
        Answer::Found { time, stop, round, journey } => {
            let legs = journey.legs().collect();
            Given { number, time, stop, round, length: journey.bytes().len(), legs }
        }
        Answer::TooLong { needed } => Given { length: needed, ..Given::only(number) },
        Answer::Refused(refusal) => Given::only(refusal.number()),
        Answer::NoRouteFound | Answer::FailedToBuildRoute => Given::only(number),
    };
    let written = if number == 0 { given.length } else { 0 };
    assert!(buffer[written..].iter().all(|&byte| byte == JUNK), "{query:?}: bytes past the journey");
    let read = Journey::read(&buffer[..written]).expect("what the search wrote");
    assert_eq!(read.legs().collect::<Vec<Leg>>(), given.legs, "{query:?}: read back");
    given
}

/// Asks with a new workspace and 1,024 bytes; then once more with the same workspace, which must not matter.
pub fn ask(words: &[u32], query: &Query) -> Given {
    let tables = Tables::check(words).expect("good tables");
    let mut workspace = Workspace::for_tables(&tables);
    let given = ask_with(&tables, &mut workspace, 1024, query);
    assert_eq!(ask_with(&tables, &mut workspace, 1024, query), given, "{query:?}: asked twice");
    given
}

pub fn depart(from: u32, to: u32, moment: u32) -> Query {
    Query::new(Place::Stop(from), Place::Stop(to), When::Departure(moment))
}

pub fn arrive(from: u32, to: u32, moment: u32) -> Query {
    Query::new(Place::Stop(from), Place::Stop(to), When::Arrival(moment))
}
