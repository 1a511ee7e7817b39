//! Journey bytes, good and damaged.
use crate::ask::depart;
use crate::network::n;
use kiosk::{BadLeg, Journey, Leg, LegKind, Tables, Workspace};

/// N1's 59 bytes: a ride, a transfer from offset 21 on, a ride from 38 on.
pub fn n1_bytes() -> Vec<u8> {
    let words = n().words();
    let tables = Tables::check(&words).unwrap();
    let mut buffer = [0; 59];
    let mut workspace = Workspace::for_tables(&tables);
    let answer = tables.solve(&mut workspace, &mut buffer, &depart(0, 4, 50));
    answer.journey().unwrap().bytes().to_vec()
}

/// A leg's bytes by document 01, written apart from the crate.
pub fn bytes_of(leg: &Leg) -> Vec<u8> {
    let (kind, trip) = match leg.kind {
        LegKind::Ride { trip } => (1, Some(trip)),
        LegKind::Transfer => (2, None),
        LegKind::Walk => (3, None),
    };
    let fields = [Some(leg.from), Some(leg.to), trip, Some(leg.departure), Some(leg.arrival)];
    let fields = fields.into_iter().flatten().flat_map(u32::to_le_bytes);
    [kind].into_iter().chain(fields).collect()
}

fn bad(bytes: &[u8]) -> usize {
    Journey::read(bytes).unwrap_err().offset
}

#[test]
fn n1_to_the_byte() {
    #[rustfmt::skip]
    let bytes = [
        1, 0, 0, 0, 0, 2, 0, 0, 0, 0, 0, 0, 0, 100, 0, 0, 0, 44, 1, 0, 0,
        2, 2, 0, 0, 0, 3, 0, 0, 0, 44, 1, 0, 0, 74, 1, 0, 0,
        1, 3, 0, 0, 0, 4, 0, 0, 0, 2, 0, 0, 0, 94, 1, 0, 0, 194, 1, 0, 0,
    ];
    assert_eq!(n1_bytes(), bytes);
}

#[test]
fn read_and_written_again() {
    let leg = |kind, [from, to, departure, arrival]: [u32; 4]| Leg { from, to, departure, arrival, kind };
    // any u32 is read: only the search promises meaning
    let legs = [
        leg(LegKind::Ride { trip: 0x01020304 }, [u32::MAX, 0, 0xFFFF_FFFE, 1]),
        leg(LegKind::Walk, [0x11223344, 0x55667788, 0x99AABBCC, 0xDDEEFF00]),
        leg(LegKind::Ride { trip: u32::MAX }, [u32::MAX; 4]),
        leg(LegKind::Transfer, [0; 4]),
    ];
    for count in 0..=legs.len() {
        let bytes: Vec<u8> = legs[..count].iter().flat_map(bytes_of).collect();
        let journey = Journey::read(&bytes).unwrap();
        assert_eq!(journey.legs().collect::<Vec<Leg>>(), legs[..count]);
        assert_eq!(journey.bytes(), bytes);
        let again: Vec<u8> = journey.into_iter().flat_map(|leg| bytes_of(&leg)).collect();
        assert_eq!(Journey::read(&again), Ok(journey));
    }
}

#[test]
fn empty_bytes_are_zero_legs() {
    let journey = Journey::read(&[]).unwrap();
    let mut legs = journey.legs();
    assert_eq!((legs.next(), legs.next()), (None, None));
}

#[test]
fn cut_anywhere() {
    let bytes = n1_bytes();
    for length in 0..=bytes.len() {
        let read = Journey::read(&bytes[..length]).map(|journey| journey.legs().count());
        let whole = [0, 21, 38, 59].iter().rposition(|&end| end <= length).unwrap();
        let offset = [0, 21, 38, 59][whole];
        assert_eq!(read, if offset == length { Ok(whole) } else { Err(BadLeg { offset }) });
    }
}

#[test]
fn unknown_kinds() {
    for at in [0, 21, 38] {
        for kind in (0..=u8::MAX).filter(|kind| ![1, 2, 3].contains(kind)) {
            let mut bytes = n1_bytes();
            bytes[at] = kind;
            assert_eq!(bad(&bytes), at, "kind {kind}");
        }
    }
    assert_eq!(bad(&[0]), 0);
    let mut longer = n1_bytes();
    longer.push(4);
    assert_eq!(bad(&longer), 59);
}

#[test]
fn a_kind_that_shifts_the_rest() {
    // the transfer read as a ride takes 4 bytes of the next leg, so that a byte of its `from`, a 0, stands for a kind
    let mut bytes = n1_bytes();
    bytes[21] = 1;
    assert_eq!(bad(&bytes), 42);
}

#[test]
fn as_an_error() {
    let error = Journey::read(&n1_bytes()[..58]).unwrap_err();
    assert_eq!(error.number(), 13);
    assert_eq!(error.to_string(), "journey bytes: unknown kind or cut body (at offset 38)");
}

#[test]
fn shown() {
    let bytes = n1_bytes();
    let journey = Journey::read(&bytes).unwrap();
    let mut lines = vec![];
    for leg in &journey {
        lines.push(leg.to_string());
    }
    assert_eq!(lines, ["ride 0 2 0 100 300", "transfer 2 3 - 300 330", "ride 3 4 2 350 450"]);
    let shown = format!("{journey:?}");
    assert!(shown.starts_with("[Leg { from: 0, to: 2,"), "{shown}");
}
