//! kiosk.h and kiosk_gtfs.h beside what this crate says of them: the same names for the same numbers, and the same functions.
const HEADER: &str = include_str!("../../../crates/kiosk_c/include/kiosk.h");
const GTFS_HEADER: &str = include_str!("../../../crates/gtfs_c/include/kiosk_gtfs.h");
const NAMES: &str = include_str!("../../src/names.rs");
const GTFS: &str = include_str!("../../src/gtfs.rs");
const FFI: &str = include_str!("../../src/ffi.rs");

/// Each name of a header that stands for a number, without what all of them begin with.
fn names_of_header(header: &str, prefix: &str) -> Vec<(String, u64)> {
    let number = |text: &str| text.trim_end_matches('u').parse().ok();
    let mut names = vec![];
    for define in header.lines().filter_map(|line| line.strip_prefix("#define ")?.strip_prefix(prefix)) {
        let mut words = define.split_whitespace();
        names.extend(words.next().zip(words.next().and_then(number)));
    }
    for name in header.split(prefix).skip(1) {
        let (name, rest) = name.split_once(' ').unwrap_or((name, ""));
        let digits = rest.strip_prefix("= ").and_then(|rest| rest.split(|c: char| !c.is_ascii_digit()).next());
        names.extend(digits.and_then(number).map(|value| (name, value)));
    }
    let mut names: Vec<(String, u64)> = names.into_iter().map(|(name, value)| (name.to_string(), value)).collect();
    names.sort();
    names
}

/// The constants of a file of this crate.
fn names_of_file(file: &str) -> Vec<(String, u64)> {
    let constants =
        file.lines().filter_map(|line| line.strip_prefix("pub const ")?.strip_suffix(';')?.split_once(" = "));
    let mut names: Vec<(String, u64)> = constants
        .map(|(name, value)| (name.split(':').next().unwrap().to_string(), value.replace('_', "").parse().unwrap()))
        .collect();
    names.sort();
    names
}

#[test]
fn the_same_names() {
    let names = names_of_file(NAMES);
    assert_eq!(names.len(), 30);
    assert_eq!(names, names_of_header(HEADER, "KIOSK_"));
}

/// Of kiosk_gtfs.h the crate has those that its types do not say, and the day under the search's name.
#[test]
fn the_same_names_of_feeds() {
    let header = names_of_header(GTFS_HEADER, "KIOSK_GTFS_");
    let names = names_of_file(GTFS);
    assert_eq!(names.len(), 7);
    for name in names {
        assert!(header.contains(&name), "{name:?}");
    }
    assert!(header.contains(&("DAY".into(), u64::from(kiosk::DAY))));
}

/// The parameters of a function of a header, in Rust.
fn of_header(header: &str, name: &str) -> Vec<String> {
    let start = header.find(&format!("\nuint32_t {name}(")).expect(name);
    let list = header[start..].split_once('(').unwrap().1.split_once(");").unwrap().0;
    let in_rust = |parameter: &str| {
        let (kind, name) = parameter.trim().rsplit_once(' ').unwrap();
        let kind = kind.replace("size_t", "usize").replace("uint", "u").replace("_t", "");
        match (name.strip_prefix('*'), kind.strip_prefix("const ")) {
            (Some(name), Some(kind)) => format!("{name}: *const {kind}"),
            (Some(name), None) => format!("{name}: *mut {kind}"),
            _ => format!("{name}: {kind}"),
        }
    };
    list.split(',').map(in_rust).collect()
}

#[test]
fn the_same_functions() {
    let search = ["kiosk_check", "kiosk_room", "kiosk_solve_checked", "kiosk_read", "kiosk_leg", "kiosk_judge_checked"]
        .map(|name| (HEADER, name));
    let feeds =
        ["kiosk_gtfs_read", "kiosk_gtfs_write_times", "kiosk_gtfs_write_transfers"].map(|name| (GTFS_HEADER, name));
    for (header, name) in search.into_iter().chain(feeds) {
        let start = FFI.find(&format!("    fn {name}(")).expect(name);
        let list = FFI[start..].split_once('(').unwrap().1.split_once(") -> u32;").unwrap().0;
        let here: Vec<&str> = list.split(',').map(str::trim).filter(|parameter| !parameter.is_empty()).collect();
        assert_eq!(here, of_header(header, name), "{name}");
    }
    assert_eq!(of_header(HEADER, "kiosk_solve"), of_header(HEADER, "kiosk_solve_checked"));
    assert_eq!(of_header(HEADER, "kiosk_judge"), of_header(HEADER, "kiosk_judge_checked"));
    assert_eq!(FFI.matches("    fn kiosk_").count(), 9);
}
