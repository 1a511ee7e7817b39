//! Stand-in for the source's src/shared/mod.rs: only what the imported files name.
#[path = "../target/blaise/shared/geo.rs"]
pub mod geo;
#[path = "../target/blaise/shared/time.rs"]
pub mod time;

pub use geo::{AVERAGE_STOP_DISTANCE, Coordinate, Distance};
pub use time::{Duration, Time};

pub trait Identifiable {
    fn id(&self) -> &str;
    fn name(&self) -> &str;
    fn normalized_name(&self) -> &str;
}

/// The source searches fuzzily here; nothing in this folder calls it.
pub fn search<'a, T: Identifiable>(needle: &str, haystack: &'a [T]) -> Vec<&'a T> {
    haystack.iter().filter(|t| t.normalized_name().contains(needle)).collect()
}
