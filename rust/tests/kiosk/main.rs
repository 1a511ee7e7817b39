//! The crate against document 01: its answers, its refusals, its journey bytes, the Rust's kept answers; and feeds, and journeys judged.
mod answers;
mod ask;
mod gtfs;
mod header;
mod journeys;
mod judged;
mod kept;
mod network;
mod refusals;
