#![doc = include_str!("../README.md")]
#![deny(unsafe_code, missing_docs, clippy::undocumented_unsafe_blocks)]

mod answer;
mod ffi;
pub mod gtfs;
mod journey;
mod judge;
mod loader;
pub mod names;
mod numbers;
mod query;
mod tables;

pub use answer::{Answer, NoJourney, Refusal};
pub use journey::{BadLeg, Journey, Leg, LegKind, Legs};
pub use judge::JudgeError;
pub use names::{DAY, MOST_JOURNEY, VERSION};
pub use query::{Mode, Place, Query, Walks, When};
pub use tables::{Tables, TablesError, Workspace};
