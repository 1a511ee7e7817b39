//! The raptor part of vincbro/blaise a8db8932f7, unchanged, on flat tables; build.sh puts its text into target/blaise.
//! With the feature `rescan` (rescan/Cargo.toml) it is the text with the route marks refilled before every round, in target/rescan.
pub mod flat;
pub mod harness;
pub mod lent;

// The source calls parts that stand in files not imported, and logs what is not logged here: it is not to be warned for it.
#[allow(dead_code, unused_imports, unused_variables, private_interfaces)]
#[cfg_attr(not(feature = "rescan"), path = "../target/blaise/raptor/mod.rs")]
#[cfg_attr(feature = "rescan", path = "../target/rescan/raptor/mod.rs")]
pub mod raptor;
#[allow(dead_code, unused_imports)]
#[path = "../target/blaise/repository/mod.rs"]
pub mod repository;
#[allow(dead_code, unused_imports)]
pub mod shared;
