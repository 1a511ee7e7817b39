//! Stand-in: logging that says nothing.
#[macro_export]
macro_rules! trace { ($($t:tt)*) => {}; }
#[macro_export]
macro_rules! warn { ($($t:tt)*) => {}; }
