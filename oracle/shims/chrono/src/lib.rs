//! Stand-in: Time::now() is midnight; every query states its moment.
pub struct Local;
pub struct Now;
pub trait Timelike { fn num_seconds_from_midnight(&self) -> u32; }
impl Timelike for Now { fn num_seconds_from_midnight(&self) -> u32 { 0 } }
impl Local { pub fn now() -> Now { Now } }
