//! The source's Raptor behind C functions: a network loaded once, then asked; legs as journey bytes.
#[cfg(feature = "counting")]
mod counting;

use std::panic::catch_unwind;
use std::slice::{from_raw_parts, from_raw_parts_mut};

/// A network as one writing of the source holds it.
pub trait Asked {
    /// Answers a query of eight words: number, time, stop, round, length; the legs go to `journey`, which is long enough. With `reuse` the
    /// network's own allocator is reset and used, as `Raptor::solve_with_allocator` offers; without, a new one is made, as `Raptor::solve`
    /// does.
    fn solve(&mut self, query: &[u32], reuse: bool, journey: &mut [u8], answer: &mut [u32]);
}

/// The number for a panic: no other answer has it.
pub const PANIC: u32 = u32::MAX;

/// As published, for mode 0.
mod source {
    use oracle as writing;
    include!("loaded.rs");
}

/// With the one line that refills the route marks before every round (oracle/build.sh), for mode 1.
mod rescan {
    use oracle_rescan as writing;
    include!("loaded.rs");
}

/// Called once. Panics are answers here, so they say nothing. Gives 1 where a subtraction below 0 panics (the compared build).
#[unsafe(no_mangle)]
pub extern "C" fn rust_prepare() -> u32 {
    std::panic::set_hook(Box::new(|_| {}));
    catch_unwind(|| std::hint::black_box(0u32) - std::hint::black_box(1)).is_err() as u32
}

/// What C holds of a network: NULL where the source cannot hold it.
pub fn held(loaded: Result<Box<dyn Asked>, String>) -> *mut Box<dyn Asked> {
    match loaded {
        Ok(network) => Box::into_raw(Box::new(network)),
        Err(e) => {
            eprintln!("the Rust takes no such network: {e}");
            std::ptr::null_mut()
        }
    }
}

/// The network of these tables, to be asked in this mode. Of a mode only the one loaded last may be asked, since the distances are lent to
/// one at a time.
#[unsafe(no_mangle)]
pub unsafe extern "C" fn rust_load(words: *const u32, len: usize, mode: u32) -> *mut Box<dyn Asked> {
    let words = unsafe { from_raw_parts(words, len) };
    held(if mode == 1 { rescan::load(words) } else { source::load(words) })
}

#[unsafe(no_mangle)]
pub unsafe extern "C" fn rust_drop(loaded: *mut Box<dyn Asked>) {
    drop(unsafe { Box::from_raw(loaded) })
}

/// `Asked::solve`; gives the number.
#[unsafe(no_mangle)]
pub unsafe extern "C" fn rust_solve(
    loaded: *mut Box<dyn Asked>,
    query: *const u32,
    reuse: u32,
    journey: *mut u8,
    journey_len: usize,
    answer: *mut u32,
) -> u32 {
    let loaded = unsafe { &mut *loaded };
    let journey = unsafe { from_raw_parts_mut(journey, journey_len) };
    let answer = unsafe { from_raw_parts_mut(answer, 5) };
    loaded.solve(unsafe { from_raw_parts(query, 8) }, reuse == 1, journey, answer);
    answer[0]
}

/// For each of the queries whether, in an arrival search in this mode, a span reaches its label; to be asked before the network is loaded.
/// Only the compared build can tell.
#[unsafe(no_mangle)]
pub unsafe extern "C" fn rust_reaching(
    words: *const u32,
    len: usize,
    mode: u32,
    queries: *const u32,
    count: usize,
    out: *mut u8,
) {
    let (words, queries) = unsafe { (from_raw_parts(words, len), from_raw_parts(queries, 8 * count)) };
    let flags = if mode == 1 { rescan::reaching(words, queries) } else { source::reaching(words, queries) };
    for (at, flag) in unsafe { from_raw_parts_mut(out, count) }.iter_mut().zip(flags) {
        *at = flag as u8
    }
}
