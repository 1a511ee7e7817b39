//! The functions of rust_search, and one more: a network as the source holds it over the real rayon.
pub use rust_search::*;
use std::slice::from_raw_parts;

#[allow(dead_code)] // where a span reaches its label, the others are asked
mod threads {
    use oracle_threads as writing;
    include!("../../src/loaded.rs");
}

/// As `rust_load` for mode 0. The threads are rayon's own: as many as RAYON_NUM_THREADS says, or one for each core.
#[unsafe(no_mangle)]
pub unsafe extern "C" fn rust_load_threads(words: *const u32, len: usize) -> *mut Box<dyn Asked> {
    held(threads::load(unsafe { from_raw_parts(words, len) }))
}
