//! Heap bytes in use, counted as they are asked for: for the table of memory.
use oracle::{raptor::Allocator, repository::source::build};
use std::alloc::{GlobalAlloc, Layout, System};
use std::slice::{from_raw_parts, from_raw_parts_mut};
use std::sync::atomic::{AtomicUsize, Ordering::Relaxed};

static NOW: AtomicUsize = AtomicUsize::new(0);
static PEAK: AtomicUsize = AtomicUsize::new(0);

fn taken(bytes: usize) {
    PEAK.fetch_max(NOW.fetch_add(bytes, Relaxed) + bytes, Relaxed);
}

struct Counting;

unsafe impl GlobalAlloc for Counting {
    unsafe fn alloc(&self, layout: Layout) -> *mut u8 {
        taken(layout.size());
        unsafe { System.alloc(layout) }
    }

    unsafe fn dealloc(&self, at: *mut u8, layout: Layout) {
        NOW.fetch_sub(layout.size(), Relaxed);
        unsafe { System.dealloc(at, layout) }
    }

    /// A list that grows is counted once, as if it grew where it stands.
    unsafe fn realloc(&self, at: *mut u8, layout: Layout, size: usize) -> *mut u8 {
        NOW.fetch_sub(layout.size(), Relaxed);
        taken(size);
        unsafe { System.realloc(at, layout, size) }
    }
}

#[global_allocator]
static COUNTING: Counting = Counting;

/// The bytes in use now, and the most since the call before.
#[unsafe(no_mangle)]
pub unsafe extern "C" fn rust_memory(now: *mut usize, peak: *mut usize) {
    let in_use = NOW.load(Relaxed);
    unsafe {
        *now = in_use;
        *peak = PEAK.swap(in_use, Relaxed);
    }
}

/// The bytes of a network's Repository and of a new Allocator for it, each with its own record; without the lent distances, which are not
/// the source's.
#[unsafe(no_mangle)]
pub unsafe extern "C" fn rust_sizes(words: *const u32, len: usize, out: *mut usize) {
    let start = NOW.load(Relaxed);
    let (repository, lent) = build(unsafe { from_raw_parts(words, len) }).expect("a network that the Rust takes");
    drop(lent);
    let held = NOW.load(Relaxed);
    let allocator = Allocator::new(&repository);
    let sizes = [held - start + size_of_val(&repository), NOW.load(Relaxed) - held + size_of_val(&allocator)];
    unsafe { from_raw_parts_mut(out, 2) }.copy_from_slice(&sizes);
}
