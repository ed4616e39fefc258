//! Counts of this process by unsafe code: the bytes that are allocated, and the branches that ran.
use std::alloc::{GlobalAlloc, Layout, System};
use std::slice;
use std::sync::atomic::{AtomicIsize, Ordering::Relaxed};
use std::sync::Mutex;

static HELD: AtomicIsize = AtomicIsize::new(0);
static MOST: AtomicIsize = AtomicIsize::new(0);

/// The system's allocator, which counts the bytes that are held.
struct Counting;

#[global_allocator]
static ALLOCATOR: Counting = Counting;

fn count(bytes: isize) {
    let held = HELD.fetch_add(bytes, Relaxed) + bytes;
    MOST.fetch_max(held, Relaxed);
}

// SAFETY: each call is the system's, with the same arguments.
unsafe impl GlobalAlloc for Counting {
    unsafe fn alloc(&self, layout: Layout) -> *mut u8 {
        count(layout.size() as isize);
        System.alloc(layout)
    }

    unsafe fn alloc_zeroed(&self, layout: Layout) -> *mut u8 {
        count(layout.size() as isize);
        System.alloc_zeroed(layout)
    }

    unsafe fn dealloc(&self, pointer: *mut u8, layout: Layout) {
        count(-(layout.size() as isize));
        System.dealloc(pointer, layout);
    }

    unsafe fn realloc(&self, pointer: *mut u8, layout: Layout, size: usize) -> *mut u8 {
        count(size as isize - layout.size() as isize);
        System.realloc(pointer, layout, size)
    }
}

/// Returns how many bytes are held now.
pub fn held() -> isize {
    HELD.load(Relaxed)
}

/// Forgets how many bytes were held at most.
pub fn begin() {
    MOST.store(held(), Relaxed);
}

/// Returns the most bytes that were held since then.
pub fn most() -> isize {
    MOST.load(Relaxed)
}

/// A row of counters, one for each branch of instrumented code.
struct Counters {
    start: *mut u8,
    length: usize,
}

// SAFETY: they are the program's own, for as long as it runs.
unsafe impl Send for Counters {}

static ROWS: Mutex<Vec<Counters>> = Mutex::new(Vec::new());

/// Is called before `main` by code that rustc instruments.
#[no_mangle]
extern "C" fn __sanitizer_cov_8bit_counters_init(start: *mut u8, stop: *mut u8) {
    let length = stop as usize - start as usize;
    let mut rows = ROWS.lock().expect("no thread has panicked yet");
    if length > 0 && rows.iter().all(|it| it.start != start) {
        rows.push(Counters { start, length });
    }
}

/// Is called in the same way; the addresses aren't needed.
#[no_mangle]
extern "C" fn __sanitizer_cov_pcs_init(_start: *const usize, _stop: *const usize) {}

/// Does this work with all counters; there are none if nothing was instrumented.
pub fn with_counters(mut work: impl FnMut(&mut [u8])) {
    let rows = ROWS.lock().expect("no work here panics");
    for row in rows.iter() {
        // SAFETY: the row is the program's own. Threads that count meanwhile may lose a count, and no more.
        work(unsafe { slice::from_raw_parts_mut(row.start, row.length) });
    }
}
