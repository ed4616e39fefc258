//! The server's only unsafe code: it allocates, and asks the C library how much memory it has.
#![allow(unsafe_code)]
use super::granules::{Granules, COUNT, GRANULE};
use super::reserve::is_fallible;
use std::alloc::{GlobalAlloc, Layout, System};
use std::cell::UnsafeCell;
use std::mem::MaybeUninit;
use std::ptr;
use std::sync::atomic::{AtomicBool, Ordering};
use std::sync::{Mutex, MutexGuard, PoisonError};

/// How many bytes are reserved. The system gives no memory for them until they are needed.
const KEPT: usize = COUNT * GRANULE;

/// The system's allocator with a reserve. If the system refuses memory, it comes from the reserve: half of it is for
/// everybody, and half for allocations that can't be refused.
///
/// The proved libraries allocate through another allocator, and get nothing from the reserve.
#[derive(Debug)]
pub struct Allocator;

#[repr(align(256))]
struct ReservedRoom(UnsafeCell<[MaybeUninit<u8>; KEPT]>);

// SAFETY: each byte belongs to the owner of its granule, and to nobody else.
unsafe impl Sync for ReservedRoom {}

static ROOM: ReservedRoom = ReservedRoom(UnsafeCell::new([MaybeUninit::uninit(); KEPT]));
static GRANULES: Mutex<Granules> = Mutex::new(Granules::new());
/// Whether less than half of the reserve is left.
static IS_LOW: AtomicBool = AtomicBool::new(false);

fn granules() -> MutexGuard<'static, Granules> {
    GRANULES.lock().unwrap_or_else(PoisonError::into_inner)
}

/// Returns the offset of the place in the reserve, if it is there.
#[inline]
fn within(place: *mut u8) -> Option<usize> {
    let at = (place as usize).wrapping_sub(ROOM.0.get() as usize);
    (at < KEPT).then_some(at)
}

/// Returns a place in the reserve. Allocations that can be refused get at most half of it.
#[cold]
fn kept(layout: Layout) -> *mut u8 {
    let mut granules = granules();
    let is_refused = is_fallible() && granules.are_few(layout.size());
    if is_refused || layout.align() > GRANULE {
        return ptr::null_mut();
    }
    let taken = granules.take(layout.size());
    IS_LOW.store(granules.are_few(0), Ordering::Relaxed);
    match taken {
        // The granules lie within the reserve.
        Some(at) => ROOM.0.get().cast::<u8>().wrapping_add(at),
        None => ptr::null_mut(),
    }
}

#[cold]
fn give_back(at: usize, size: usize) {
    let mut granules = granules();
    granules.give_back(at, size);
    IS_LOW.store(granules.are_few(0), Ordering::Relaxed);
}

#[cold]
fn shrink(at: usize, size: usize, smaller: usize) {
    let mut granules = granules();
    granules.shrink(at, size, smaller);
    IS_LOW.store(granules.are_few(0), Ordering::Relaxed);
}

/// Returns whether less than half of the reserve is left.
pub(super) fn is_low() -> bool {
    IS_LOW.load(Ordering::Relaxed)
}

// SAFETY: each place is the system's, or consists of granules of the reserve, which belong to one place at a time.
unsafe impl GlobalAlloc for Allocator {
    #[inline]
    unsafe fn alloc(&self, layout: Layout) -> *mut u8 {
        match System.alloc(layout) {
            place if place.is_null() => kept(layout),
            place => place,
        }
    }

    #[inline]
    unsafe fn alloc_zeroed(&self, layout: Layout) -> *mut u8 {
        let place = System.alloc_zeroed(layout);
        if !place.is_null() {
            return place;
        }
        let place = kept(layout);
        if !place.is_null() {
            place.write_bytes(0, layout.size());
        }
        place
    }

    #[inline]
    unsafe fn dealloc(&self, place: *mut u8, layout: Layout) {
        match within(place) {
            None => System.dealloc(place, layout),
            Some(at) => give_back(at, layout.size()),
        }
    }

    #[inline]
    unsafe fn realloc(&self, place: *mut u8, layout: Layout, size: usize) -> *mut u8 {
        match within(place) {
            None => {
                let grown = System.realloc(place, layout, size);
                if !grown.is_null() {
                    return grown;
                }
            }
            Some(at) if size <= layout.size() => {
                shrink(at, layout.size(), size);
                return place;
            }
            Some(_) => {}
        }
        // A layout with this size was asked for, so it is valid.
        let moved = self.alloc(Layout::from_size_align_unchecked(size, layout.align()));
        if !moved.is_null() {
            place.copy_to_nonoverlapping(moved, layout.size().min(size));
            self.dealloc(place, layout);
        }
        moved
    }
}

/// Returns how many bytes of the C library's memory are in use.
pub(super) fn used() -> u64 {
    // SAFETY: it only counts.
    let told = unsafe { libc::mallinfo2() };
    (told.uordblks + told.hblkhd) as u64
}

/// Makes all threads allocate from one arena, so that memory that one thread frees is there for the others. Has the C
/// library take large pieces from the system, so that they can be returned to it.
pub(super) fn share() {
    // SAFETY: it only sets parameters.
    unsafe {
        libc::mallopt(libc::M_ARENA_MAX, 1);
        libc::mallopt(libc::M_MMAP_THRESHOLD, 1 << 20);
    }
}

/// Returns the C library's free memory to the system.
pub(super) fn trim() {
    // SAFETY: no place in use changes.
    unsafe { libc::malloc_trim(0) };
}
