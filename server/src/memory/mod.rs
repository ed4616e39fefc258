//! The memory of the process: how much of it is used, how much may be used, and how the process goes on if the system
//! refuses more.
//!
//! No command on data in memory ends the process if memory is refused. Over a store that is only made unlikely, because
//! the store allocates by itself. Memory that may be large is reserved with [`reserve`], and the command is refused if
//! that fails. Small allocations, which can't be refused, come from [a reserve](Allocator). Code that frees memory but
//! needs some for that has [spare](with_spare) memory.
mod allocator;
mod bytes;
mod ceiling;
mod granules;
mod reserve;
mod trimmer;

pub use allocator::Allocator;
pub use bytes::Bytes;
pub use ceiling::{Ceiling, CEILING};
pub use reserve::{
    append, append_surely, fallibly, has_pieces, has_room, reserve, with_spare, NoRoom,
};
pub use trimmer::Trimmer;

/// Prepares for a system that may refuse memory. It must be called before there are threads. Then memory that one
/// thread frees is there for the others, but threads wait longer for each other.
pub fn prepare() {
    if reserve::may_be_refused() {
        allocator::share();
        reserve::begin_spare();
    }
}

/// Returns how many bytes the process uses, for data and everything else. Counting them takes some microseconds, and
/// more if much free memory is in many pieces.
pub fn used() -> u64 {
    allocator::used()
}

/// Returns how many bytes of memory the process has, in use or not.
pub fn resident() -> u64 {
    let pages = std::fs::read_to_string("/proc/self/statm").unwrap_or_default();
    let pages = pages
        .split(' ')
        .nth(1)
        .and_then(|it| it.parse::<u64>().ok());
    pages.unwrap_or(0) * 4_096
}
