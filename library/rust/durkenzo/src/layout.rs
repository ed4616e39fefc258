//! Which shard each key belongs to.
//!
//! ```
//! use durkenzo::{Layout, ShardId};
//!
//! let layout = Layout::new(["", "g", "n"])?;
//! let shard = layout.shard_of("hat");
//! assert_eq!(shard, ShardId::new(1)?);
//! assert_eq!(layout.range(shard), Some((b"g".to_vec(), Some(b"n".to_vec()))));
//! # Ok::<(), Box<dyn std::error::Error>>(())
//! ```
use crate::fault::LayoutFault;
use crate::raw::{self, Handle, Part};
use crate::shard_id::ShardId;
use std::fmt;
use std::sync::atomic::{AtomicUsize, Ordering::Relaxed};
use std::sync::{Mutex, MutexGuard, OnceLock, PoisonError};
use std::thread;

/// A layout has at most this many copies.
const MAX_COPIES: usize = 16;

static THREADS: AtomicUsize = AtomicUsize::new(0);

thread_local! {
    /// How many threads asked a layout before this one.
    static EARLIER: usize = THREADS.fetch_add(1, Relaxed);
}

/// How the key space is cut into shards: shard k has the keys from bound k up to, but without, the next bound.
///
/// Threads may share a layout. Only one call at a time can use a handle, so the layout makes copies of its handle for
/// threads that run at the same time, when they first need them.
pub struct Layout {
    count: usize,
    first: Mutex<Handle>,
    copies: Box<[OnceLock<Mutex<Handle>>]>,
}

/// Returns the handle of the layout with these bounds, or the code of the refusal.
fn cut<B: AsRef<[u8]>>(bounds: impl IntoIterator<Item = B>) -> (Result<Handle, u32>, usize) {
    let (mut text, mut parts) = (Vec::new(), Vec::new());
    for bound in bounds {
        let start = text.len();
        text.extend_from_slice(bound.as_ref());
        parts.push(Part {
            start,
            end: text.len(),
        });
    }
    let mut handle = Handle::empty();
    // SAFETY: only this call uses the handle, and the slices last as long as the call.
    let code = unsafe {
        raw::durkenzo_layout(
            &mut handle,
            text.as_ptr(),
            text.len(),
            parts.as_ptr(),
            parts.len(),
        )
    };
    let made = if code == 0 { Ok(handle) } else { Err(code) };
    (made, parts.len())
}

fn locked(handle: &Mutex<Handle>) -> MutexGuard<'_, Handle> {
    handle.lock().unwrap_or_else(PoisonError::into_inner)
}

impl Layout {
    /// Makes the layout with these bounds: 1 to 4,096, each of at most 255 bytes. The first must be empty, and each
    /// must be greater than the one before.
    ///
    /// # Errors
    ///
    /// `Empty`, `TooMany`, `FirstNotEmpty`, `NotRising` or `BoundTooLong`, by the rule that the bounds break, or
    /// `NoMemory`.
    pub fn new<B: AsRef<[u8]>>(bounds: impl IntoIterator<Item = B>) -> Result<Layout, LayoutFault> {
        match cut(bounds) {
            (Ok(handle), count) => Ok(Layout::of(handle, count)),
            (Err(code), _) => Err(LayoutFault::of(code)),
        }
    }

    /// Returns the layout that the handle keeps, which has this many shards.
    pub(crate) fn of(handle: Handle, count: usize) -> Layout {
        let threads = thread::available_parallelism().map_or(1, usize::from);
        Layout {
            count,
            first: Mutex::new(handle),
            copies: (1..threads.min(MAX_COPIES))
                .map(|_| OnceLock::new())
                .collect(),
        }
    }

    /// Returns the number of shards.
    pub fn count(&self) -> usize {
        self.count
    }

    /// Returns the shard of the key. Any bytes are a key.
    pub fn shard_of(&self, key: impl AsRef<[u8]>) -> ShardId {
        let (key, mut shard) = (key.as_ref(), 0);
        // SAFETY: the handle is locked, and the slice lasts as long as the call.
        let code = self.with(|handle| unsafe {
            raw::durkenzo_shard_of(handle, key.as_ptr(), key.len(), &mut shard)
        });
        assert_eq!(code, 0, "the handle of a layout keeps it");
        ShardId::of(shard)
    }

    /// Returns the bound at which the shard begins, and the one at which the next shard begins, if there is one.
    /// Returns `None` if there is no such shard.
    pub fn range(&self, shard: ShardId) -> Option<(Vec<u8>, Option<Vec<u8>>)> {
        let low = self.bound(shard.get())?;
        Some((low, self.bound(shard.get() + 1)))
    }

    /// Returns the result of the call on a handle that keeps the layout. The handle is locked while the call runs.
    pub(crate) fn with<R>(&self, call: impl FnOnce(&mut Handle) -> R) -> R {
        let turn = EARLIER.with(|it| *it) % (self.copies.len() + 1);
        let handle = match turn.checked_sub(1) {
            Some(at) => self.copy(at),
            None => &self.first,
        };
        call(&mut locked(handle))
    }

    /// Returns this copy of the first handle, or the first handle itself if memory for a copy is refused.
    fn copy(&self, at: usize) -> &Mutex<Handle> {
        if let Some(copy) = self.copies[at].get() {
            return copy;
        }
        let mut first = locked(&self.first);
        let bounds = (0..self.count).filter_map(|shard| bound_in(&mut first, shard as u16));
        match cut(bounds) {
            (Ok(handle), _) => self.copies[at].get_or_init(|| Mutex::new(handle)),
            (Err(_), _) => &self.first,
        }
    }

    fn bound(&self, shard: u16) -> Option<Vec<u8>> {
        self.with(|handle| bound_in(handle, shard))
    }
}

/// Returns the bound at which the shard begins, if there is such a shard.
fn bound_in(layout: &mut Handle, shard: u16) -> Option<Vec<u8>> {
    let (mut bound, mut length) = (vec![0; 255], 0);
    // SAFETY: this call borrows the handle exclusively, and only this call uses the room.
    let code =
        unsafe { raw::durkenzo_bound(layout, shard, bound.as_mut_ptr(), bound.len(), &mut length) };
    bound.truncate(length);
    (code == 0).then_some(bound)
}

impl fmt::Debug for Layout {
    fn fmt(&self, f: &mut fmt::Formatter<'_>) -> fmt::Result {
        f.debug_struct("Layout")
            .field("count", &self.count)
            .finish_non_exhaustive()
    }
}
