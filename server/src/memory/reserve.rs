use super::allocator::is_low;
use rustix::process::{getrlimit, Resource};
use std::cell::Cell;
use std::sync::{LazyLock, Mutex, PoisonError};

/// An allocation of up to so many bytes can't be refused, as long as there is enough of the reserve.
const SMALL: usize = 4 << 10;

thread_local! {
    /// Whether the present allocations of this thread can be refused.
    static IS_FALLIBLE: Cell<bool> = const { Cell::new(false) };
}

/// Memory was refused.
#[derive(Clone, Copy, Debug, PartialEq, Eq)]
pub struct NoRoom;

/// Returns whether the present allocations of this thread can be refused. Then half of the reserve isn't for them.
pub(super) fn is_fallible() -> bool {
    IS_FALLIBLE.get()
}

/// Runs work of which every allocation can be refused.
#[inline]
pub fn fallibly<R>(work: impl FnOnce() -> R) -> R {
    /// Ends this also if the work panics.
    struct Ends(bool);

    impl Drop for Ends {
        fn drop(&mut self) {
            IS_FALLIBLE.set(self.0);
        }
    }

    let _ends = Ends(IS_FALLIBLE.replace(true));
    work()
}

/// Makes room in the list for so many more. If memory is refused, changes nothing.
pub fn reserve<T>(list: &mut Vec<T>, more: usize) -> Result<(), NoRoom> {
    let length = list.len().saturating_add(more);
    if length <= list.capacity() {
        return Ok(());
    }
    if length.saturating_mul(size_of::<T>()) <= SMALL && !is_low() {
        list.reserve(more);
        return Ok(());
    }
    // It doubles its room if there is memory for that. Otherwise it grows by no more than it must.
    let reserved = fallibly(|| {
        list.try_reserve(more)
            .or_else(|_| list.try_reserve_exact(more))
    });
    reserved.map_err(|_| NoRoom)
}

/// Appends the bytes. If memory is refused, changes nothing.
pub fn append(list: &mut Vec<u8>, bytes: &[u8]) -> Result<(), NoRoom> {
    reserve(list, bytes.len())?;
    list.extend_from_slice(bytes);
    Ok(())
}

/// Does the same for bytes that nobody sends again. They come from the reserve, if there is enough of it.
pub fn append_surely(list: &mut Vec<u8>, bytes: &[u8]) -> Result<(), NoRoom> {
    match append(list, bytes) {
        Err(NoRoom) if is_low() => Err(NoRoom),
        Err(NoRoom) => {
            list.extend_from_slice(bytes);
            Ok(())
        }
        Ok(()) => Ok(()),
    }
}

/// How many bytes each piece has, of memory in many pieces.
const PIECE: usize = 256 << 10;
/// How many bytes are spare for code that frees more by them.
const SPARE: usize = 8 << 20;

/// The spare memory for code that frees more by it.
static SPARE_ROOM: Mutex<Vec<u8>> = Mutex::new(Vec::new());

/// Runs work that needs some memory to free more.
pub fn with_spare<R>(work: impl FnOnce() -> R) -> R {
    if !may_be_refused() {
        return work();
    }
    let mut spare = SPARE_ROOM.lock().unwrap_or_else(PoisonError::into_inner);
    *spare = Vec::new();
    let done = work();
    take_spare(&mut spare);
    done
}

/// Reserves the spare memory.
pub(super) fn begin_spare() {
    take_spare(&mut SPARE_ROOM.lock().unwrap_or_else(PoisonError::into_inner));
}

/// Reserves it, unless memory is refused. Then there is none until enough was freed.
fn take_spare(spare: &mut Vec<u8>) {
    let _ = fallibly(|| spare.try_reserve_exact(SPARE));
}

/// Whether the system may refuse memory. If it never does, there is always room.
static MAY_BE_REFUSED: LazyLock<bool> = LazyLock::new(|| {
    let is_limited = |of| getrlimit(of).current.is_some();
    let overcommits = std::fs::read_to_string("/proc/sys/vm/overcommit_memory");
    let never_overcommits = overcommits.is_ok_and(|it| it.trim() == "2");
    is_limited(Resource::As) || is_limited(Resource::Data) || never_overcommits
});

/// Returns whether the system may refuse memory.
pub(super) fn may_be_refused() -> bool {
    *MAY_BE_REFUSED
}

/// Checks that so many bytes would be given now. Others may take them before they are asked for.
#[inline]
pub fn has_room(bytes: usize) -> Result<(), NoRoom> {
    match *MAY_BE_REFUSED {
        true => would_give(bytes),
        false => Ok(()),
    }
}

/// Does the same for bytes in many pieces.
pub fn has_pieces(bytes: usize) -> Result<(), NoRoom> {
    if !may_be_refused() {
        return Ok(());
    }
    let mut pieces = Vec::with_capacity(bytes.div_ceil(PIECE));
    for at in (0..bytes).step_by(PIECE) {
        let mut piece = Vec::<u8>::new();
        let reserved = fallibly(|| piece.try_reserve_exact(PIECE.min(bytes - at)));
        reserved.map_err(|_| NoRoom)?;
        pieces.push(piece);
    }
    std::hint::black_box(&pieces);
    Ok(())
}

fn would_give(bytes: usize) -> Result<(), NoRoom> {
    let mut room = Vec::<u8>::new();
    let reserved = fallibly(|| room.try_reserve_exact(bytes));
    // Without this the compiler would remove an allocation that nobody reads.
    std::hint::black_box(&room);
    reserved.map_err(|_| NoRoom)
}

#[cfg(test)]
mod tests {
    use super::*;

    #[test]
    fn what_is_refused_changes_nothing() {
        let mut list = vec![1_u64, 2];
        assert_eq!(reserve(&mut list, usize::MAX / 16), Err(NoRoom));
        assert_eq!(would_give(isize::MAX as usize), Err(NoRoom));
        assert!(!is_fallible() && fallibly(is_fallible));
        reserve(&mut list, 10_000).unwrap();
        assert!(list == [1, 2] && list.capacity() >= 10_002);
    }
}
