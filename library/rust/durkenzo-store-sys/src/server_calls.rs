use crate::calls::{self, Forward, Handle, PartNumbers, Reply, SentNumbers};

type New = unsafe extern "C" fn(*mut Handle, u16, u16, u64, u64, usize, usize, usize) -> u32;
type Bytes = unsafe extern "C" fn(*mut Handle, *const u8, usize) -> u32;
type Read = unsafe extern "C" fn(*mut Handle, *const u8, usize, u64, *const u8, usize, u64) -> u32;
type Record = unsafe extern "C" fn(*mut Handle, *const u8, usize, u64) -> u32;
type Take<R> = unsafe extern "C" fn(
    *mut Handle,
    u64,
    u64,
    u16,
    u8,
    u64,
    *const u8,
    usize,
    *mut R,
    *mut Forward,
) -> u32;
type Sending = unsafe extern "C" fn(*mut Handle, *mut SentNumbers, *mut u8, usize) -> u32;
type Made = unsafe extern "C" fn(*mut Handle, u64, *mut usize, *mut usize) -> u32;
type Part = unsafe extern "C" fn(*mut Handle, usize, *mut PartNumbers, *mut u8, usize) -> u32;
type IsBehind = unsafe extern "C" fn(*mut Handle, bool, u64, u64, *mut bool) -> u32;
type Writes<T> = unsafe extern "C" fn(*mut Handle, *mut T) -> u32;

/// The calls that servers of all services have.
///
/// # Safety
///
/// All calls must be those of one service, as its header declares them. If a handle goes to the calls of another one,
/// memory is misused.
pub unsafe trait ServerCalls {
    /// The reply to a request that was made.
    type Reply: Copy + Default;
    /// Makes a server.
    const NEW: New;
    /// Closes it.
    const CLOSE: unsafe extern "C" fn(*mut Handle);
    /// Adds a part of the base that was read.
    const PART_READ: Bytes;
    /// Adds a batch that was read.
    const BATCH: Bytes;
    /// Tells that the shard was read.
    const READ: Read;
    /// Writes how many batches were made.
    const BATCH_COUNT: Writes<u64>;
    /// Tells that the shard was read on.
    const APPEND: Read;
    /// Tells that the record was seen.
    const RECORD: Record;
    /// Takes a request.
    const TAKE: Take<Self::Reply>;
    /// Allows waiting requests to be sent.
    const FLUSH: Writes<bool>;
    /// Writes the transaction to send.
    const SENDING: Sending;
    /// Tells that it was made.
    const MADE: Made;
    /// Tells that it wasn't made, or that its outcome isn't known.
    const LOST: unsafe extern "C" fn(*mut Handle) -> u32;
    /// Begins a base.
    const BASE: Writes<bool>;
    /// Writes a part of the base.
    const PART: Part;
    /// Tells that each part of the base was written.
    const PARTS_MADE: unsafe extern "C" fn(*mut Handle) -> u32;
    /// Writes whether the base that the head names has replaced a key.
    const IS_BEHIND: IsBehind;
    /// Writes how many clients' last requests are kept.
    const CLIENTS: Writes<usize>;
}

/// The calls of `durkenzo_store.h`: requests of the sample service.
#[derive(Debug)]
pub enum Texts {}

// SAFETY: these are the calls of `durkenzo_store.h`.
unsafe impl ServerCalls for Texts {
    type Reply = Reply;
    const NEW: New = calls::durkenzo_server;
    const CLOSE: unsafe extern "C" fn(*mut Handle) = calls::durkenzo_server_close;
    const PART_READ: Bytes = calls::durkenzo_server_part_read;
    const BATCH: Bytes = calls::durkenzo_server_batch;
    const READ: Read = calls::durkenzo_server_read;
    const BATCH_COUNT: Writes<u64> = calls::durkenzo_server_batch_count;
    const APPEND: Read = calls::durkenzo_server_append;
    const RECORD: Record = calls::durkenzo_server_record;
    const TAKE: Take<Reply> = calls::durkenzo_server_take;
    const FLUSH: Writes<bool> = calls::durkenzo_server_flush;
    const SENDING: Sending = calls::durkenzo_server_sending;
    const MADE: Made = calls::durkenzo_server_made;
    const LOST: unsafe extern "C" fn(*mut Handle) -> u32 = calls::durkenzo_server_lost;
    const BASE: Writes<bool> = calls::durkenzo_server_base;
    const PART: Part = calls::durkenzo_server_part;
    const PARTS_MADE: unsafe extern "C" fn(*mut Handle) -> u32 = calls::durkenzo_server_parts_made;
    const IS_BEHIND: IsBehind = calls::durkenzo_server_is_behind;
    const CLIENTS: Writes<usize> = calls::durkenzo_server_clients;
}

/// The calls of `durkenzo_relay.h`: requests of a caller's own service.
#[cfg(feature = "relay")]
#[derive(Debug)]
pub enum Places {}

// SAFETY: these are the calls of `durkenzo_relay.h`.
#[cfg(feature = "relay")]
unsafe impl ServerCalls for Places {
    type Reply = u64;
    const NEW: New = calls::durkenzo_relay;
    const CLOSE: unsafe extern "C" fn(*mut Handle) = calls::durkenzo_relay_close;
    const PART_READ: Bytes = calls::durkenzo_relay_part_read;
    const BATCH: Bytes = calls::durkenzo_relay_batch;
    const READ: Read = calls::durkenzo_relay_read;
    const BATCH_COUNT: Writes<u64> = calls::durkenzo_relay_batch_count;
    const APPEND: Read = calls::durkenzo_relay_append;
    const RECORD: Record = calls::durkenzo_relay_record;
    const TAKE: Take<u64> = calls::durkenzo_relay_take;
    const FLUSH: Writes<bool> = calls::durkenzo_relay_flush;
    const SENDING: Sending = calls::durkenzo_relay_sending;
    const MADE: Made = calls::durkenzo_relay_made;
    const LOST: unsafe extern "C" fn(*mut Handle) -> u32 = calls::durkenzo_relay_lost;
    const BASE: Writes<bool> = calls::durkenzo_relay_base;
    const PART: Part = calls::durkenzo_relay_part;
    const PARTS_MADE: unsafe extern "C" fn(*mut Handle) -> u32 = calls::durkenzo_relay_parts_made;
    const IS_BEHIND: IsBehind = calls::durkenzo_relay_is_behind;
    const CLIENTS: Writes<usize> = calls::durkenzo_relay_clients;
}
