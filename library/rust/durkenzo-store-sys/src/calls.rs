//! The calls themselves, as C declares them. `durkenzo_store.h`, `durkenzo_relay.h`, `durkenzo_control.h` and
//! `durkenzo_permit.h` say what each one promises.
#![allow(missing_docs)]

/// Room for a proved value.
#[repr(C)]
#[derive(Debug)]
pub struct Handle {
    full: bool,
    owned: *mut u8,
}

impl Handle {
    /// Returns a handle that keeps nothing: all its bytes are 0.
    pub fn empty() -> Handle {
        let (full, owned) = (false, std::ptr::null_mut());
        Handle { full, owned }
    }
}

/// A reply: its kind, and the values that belong to this kind.
#[repr(C)]
#[derive(Clone, Copy, Default, Debug, PartialEq, Eq)]
pub struct Reply {
    pub value: u64,
    pub kind: u8,
}

/// The server to which a request must go on.
#[repr(C)]
#[derive(Clone, Copy, Default, Debug)]
pub struct Forward {
    pub server: u16,
    pub hops: u8,
}

/// The numbers of a server's transaction: the revisions that it compares, and how much it writes.
#[repr(C)]
#[derive(Clone, Copy, Default, Debug)]
pub struct SentNumbers {
    pub stood: u64,
    pub logged: u64,
    pub number: u64,
    pub head_length: usize,
    pub batch_length: usize,
}

/// An answer to a request that was executed, or to a read.
#[repr(C)]
#[derive(Clone, Copy, Default, Debug)]
pub struct AnswerNumbers {
    pub client: u64,
    pub number: u64,
    pub value: u64,
    pub length: usize,
    pub kind: u8,
}

/// How many keys a scan found, and how many bytes these keys take with their lengths.
#[repr(C)]
#[derive(Clone, Copy, Default, Debug)]
pub struct KeyNumbers {
    pub count: usize,
    pub length: usize,
}

/// The head of a shard's log: the number of batches, how many of them the base stands for (from the first on), and in
/// how many parts the base is stored.
#[repr(C)]
#[derive(Clone, Copy, Default, Debug, PartialEq, Eq)]
pub struct Head {
    pub batches: u64,
    pub base: u64,
    pub parts: u64,
}

/// A part of the base that a server writes.
#[repr(C)]
#[derive(Clone, Copy, Default, Debug)]
pub struct PartNumbers {
    pub number: u64,
    pub count: u64,
    pub length: usize,
}

extern "C" {
    pub fn durkenzo_server(
        server: *mut Handle,
        me: u16,
        shard: u16,
        count: u64,
        batch_bytes: u64,
        batch_requests: usize,
        waiting: usize,
        clients: usize,
    ) -> u32;
    pub fn durkenzo_log_head_of(bytes: *const u8, length: usize, head: *mut Head) -> u32;
    pub fn durkenzo_server_part_read(server: *mut Handle, bytes: *const u8, length: usize) -> u32;
    pub fn durkenzo_server_batch(server: *mut Handle, bytes: *const u8, length: usize) -> u32;
    pub fn durkenzo_server_read(
        server: *mut Handle,
        record: *const u8,
        record_length: usize,
        stood: u64,
        head: *const u8,
        head_length: usize,
        logged: u64,
    ) -> u32;
    pub fn durkenzo_server_append(
        server: *mut Handle,
        record: *const u8,
        record_length: usize,
        stood: u64,
        head: *const u8,
        head_length: usize,
        logged: u64,
    ) -> u32;
    pub fn durkenzo_server_batch_count(server: *mut Handle, batches: *mut u64) -> u32;
    pub fn durkenzo_server_record(
        server: *mut Handle,
        record: *const u8,
        length: usize,
        stood: u64,
    ) -> u32;
    pub fn durkenzo_server_take(
        server: *mut Handle,
        client: u64,
        number: u64,
        from: u16,
        hops: u8,
        forgets: u64,
        request: *const u8,
        length: usize,
        reply: *mut Reply,
        forward: *mut Forward,
    ) -> u32;
    pub fn durkenzo_server_flush(server: *mut Handle, sends: *mut bool) -> u32;
    pub fn durkenzo_server_sending(
        server: *mut Handle,
        numbers: *mut SentNumbers,
        into: *mut u8,
        room: usize,
    ) -> u32;
    pub fn durkenzo_server_made(
        server: *mut Handle,
        revision: u64,
        made: *mut usize,
        read: *mut usize,
    ) -> u32;
    pub fn durkenzo_server_answer(
        server: *mut Handle,
        at: usize,
        answer: *mut AnswerNumbers,
    ) -> u32;
    pub fn durkenzo_server_text(
        server: *mut Handle,
        at: usize,
        answer: *mut AnswerNumbers,
        into: *mut u8,
        room: usize,
    ) -> u32;
    pub fn durkenzo_server_lost(server: *mut Handle) -> u32;
    pub fn durkenzo_server_base(server: *mut Handle, begins: *mut bool) -> u32;
    pub fn durkenzo_server_part(
        server: *mut Handle,
        place: usize,
        part: *mut PartNumbers,
        into: *mut u8,
        room: usize,
    ) -> u32;
    pub fn durkenzo_server_parts_made(server: *mut Handle) -> u32;
    pub fn durkenzo_server_is_behind(
        server: *mut Handle,
        is_part: bool,
        number: u64,
        place: u64,
        behind: *mut bool,
    ) -> u32;
    pub fn durkenzo_server_clients(server: *mut Handle, clients: *mut usize) -> u32;
    pub fn durkenzo_server_keys(server: *mut Handle, keys: *mut u64) -> u32;
    pub fn durkenzo_server_scan(
        server: *mut Handle,
        low: *const u8,
        low_length: usize,
        high: *const u8,
        high_length: usize,
        most: usize,
        numbers: *mut KeyNumbers,
        into: *mut u8,
        room: usize,
    ) -> u32;
    pub fn durkenzo_server_close(server: *mut Handle);
}

/// The place of a request that was made; or, if it only reads, how many requests were made before it.
#[cfg(feature = "relay")]
#[repr(C)]
#[derive(Clone, Copy, Default, Debug, PartialEq, Eq)]
pub struct PlaceAnswer {
    pub client: u64,
    pub number: u64,
    pub place: u64,
}

#[cfg(feature = "relay")]
extern "C" {
    pub fn durkenzo_relay(
        relay: *mut Handle,
        me: u16,
        shard: u16,
        count: u64,
        batch_bytes: u64,
        batch_requests: usize,
        waiting: usize,
        clients: usize,
    ) -> u32;
    pub fn durkenzo_relay_log_head(bytes: *const u8, length: usize, head: *mut Head) -> u32;
    pub fn durkenzo_relay_part_read(relay: *mut Handle, bytes: *const u8, length: usize) -> u32;
    pub fn durkenzo_relay_batch(relay: *mut Handle, bytes: *const u8, length: usize) -> u32;
    pub fn durkenzo_relay_read(
        relay: *mut Handle,
        record: *const u8,
        record_length: usize,
        stood: u64,
        head: *const u8,
        head_length: usize,
        logged: u64,
    ) -> u32;
    pub fn durkenzo_relay_append(
        relay: *mut Handle,
        record: *const u8,
        record_length: usize,
        stood: u64,
        head: *const u8,
        head_length: usize,
        logged: u64,
    ) -> u32;
    pub fn durkenzo_relay_batch_count(relay: *mut Handle, batches: *mut u64) -> u32;
    pub fn durkenzo_relay_record(
        relay: *mut Handle,
        record: *const u8,
        length: usize,
        stood: u64,
    ) -> u32;
    pub fn durkenzo_relay_take(
        relay: *mut Handle,
        client: u64,
        number: u64,
        from: u16,
        hops: u8,
        forgets: u64,
        request: *const u8,
        length: usize,
        place: *mut u64,
        forward: *mut Forward,
    ) -> u32;
    pub fn durkenzo_relay_flush(relay: *mut Handle, sends: *mut bool) -> u32;
    pub fn durkenzo_relay_sending(
        relay: *mut Handle,
        numbers: *mut SentNumbers,
        into: *mut u8,
        room: usize,
    ) -> u32;
    pub fn durkenzo_relay_made(
        relay: *mut Handle,
        revision: u64,
        made: *mut usize,
        read: *mut usize,
    ) -> u32;
    pub fn durkenzo_relay_answer(relay: *mut Handle, at: usize, answer: *mut PlaceAnswer) -> u32;
    pub fn durkenzo_relay_read_answer(
        relay: *mut Handle,
        at: usize,
        answer: *mut PlaceAnswer,
    ) -> u32;
    pub fn durkenzo_relay_lost(relay: *mut Handle) -> u32;
    pub fn durkenzo_relay_base(relay: *mut Handle, begins: *mut bool) -> u32;
    pub fn durkenzo_relay_part(
        relay: *mut Handle,
        place: usize,
        part: *mut PartNumbers,
        into: *mut u8,
        room: usize,
    ) -> u32;
    pub fn durkenzo_relay_parts_made(relay: *mut Handle) -> u32;
    pub fn durkenzo_relay_is_behind(
        relay: *mut Handle,
        is_part: bool,
        number: u64,
        place: u64,
        behind: *mut bool,
    ) -> u32;
    pub fn durkenzo_relay_clients(relay: *mut Handle, clients: *mut usize) -> u32;
    pub fn durkenzo_relay_count(relay: *mut Handle, count: *mut u64) -> u32;
    pub fn durkenzo_relay_close(relay: *mut Handle);
}

/// A command, or the next step: its kind, and the shard and server that it names.
#[cfg(feature = "control")]
#[repr(C)]
#[derive(Clone, Copy, Default, Debug, PartialEq, Eq)]
pub struct DirectorStep {
    pub shard: u16,
    pub server: u16,
    pub kind: u8,
}

/// The numbers of a command's transaction: the revisions that it compares, and how much it writes.
#[cfg(feature = "control")]
#[repr(C)]
#[derive(Clone, Copy, Default, Debug)]
pub struct CommandNumbers {
    pub elected: u64,
    pub placed: u64,
    pub length: usize,
    pub commands_length: usize,
    pub number: u16,
    pub absent: u16,
    pub is_state: bool,
}

#[cfg(feature = "control")]
extern "C" {
    pub fn durkenzo_director(
        director: *mut Handle,
        line: *const u8,
        length: usize,
        process: u64,
        elected: u64,
        waits: bool,
        shards: *mut usize,
        servers: *mut usize,
    ) -> u32;
    pub fn durkenzo_director_server(director: *mut Handle, at: usize, server: *mut u16) -> u32;
    pub fn durkenzo_director_shard_of(
        director: *mut Handle,
        key: *const u8,
        length: usize,
        shard: *mut u16,
    ) -> u32;
    pub fn durkenzo_director_record(
        director: *mut Handle,
        bytes: *const u8,
        length: usize,
        stood: u64,
    ) -> u32;
    pub fn durkenzo_director_state(director: *mut Handle, bytes: *const u8, length: usize) -> u32;
    pub fn durkenzo_director_read(director: *mut Handle, placed: u64) -> u32;
    pub fn durkenzo_director_command(
        director: *mut Handle,
        kind: u8,
        shard: u16,
        server: u16,
        process: u64,
    ) -> u32;
    pub fn durkenzo_director_sending(
        director: *mut Handle,
        numbers: *mut CommandNumbers,
        into: *mut u8,
        room: usize,
    ) -> u32;
    pub fn durkenzo_director_resettle(
        director: *mut Handle,
        other: *mut Handle,
        in_use: *mut u16,
        numbers: *mut CommandNumbers,
        into: *mut u8,
        room: usize,
    ) -> u32;
    pub fn durkenzo_director_made(director: *mut Handle, revision: u64) -> u32;
    pub fn durkenzo_director_lost(director: *mut Handle) -> u32;
    pub fn durkenzo_director_follower(director: *mut Handle, server: u16, revision: u64) -> u32;
    pub fn durkenzo_director_forget_followers(director: *mut Handle) -> u32;
    pub fn durkenzo_director_ack(
        director: *mut Handle,
        shard: u16,
        server: u16,
        generation: u64,
    ) -> u32;
    pub fn durkenzo_director_forget_acks(director: *mut Handle) -> u32;
    pub fn durkenzo_director_next_of_shard(
        director: *mut Handle,
        shard: u16,
        step: *mut DirectorStep,
    ) -> u32;
    pub fn durkenzo_director_next_of_server(
        director: *mut Handle,
        server: u16,
        step: *mut DirectorStep,
    ) -> u32;
    pub fn durkenzo_director_next_of_drain(
        director: *mut Handle,
        server: u16,
        step: *mut DirectorStep,
    ) -> u32;
    pub fn durkenzo_director_fallen(director: *mut Handle, server: *mut u16) -> u32;
    pub fn durkenzo_director_record_of(
        director: *mut Handle,
        shard: u16,
        word: *mut u64,
        stood: *mut u64,
    ) -> u32;
    pub fn durkenzo_director_state_of(
        director: *mut Handle,
        server: u16,
        state: *mut u8,
        process: *mut u64,
    ) -> u32;
    pub fn durkenzo_director_close(director: *mut Handle);
}

/// The state of a shard as a process read it, all at one revision of the store.
#[cfg(feature = "permits")]
#[repr(C)]
#[derive(Clone, Copy, Default, Debug, PartialEq, Eq)]
pub struct ReadingNumbers {
    pub revision: u64,
    pub word: u64,
    pub owner_joined: u64,
    pub failed: bool,
    pub owner_failed: bool,
}

/// The knowledge of a process about a shard.
#[cfg(feature = "permits")]
#[repr(C)]
#[derive(Clone, Copy, Default, Debug, PartialEq, Eq)]
pub struct ViewNumbers {
    pub joined: u64,
    pub until: u64,
    pub let_go: u64,
    pub reading: ReadingNumbers,
    pub server: u16,
    pub freed: bool,
}

/// The contents of handed-over bytes: the process that let go, by the revision of its server's key, its server, and
/// the generation up to which it has let go.
#[cfg(feature = "permits")]
#[repr(C)]
#[derive(Clone, Copy, Default, Debug, PartialEq, Eq)]
pub struct HandOverNumbers {
    pub joined: u64,
    pub generation: u64,
    pub server: u16,
}

#[cfg(feature = "permits")]
extern "C" {
    pub fn durkenzo_permit_new(server: u16, joined: u64, until: u64, view: *mut ViewNumbers)
        -> u32;
    pub fn durkenzo_permit_may_execute(
        view: *const ViewNumbers,
        from: u16,
        time: u64,
        may: *mut bool,
    ) -> u32;
    pub fn durkenzo_permit_may_ack(view: *const ViewNumbers, may: *mut bool) -> u32;
    pub fn durkenzo_permit_kept(view: *mut ViewNumbers, until: u64) -> u32;
    pub fn durkenzo_permit_read(view: *mut ViewNumbers, reading: *const ReadingNumbers) -> u32;
    pub fn durkenzo_permit_acked(view: *mut ViewNumbers, server: u16, generation: u64) -> u32;
    pub fn durkenzo_permit_handed(view: *mut ViewNumbers, hand: *const HandOverNumbers) -> u32;
    pub fn durkenzo_permit_let_go(view: *mut ViewNumbers) -> u32;
}
