//! The calls of the proved library, as `durkenzo.h` declares them.
use std::mem::{offset_of, size_of};

/// The library's state between calls. It must begin as zeros, must not be copied, and must be used by one call at a
/// time.
#[repr(C)]
#[derive(Debug)]
pub(crate) struct Handle {
    full: bool,
    owned: *mut u8,
}

impl Handle {
    /// Returns a handle that keeps nothing.
    pub(crate) const fn empty() -> Handle {
        Handle {
            full: false,
            owned: std::ptr::null_mut(),
        }
    }
}

// SAFETY: a handle owns nothing that is tied to a thread: an `Arc` of the board with a pass, a permit or the control,
// or an `Arc` of a map with its publisher or a router. Whoever has the handle has it exclusively.
unsafe impl Send for Handle {}

impl Drop for Handle {
    fn drop(&mut self) {
        // SAFETY: this value owns the handle.
        unsafe { durkenzo_close(self) }
    }
}

/// A shard's record, with servers by their numbers.
#[repr(C)]
#[derive(Clone, Copy, Default)]
pub(crate) struct RecordParts {
    pub(crate) generation: u64,
    pub(crate) owner: u16,
    pub(crate) other: u16,
    pub(crate) phase: u8,
    pub(crate) admitted: bool,
}

/// A part of a text.
#[repr(C)]
#[derive(Clone, Copy)]
pub(crate) struct Part {
    pub(crate) start: usize,
    pub(crate) end: usize,
}

/// A reply, or the value of a pair.
#[repr(C)]
#[derive(Clone, Copy, Default)]
pub(crate) struct ReplyParts {
    pub(crate) count: i64,
    pub(crate) length: usize,
    pub(crate) kind: u8,
}

/// An envelope without its request and its note.
#[repr(C)]
#[derive(Clone, Copy, Default)]
pub(crate) struct SentParts {
    pub(crate) number: u64,
    pub(crate) shard: u16,
    pub(crate) from: u16,
    pub(crate) hops: u8,
}

/// A shard's route. Its server is 0 if the shard has no route.
#[repr(C)]
#[derive(Clone, Copy, Default)]
pub(crate) struct RouteParts {
    pub(crate) generation: u64,
    pub(crate) server: u16,
}

/// An answer without its reply.
#[repr(C)]
#[derive(Clone, Copy, Default)]
pub(crate) struct AnswerParts {
    pub(crate) number: u64,
    pub(crate) place: u64,
    pub(crate) server: u16,
}

// The sizes that durkenzo.h has. There library/c/test.c checks them.
const _: () = {
    assert!(size_of::<Handle>() == 16);
    assert!(offset_of!(Handle, full) == 0);
    assert!(offset_of!(Handle, owned) == 8);
    assert!(size_of::<RecordParts>() == 16);
    assert!(offset_of!(RecordParts, generation) == 0);
    assert!(offset_of!(RecordParts, owner) == 8);
    assert!(offset_of!(RecordParts, other) == 10);
    assert!(offset_of!(RecordParts, phase) == 12);
    assert!(offset_of!(RecordParts, admitted) == 13);
    assert!(size_of::<Part>() == 16);
    assert!(offset_of!(Part, start) == 0);
    assert!(offset_of!(Part, end) == 8);
    assert!(size_of::<ReplyParts>() == 24);
    assert!(offset_of!(ReplyParts, count) == 0);
    assert!(offset_of!(ReplyParts, length) == 8);
    assert!(offset_of!(ReplyParts, kind) == 16);
    assert!(size_of::<SentParts>() == 16);
    assert!(offset_of!(SentParts, number) == 0);
    assert!(offset_of!(SentParts, shard) == 8);
    assert!(offset_of!(SentParts, from) == 10);
    assert!(offset_of!(SentParts, hops) == 12);
    assert!(size_of::<AnswerParts>() == 24);
    assert!(offset_of!(AnswerParts, number) == 0);
    assert!(offset_of!(AnswerParts, place) == 8);
    assert!(offset_of!(AnswerParts, server) == 16);
    assert!(size_of::<RouteParts>() == 16);
    assert!(offset_of!(RouteParts, generation) == 0);
    assert!(offset_of!(RouteParts, server) == 8);
};

/// The code for a server that the board doesn't have.
pub(crate) const UNKNOWN_SERVER: u32 = 30;

/// The result of `durkenzo_look_word` if there is no such shard. No record has this word.
pub(crate) const NO_WORD: u64 = u64::MAX;

extern "C" {
    pub(crate) fn durkenzo_open_after(
        chief: *mut Handle,
        numbers: *const u64,
        count: usize,
        servers: u16,
        ops: u16,
        ceiling: u64,
        after: u64,
    ) -> u32;
    pub(crate) fn durkenzo_pass(chief: *mut Handle, pass: *mut Handle, server: u16) -> u32;
    pub(crate) fn durkenzo_look_word(pass: *mut Handle, shard: u16) -> u64;
    pub(crate) fn durkenzo_admit_word(
        pass: *mut Handle,
        shard: u16,
        from: u16,
        number: *mut u64,
        word: *mut u64,
    ) -> u32;
    pub(crate) fn durkenzo_token(pass: *mut Handle, token: *mut u64) -> u32;
    pub(crate) fn durkenzo_finish(pass: *mut Handle, generation: *mut u64) -> u32;
    pub(crate) fn durkenzo_change(
        chief: *mut Handle,
        shard: u16,
        kind: u8,
        server: u16,
        read: *mut RecordParts,
    ) -> u32;
    pub(crate) fn durkenzo_restart(chief: *mut Handle, kind: u8, server: u16) -> u32;
    pub(crate) fn durkenzo_split(from: *mut Handle, pass: *mut Handle) -> u32;
    pub(crate) fn durkenzo_meet(pass: *mut Handle, other: *mut Handle) -> u32;
    pub(crate) fn durkenzo_plan(chief: *mut Handle, plan: *mut Handle, from: u16) -> u32;
    pub(crate) fn durkenzo_move(
        plan: *mut Handle,
        at: usize,
        shard: *mut u16,
        server: *mut u16,
    ) -> u32;
    pub(crate) fn durkenzo_left(plan: *mut Handle, at: usize, shard: *mut u16) -> u32;
    pub(crate) fn durkenzo_layout(
        layout: *mut Handle,
        text: *const u8,
        length: usize,
        parts: *const Part,
        count: usize,
    ) -> u32;
    pub(crate) fn durkenzo_shard_of(
        layout: *mut Handle,
        key: *const u8,
        length: usize,
        shard: *mut u16,
    ) -> u32;
    pub(crate) fn durkenzo_bound(
        layout: *mut Handle,
        shard: u16,
        into: *mut u8,
        room: usize,
        length: *mut usize,
    ) -> u32;
    pub(crate) fn durkenzo_publisher(publisher: *mut Handle, count: usize) -> u32;
    pub(crate) fn durkenzo_router(publisher: *mut Handle, router: *mut Handle) -> u32;
    pub(crate) fn durkenzo_publish(
        publisher: *mut Handle,
        shard: u16,
        server: u16,
        generation: u64,
    ) -> u32;
    pub(crate) fn durkenzo_route(router: *mut Handle, shard: u16, parts: *mut RouteParts) -> u32;
    pub(crate) fn durkenzo_map(map: *mut Handle) -> u32;
    pub(crate) fn durkenzo_map_length(map: *mut Handle, length: *mut u64) -> u32;
    pub(crate) fn durkenzo_get(
        map: *mut Handle,
        key: *const u8,
        key_length: usize,
        into: *mut u8,
        room: usize,
        parts: *mut ReplyParts,
    ) -> u32;
    pub(crate) fn durkenzo_ask(
        map: *mut Handle,
        reply: *mut Handle,
        kind: u8,
        key: *const u8,
        key_length: usize,
        other: *const u8,
        other_length: usize,
        amount: i64,
        parts: *mut ReplyParts,
    ) -> u32;
    pub(crate) fn durkenzo_reply_text(
        reply: *mut Handle,
        into: *mut u8,
        room: usize,
        length: *mut usize,
    ) -> u32;
    pub(crate) fn durkenzo_pair(reply: *mut Handle, at: usize, parts: *mut ReplyParts) -> u32;
    pub(crate) fn durkenzo_pair_key(
        reply: *mut Handle,
        at: usize,
        into: *mut u8,
        room: usize,
        length: *mut usize,
    ) -> u32;
    pub(crate) fn durkenzo_pair_text(
        reply: *mut Handle,
        at: usize,
        into: *mut u8,
        room: usize,
        length: *mut usize,
    ) -> u32;
    pub(crate) fn durkenzo_open_service(
        chief: *mut Handle,
        shards: usize,
        kept: usize,
        servers: u16,
        ops: u16,
        ceiling: u64,
    ) -> u32;
    pub(crate) fn durkenzo_open_settings(
        chief: *mut Handle,
        layout: *mut Handle,
        line: *const u8,
        length: usize,
        shards: *mut usize,
    ) -> u32;
    pub(crate) fn durkenzo_open_bodies_after(
        chief: *mut Handle,
        layout: *mut Handle,
        line: *const u8,
        length: usize,
        numbers: *const u64,
        count: usize,
        after: u64,
    ) -> u32;
    pub(crate) fn durkenzo_sent(envelope: *mut Handle, parts: *mut SentParts) -> u32;
    pub(crate) fn durkenzo_envelope(
        pass: *mut Handle,
        envelope: *mut Handle,
        parts: *const SentParts,
        kind: u8,
        key: *const u8,
        key_length: usize,
        other: *const u8,
        other_length: usize,
        amount: i64,
    ) -> u32;
    pub(crate) fn durkenzo_serve(
        pass: *mut Handle,
        layout: *mut Handle,
        envelope: *mut Handle,
        to: *mut u16,
        read: *mut RecordParts,
    ) -> u32;
    pub(crate) fn durkenzo_answer(
        answer: *mut Handle,
        parts: *mut AnswerParts,
        reply: *mut ReplyParts,
    ) -> u32;
    pub(crate) fn durkenzo_checkpoint(
        pass: *mut Handle,
        shard: u16,
        generation: *mut u64,
        read: *mut RecordParts,
    ) -> u32;
    pub(crate) fn durkenzo_pack(parts: *const RecordParts, word: *mut u64) -> u32;
    pub(crate) fn durkenzo_accepts(word: u64, server: u16, from: u16, accepted: *mut bool) -> u32;
    pub(crate) fn durkenzo_close(handle: *mut Handle);
    pub(crate) fn durkenzo_changed(
        word: u64,
        kind: u8,
        server: u16,
        ceiling: u64,
        next: *mut u64,
    ) -> u32;
    pub(crate) fn durkenzo_admitted(
        word: u64,
        server: u16,
        from: u16,
        ceiling: u64,
        next: *mut u64,
    ) -> u32;
    pub(crate) fn durkenzo_ended(word: u64, next: *mut u64) -> u32;
    pub(crate) fn durkenzo_unpack(word: u64, parts: *mut RecordParts) -> u32;
    pub(crate) fn durkenzo_forward(word: u64, server: u16) -> u16;
    pub(crate) fn durkenzo_executor(word: u64) -> u16;
}

/// Returns the number of the shard's body if the pass is now admitted to it. Otherwise returns the code of the refusal,
/// and the word of the record that was read, or 0.
#[inline(always)]
pub(crate) fn admit(pass: &mut Handle, shard: u16, from: u16) -> Result<u64, (u32, u64)> {
    let (mut number, mut word) = (0, 0);
    // SAFETY: this call borrows the handle exclusively, and only this call uses the numbers.
    match unsafe { durkenzo_admit_word(pass, shard, from, &mut number, &mut word) } {
        0 => Ok(number),
        code => Err((code, word)),
    }
}
