//! Servers of one's own service, whose replies are places.

use sm_codec::{StoredRecord, write_head, write_record};
use sm_opaque::{OpaqueMachine, is_read};
use sm_ownership::Record;
use sm_ranges::{ServerId, ShardId, Stand};
use sm_shard::{BasePart, LastRequest, ShardLimits};
use sm_shard_bytes::codes::WAITS;
use sm_shard_bytes::{
    ByteServer, ForwardNumbers, ReplyBytes, calls, read_base_part, write_base_part,
};
use sm_store::Head;
use std::alloc::Global;
use std::process::Abort;

// The example of the crate's documentation.
#[test]
fn reads_a_part_with_a_place(rt: HostRuntime) {
    let mut lasts = Vec::new(rt.alloc());
    let pushed = lasts.push((
        7,
        LastRequest {
            number: 9,
            reply: 4u64,
        },
    ));
    assert!(rt; pushed.is_ok());
    let state = Vec::from_slice(rt.alloc(), b"state").expect(&rt, "memory");
    let part = BasePart::new(state, lasts, 5);
    let written = write_base_part(rt.alloc(), &part).expect(&rt, "memory");
    let bytes = written.expect(&rt, "bytes");
    let read = read_base_part::<u64>(rt.alloc(), &bytes)
        .ok()
        .expect(&rt, "a part");
    let again = read.expect(&rt, "places");
    let (client, last) = again.lasts()[0];
    assert!(rt; client == 7);
    assert!(rt; last.number == 9);
    assert!(rt; last.reply == 4);
}

#[test]
fn spells_a_place(rt: HostRuntime) {
    let bytes = 258u64.bytes(rt.alloc()).expect(&rt, "memory");
    assert!(rt; bytes.as_slice() == b"\0\0\0\0\0\0\x01\x02".as_slice());
    assert!(rt; matches!(u64::of_bytes(&bytes), Some(258)));
    assert!(rt; u64::of_bytes(&bytes[..7]).is_none());
}

const LIMITS: ShardLimits = ShardLimits {
    batch_bytes: 100,
    batch_requests: 8,
    waiting: 8,
    clients: 8,
};

type Relay = ByteServer<OpaqueMachine, u64>;

// The head of a log, in bytes.
fn head_of(rt: &impl Abort, alloc: Global, batches: u64, base: u64, parts: u64) -> Vec<u8> {
    let head = Head {
        batches,
        base,
        parts,
    };
    write_head(alloc, &head).expect(rt, "memory")
}

// The record of a shard that server 1 serves, in bytes.
fn record_of(rt: &impl Abort, alloc: Global) -> Vec<u8> {
    let stored = StoredRecord {
        state: Record {
            stand: Stand::Serving(ServerId::of(1)),
            admitted: false,
            generation: 1,
        },
        process: 9,
    };
    write_record(alloc, &stored).expect(rt, "memory")
}

// A server of the first of 8 shards that has read nothing yet.
fn started(rt: &impl Abort, alloc: Global) -> Relay {
    let shard = ShardId::new(0).expect(rt, "a shard");
    let made: Option<Relay> = ByteServer::new(alloc, ServerId::of(1), shard, 8, LIMITS);
    made.expect(rt, "one of 8 shards")
}

// Gives the relay a client's first request, and returns the code of the decision.
fn asked(alloc: Global, relay: &mut Relay, client: u64, request: &[u8]) -> u32 {
    let (mut place, mut next) = (0, ForwardNumbers { server: 0, hops: 0 });
    let reads = is_read(request);
    calls::take(
        alloc, relay, client, 1, 0, 0, 0, reads, request, &mut place, &mut next,
    )
}

// Sends the relay's transaction, which is made at this revision, and returns its batch.
fn sent(rt: &impl Abort, alloc: Global, relay: &mut Relay, revision: u64) -> Vec<u8> {
    let mut sends = false;
    assert!(rt; calls::flush(alloc, relay, &mut sends) == 0);
    assert!(rt; sends);
    let sent = relay.sending(alloc).ok().expect(rt, "a transaction");
    let (mut made, mut read) = (0, 0);
    assert!(rt; calls::made(alloc, relay, revision, &mut made, &mut read) == 0);
    sent.batch
}

// Two requests are made at places 0 and 1, and the read beside them is told the place before them; another server that
// reads the batch goes on at place 2.
#[test]
fn tells_places(rt: HostRuntime) {
    let mut relay = started(&rt, rt.alloc());
    let (record, head) = (
        record_of(&rt, rt.alloc()),
        head_of(&rt, rt.alloc(), 0, 0, 0),
    );
    assert!(rt; calls::read(rt.alloc(), &mut relay, &record, 3, &head, 0) == 0);
    assert!(rt; asked(rt.alloc(), &mut relay, 7, b"\x02hat") == WAITS);
    assert!(rt; asked(rt.alloc(), &mut relay, 8, b"\x02coat") == WAITS);
    assert!(rt; asked(rt.alloc(), &mut relay, 9, b"\x01hat") == WAITS);
    let batch = sent(&rt, rt.alloc(), &mut relay, 4);
    assert!(rt; (relay.made[0].client, relay.made[0].reply) == (7, 0));
    assert!(rt; (relay.made[1].client, relay.made[1].reply) == (8, 1));
    assert!(rt; relay.read[0].client == 9);
    assert!(rt; matches!(&relay.read[0].answer, Some(answer) if answer.reply == 0));
    // A retry is told the place at which the request was made.
    assert!(rt; asked(rt.alloc(), &mut relay, 8, b"\x02coat") == 0);

    let mut other = started(&rt, rt.alloc());
    let head = head_of(&rt, rt.alloc(), 1, 0, 0);
    assert!(rt; calls::batch(rt.alloc(), &mut other, &batch) == 0);
    assert!(rt; calls::read(rt.alloc(), &mut other, &record, 3, &head, 4) == 0);
    assert!(rt; asked(rt.alloc(), &mut other, 8, b"\x02coat") == 0);
    assert!(rt; asked(rt.alloc(), &mut other, 10, b"\x02shoe") == WAITS);
    let _ = sent(&rt, rt.alloc(), &mut other, 5);
    assert!(rt; (other.made[0].client, other.made[0].reply) == (10, 2));
}

// A server that reads a base in place of the batch goes on at the next place, and knows the place of a retry.
#[test]
fn goes_on_from_a_base(rt: HostRuntime) {
    let mut relay = started(&rt, rt.alloc());
    let (record, head) = (
        record_of(&rt, rt.alloc()),
        head_of(&rt, rt.alloc(), 0, 0, 0),
    );
    assert!(rt; calls::read(rt.alloc(), &mut relay, &record, 3, &head, 0) == 0);
    assert!(rt; asked(rt.alloc(), &mut relay, 7, b"\x02hat") == WAITS);
    let _ = sent(&rt, rt.alloc(), &mut relay, 4);
    let mut begins = false;
    assert!(rt; calls::base(rt.alloc(), &mut relay, &mut begins) == 0);
    assert!(rt; begins);
    let found = relay.part(rt.alloc(), 0).ok().expect(&rt, "memory");
    let (numbers, part) = found.expect(&rt, "a part");
    assert!(rt; (numbers.number, numbers.count) == (1, 1));

    let mut other = started(&rt, rt.alloc());
    let head = head_of(&rt, rt.alloc(), 1, 1, 1);
    assert!(rt; calls::part_read(rt.alloc(), &mut other, &part) == 0);
    assert!(rt; calls::read(rt.alloc(), &mut other, &record, 3, &head, 5) == 0);
    assert!(rt; asked(rt.alloc(), &mut other, 7, b"\x02hat") == 0);
    assert!(rt; asked(rt.alloc(), &mut other, 8, b"\x02coat") == WAITS);
    let _ = sent(&rt, rt.alloc(), &mut other, 6);
    assert!(rt; (other.made[0].client, other.made[0].reply) == (8, 1));
}
