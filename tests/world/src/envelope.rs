use crate::common::shard;
use sm_envelope::{Envelope, Shell};
use sm_ownership::mode::Mode;
use sm_ownership::record::Record;
use sm_ranges::server_id::ServerId;
use sm_ranges::stand::Stand;
use std::test::Fail;

fn forwarding(owner: ServerId, next: ServerId) -> Record {
    Record {
        stand: Stand::Forwarding { owner, next },
        admitted: false,
        generation: 4,
    }
}

// Whether the envelope shows number 7 and shard 3, and beside them this mode, so many hops, this request and this note.
fn shows(envelope: &Envelope<u8, u8>, mode: Mode, hops: u8, request: u8, note: u8) -> bool {
    envelope.number() == 7
        && envelope.shard().number() == 3
        && envelope.mode() == mode
        && envelope.hops() == hops
        && *envelope.request() == request
        && *envelope.note() == note
}

// The example of the crate's documentation.
#[test]
fn is_forwarded_by_the_owner(rt: HostRuntime) -> Result<(), Fail> {
    let (owner, next, k) = (ServerId::of(1), ServerId::of(2), shard(3));
    let state = forwarding(owner, next);
    let envelope = Envelope::new(7, k, b'a', b'n');
    let (to, envelope) = match envelope.forwarded(&state, owner) {
        Ok(forwarded) => forwarded,
        Err(_) => return Err("not forwarded by the owner".into()),
    };
    assert_eq!(rt; (to, envelope.hops()), (next, 1));
    assert!(rt; shows(&envelope, Mode::Forwarded(owner), 1, b'a', b'n'));
    Ok(())
}

#[test]
fn is_not_forwarded_by_the_next_owner(rt: HostRuntime) {
    let (owner, next) = (ServerId::of(1), ServerId::of(2));
    let envelope = Envelope::new(7, shard(3), b'a', b'n');
    let forwarded = envelope.forwarded(&forwarding(owner, next), next);
    let envelope = forwarded.err().expect(&rt, "the envelope back");
    assert!(rt; shows(&envelope, Mode::Direct, 0, b'a', b'n'));
}

// Whether the shell shows number 7 and shard 3, of a request that wasn't forwarded yet.
fn is_new(shell: &Shell) -> bool {
    shell.number() == 7
        && shell.shard().number() == 3
        && shell.hops() == 0
        && shell.mode() == Mode::Direct
}

#[test]
fn is_taken_apart_and_made_whole(rt: HostRuntime) {
    let (request, note, shell) = Envelope::new(7, shard(3), b'a', b'n').parts();
    assert!(rt; is_new(&shell));
    let envelope = shell.whole(request + 1, note + 1);
    assert!(rt; shows(&envelope, Mode::Direct, 0, b'b', b'o'));
}
