use sm_ownership::{Change, Mode, Record};
use sm_permit::{HandOver, ShardReading, ShardView};
use sm_ranges::{ServerId, Stand};
use sm_store::{has_let_go, waits_for};
use std::process::Abort;

// What is read of a shard at a revision, whose owner's process joined at revision 2.
fn reading(stand: Stand, generation: u64, revision: u64) -> ShardReading {
    let state = Record {
        stand,
        admitted: false,
        generation,
    };
    ShardReading {
        revision,
        state,
        failed: false,
        owner_joined: 2,
        owner_failed: false,
    }
}

// The example of the crate's documentation, in the run of the law `permits_move`, by what both servers know: the permit
// goes from one to the other.
#[test]
fn moves_a_permit(rt: HostRuntime) {
    let (one, two) = (ServerId::of(1), ServerId::of(2));
    let forwarding = Stand::Forwarding {
        owner: one,
        next: two,
    };
    let owner = ShardView::new(one, 2, 91);
    assert!(rt; !owner.may_execute(Mode::Direct, 2));
    let owner = owner.read(reading(Stand::Serving(one), 1, 3));
    assert!(rt; owner.may_execute(Mode::Direct, 90));
    assert!(rt; !owner.may_execute(Mode::Direct, 91));
    assert!(rt; owner.kept(120).may_execute(Mode::Direct, 91));
    assert!(rt; !owner.may_ack());
    let owner = owner.read(reading(forwarding, 3, 6));
    assert!(rt; owner.may_ack());
    let owner = owner.let_go();
    assert!(rt; owner.let_go == 3);

    let next = ShardView::new(two, 4, 94).read(reading(forwarding, 3, 6));
    assert!(rt; !next.may_execute(Mode::Forwarded(one), 7));
    let hand = HandOver {
        server: one,
        joined: 2,
        generation: 3,
    };
    assert!(rt; next.handed(hand).may_execute(Mode::Forwarded(one), 7));
    let of_another = HandOver { joined: 1, ..hand };
    assert!(rt; !next.handed(of_another).may_execute(Mode::Forwarded(one), 7));
    assert!(rt; next.acked(one, 3).may_execute(Mode::Forwarded(one), 7));
    assert!(rt; !next.acked(one, 2).may_execute(Mode::Forwarded(one), 7));

    assert!(rt; waits_for(forwarding, Change::AddShard) == Some(one));
    assert!(rt; has_let_go(&reading(forwarding, 3, 6).state, 3, false));
    assert!(rt; !has_let_go(&reading(forwarding, 3, 6).state, 2, false));
    let taken = Stand::Taken {
        owner: two,
        previous: one,
    };
    let next = next.read(reading(taken, 4, 8));
    assert!(rt; next.may_execute(Mode::Direct, 9));
    let before_it_joined = ShardView::new(two, 9, 99).read(reading(taken, 4, 8));
    assert!(rt; !before_it_joined.may_execute(Mode::Direct, 10));
}
