//! Tests of the proved views of shards: each call once with success, and once with wrong numbers.
#![cfg(feature = "permits")]
use durkenzo_store_sys::{Code, HandOver, ShardReading, ShardView};

/// Returns the word of a record with this phase, owner, other server and generation.
fn word(phase: u64, owner: u64, other: u64, generation: u64) -> u64 {
    phase << 61 | owner << 48 | other << 36 | generation
}

fn reading(word: u64) -> ShardReading {
    ShardReading {
        revision: 9,
        word,
        owner_joined: 5,
        failed: false,
        owner_failed: false,
    }
}

/// Returns the view of a process of the server that joined at revision 6. Its lease lasts until 100.
fn joined(server: u16) -> ShardView {
    ShardView::new(server, 6, 100).unwrap()
}

#[test]
fn an_owner_executes_while_its_lease_lasts() {
    let serving = reading(word(1, 1, 0, 4));
    let owner = joined(1);
    assert_eq!(owner.may_execute(0, 50), Ok(false), "it has read nothing");
    let owner = owner.read(&serving).unwrap();
    assert_eq!(owner.may_execute(0, 99), Ok(true));
    assert_eq!(owner.may_execute(0, 100), Ok(false));
    let kept = owner.kept(200).unwrap();
    assert_eq!((kept.until(), kept.joined()), (200, 6));
    assert_eq!(kept.may_execute(0, 199), Ok(true));
    assert_eq!(
        joined(2).read(&serving).unwrap().may_execute(0, 50),
        Ok(false)
    );
    let earlier = ShardReading {
        revision: 5,
        ..serving
    };
    assert_eq!(
        joined(1).read(&earlier).unwrap().may_execute(0, 50),
        Ok(false)
    );
    let failed = ShardReading {
        failed: true,
        ..serving
    };
    assert_eq!(
        joined(1).read(&failed).unwrap().may_execute(0, 50),
        Ok(false)
    );
}

#[test]
fn a_next_owner_waits_until_the_owner_lets_go() {
    let forwarding = reading(word(3, 1, 2, 6));
    let next = joined(2).read(&forwarding).unwrap();
    assert_eq!(next.may_execute(1, 50), Ok(false));
    let acked = next.acked(1, 5).unwrap();
    assert_eq!(acked.may_execute(1, 50), Ok(false), "by an older record");
    let acked = next.acked(1, 6).unwrap();
    assert_eq!(acked.may_execute(1, 50), Ok(true));
    assert_eq!(acked.may_execute(0, 50), Ok(false), "it came directly");
    let hand = HandOver {
        server: 1,
        joined: 4,
        generation: 6,
    };
    let earlier = next.handed(&hand).unwrap();
    assert_eq!(earlier.may_execute(1, 50), Ok(false), "of another process");
    let handed = next.handed(&HandOver { joined: 5, ..hand }).unwrap();
    assert_eq!(handed.may_execute(1, 50), Ok(true));
    let failed = ShardReading {
        owner_failed: true,
        ..forwarding
    };
    let next = next.read(&failed).unwrap();
    assert_eq!(next.may_execute(1, 50), Ok(true));
    assert_eq!(next.reading(), failed);
}

#[test]
fn who_lets_go_executes_no_more_by_its_record() {
    let owner = joined(1).read(&reading(word(1, 1, 0, 4))).unwrap();
    assert_eq!(owner.may_ack(), Ok(false));
    let owner = owner.let_go().unwrap();
    assert_eq!(owner.may_execute(0, 50), Ok(false));
    let later = owner.read(&reading(word(1, 1, 0, 5))).unwrap();
    assert_eq!(later.may_execute(0, 50), Ok(true));
    let forwarding = owner.read(&reading(word(3, 1, 2, 6))).unwrap();
    assert_eq!(forwarding.may_ack(), Ok(true));
}

#[test]
fn numbers_that_are_none_are_refused() {
    for server in [0, 4_096] {
        assert_eq!(ShardView::new(server, 6, 100), Err(Code::BAD_ARGUMENT));
        let hand = HandOver {
            server,
            joined: 5,
            generation: 6,
        };
        assert_eq!(joined(1).handed(&hand), Err(Code::BAD_ARGUMENT));
        assert_eq!(joined(1).acked(server, 1), Err(Code::BAD_ARGUMENT));
    }
    assert_eq!(joined(1).may_execute(4_096, 50), Err(Code::BAD_ARGUMENT));
    let no_record = reading(word(7, 1, 0, 1));
    assert_eq!(joined(1).read(&no_record), Err(Code::PERMIT_BAD_WORD));
}
