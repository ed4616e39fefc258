use sm_ranges::ShardId;
use sm_store::{Compare, LastingKey, PassingKey, StoreKey};
use std::process::Abort;

// The example of the crate's documentation.
#[test]
fn compares_a_head(rt: HostRuntime) {
    let shard = ShardId::new(7).expect(&rt, "a shard");
    let head = StoreKey::Lasting(LastingKey::Head(shard));
    let compare = Compare {
        key: head,
        revision: 3,
    };
    assert!(rt; compare.key == head);
    assert!(rt; compare.key != StoreKey::Passing(PassingKey::Batch(shard, 3)));
}
