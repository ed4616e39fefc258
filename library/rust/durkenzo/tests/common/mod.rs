//! Shards and servers by their numbers, for all tests.
use durkenzo::{ServerId, ShardId};

pub fn shard_id(number: u16) -> ShardId {
    ShardId::new(number).expect("a shard has this number")
}

pub fn server_id(number: u16) -> ServerId {
    ServerId::new(number).expect("a server has this number")
}
