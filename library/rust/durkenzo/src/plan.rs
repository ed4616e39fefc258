use crate::raw::{self, Handle};
use crate::server_id::ServerId;
use crate::shard_id::ShardId;

/// Where shards should go. Both lists are in the order of the shards.
#[derive(Clone, Debug, PartialEq, Eq)]
pub struct Plan {
    /// Shards, and the servers to which they go.
    pub moves: Vec<Move>,
    /// The shards that fit on no server when their turn comes.
    pub left: Vec<ShardId>,
}

/// A shard and the server to which it goes.
#[derive(Clone, Copy, Debug, PartialEq, Eq)]
pub struct Move {
    /// The shard.
    pub shard: ShardId,
    /// The server to which it goes.
    pub server: ServerId,
}

impl Plan {
    /// Returns the plan that the handle keeps.
    pub(crate) fn of(mut handle: Handle) -> Plan {
        let mut plan = Plan {
            moves: Vec::new(),
            left: Vec::new(),
        };
        let (mut shard, mut server) = (0, 0);
        // SAFETY: only this call uses the handle.
        while unsafe { raw::durkenzo_move(&mut handle, plan.moves.len(), &mut shard, &mut server) }
            == 0
        {
            let server = ServerId::of(server).expect("a move names a server");
            let shard = ShardId::of(shard);
            plan.moves.push(Move { shard, server });
        }
        // SAFETY: as above.
        while unsafe { raw::durkenzo_left(&mut handle, plan.left.len(), &mut shard) } == 0 {
            plan.left.push(ShardId::of(shard));
        }
        plan
    }
}
