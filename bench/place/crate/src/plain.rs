//! The plan as its definition says it: whether a server fits is a sum and a count over all rows. It keeps no counters.

use crate::rows::Rows;
use sm_place::plan::Move;
use sm_place::shard::Shard;
use sm_ranges::server_id::ServerId;
use sm_ranges::shard_id::ShardId;
use sm_ranges::stand::Stand;
use sm_rows::{GroupRow, ServerRow};
use std::alloc::{AllocError, Global};

/// The rows, with the stand of each shard. All servers are up.
#[derive(Drop)]
pub(crate) struct PlainBooks {
    servers: Vec<ServerRow>,
    groups: Vec<GroupRow>,
    shards: Vec<Shard>,
}

impl PlainBooks {
    /// The books of these rows, all shards vacant.
    pub(crate) fn new(alloc: Global, rows: Rows) -> Result<PlainBooks, AllocError> {
        let mut shards = Vec::new(alloc);
        for row in &rows.shards {
            shards.push(Shard {
                row: *row,
                stand: Stand::Vacant,
            })?;
        }
        Ok(PlainBooks {
            servers: rows.servers,
            groups: rows.groups,
            shards,
        })
    }

    /// Has each shard by number served by the first server that it fits, and answers with the moves.
    pub(crate) fn assign_all(&mut self, alloc: Global) -> Result<Vec<Move>, AllocError> {
        let mut moves = Vec::new(alloc);
        for number in 0..4096 {
            if let Some(shard) = ShardId::new(number) {
                if let Some(to) = self.first_fit(shard.index()) {
                    self.serve(shard.index(), to);
                    moves.push(Move { shard, to })?;
                }
            }
        }
        Ok(moves)
    }

    // Has the server serve shard k, where there is one.
    fn serve(&mut self, k: usize, a: ServerId) {
        if k < self.shards.len() {
            let row = self.shards[k].row;
            self.shards[k] = Shard {
                row,
                stand: Stand::Serving(a),
            };
        }
    }

    // The first server that shard k fits.
    fn first_fit(&self, k: usize) -> Option<ServerId> {
        for server in &self.servers {
            if self.fits(k, *server) {
                return Some(server.id);
            }
        }
        None
    }

    // Whether there is a shard k, and with it the server keeps its capacity and the shard's group its limit.
    fn fits(&self, k: usize, server: ServerRow) -> bool {
        let Some(shard) = self.shards.get(k) else {
            return false;
        };
        let Some(group) = self.groups.get(usize::from(shard.row.group)) else {
            return false;
        };
        let load = self
            .load_on(k, server.id)
            .saturating_add(u64::from(shard.row.load));
        load <= u64::from(server.capacity)
            && self.count_in(k, shard.row.group, server.domain) < u32::from(group.limit)
    }

    // The loads of the shards but k that name the server.
    fn load_on(&self, k: usize, a: ServerId) -> u64 {
        let mut load = 0u64;
        for (at, shard) in self.shards.iter().enumerate() {
            if at != k && shard.stand.names(a) {
                load = load.saturating_add(u64::from(shard.row.load));
            }
        }
        load
    }

    // How many shards of the group but k name a server of the domain.
    fn count_in(&self, k: usize, group: u16, domain: u16) -> u32 {
        let mut count = 0u32;
        for (at, shard) in self.shards.iter().enumerate() {
            if at != k && shard.row.group == group && self.names_domain(&shard.stand, domain) {
                count = count.saturating_add(1);
            }
        }
        count
    }

    // Whether the stand names a server of the domain.
    fn names_domain(&self, stand: &Stand, domain: u16) -> bool {
        self.is_in(stand.owner(), domain) || self.is_in(stand.other(), domain)
    }

    // Whether there is a server, and its row is of the domain.
    fn is_in(&self, server: Option<ServerId>, domain: u16) -> bool {
        self.servers
            .iter()
            .any(|row| Some(row.id) == server && row.domain == domain)
    }
}
