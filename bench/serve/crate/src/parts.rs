//! Parts of what serve does.
ghost use Rattle.std.specs.Prelude.{◌≡◌, ◌<◌, None, length};

use crate::request::{Answering, told_by};
use crate::site::{Body, Site, bodies_of};
use sm_ownership::mode::Mode;
use sm_ranges::server_id::ServerId;
use sm_ranges::shard_id::ShardId;
use sm_rule::{Board, Pass};
use sm_service::{Request, Service};
use std::alloc::Global;

/// Nobody, which drops all requests.
#[derive(Drop)]
pub(crate) struct Nobody;

impl Answering for Nobody {
    fn answer(&mut self, _: ShardId, request: Request) -> u64 {
        drop(request);
        1
    }
}

/// The bodies of all shards without a board.
#[derive(Drop)]
pub(crate) struct Bodies {
    bodies: Vec<Body>,
}

impl Bodies {
    /// New bodies, or none where memory is refused.
    pub(crate) fn new(alloc: Global) -> Option<Bodies> {
        Some(Bodies {
            bodies: bodies_of(alloc)?,
        })
    }
}

impl Answering for Bodies {
    fn answer(&mut self, k: ShardId, request: Request) -> u64 {
        let Some(body) = self.bodies.get_mut(k.index()) else {
            return 0;
        };
        match body.apply(request) {
            Ok(reply) => told_by(&reply),
            Err(_) => 0,
        }
    }
}

/// A pass of server 1 that executes requests under its own permits: without a search for the shard, notes and envelopes.
#[derive(Drop)]
pub(crate) struct Permits<'a> {
    site: &'a Site,
    pass: Pass<Body>,
    ghost tied: { pass.board ≡ site.now.board },
    ghost free: { pass.held ≡ None },
}

impl<'a> Permits<'a> {
    pub(crate) fn new(site: &'a Site) -> Permits<'a> {
        Permits {
            site,
            pass: site.board.pass(Some(ServerId::of(1))),
        }
    }
}

impl Answering for Permits<'_> {
    fn answer(&mut self, k: ShardId, request: Request) -> u64 {
        let board = &self.site.board;
        if k.index() >= board.count() as usize {
            return 0;
        }
        match executed(board, &mut self.pass, k, request) {
            Some(reply) => told_by(&reply),
            None => 0,
        }
    }
}

// The reply to the request under a permit of the pass; none where the pass isn't admitted, or the request isn't applied.
fn executed<S: Service>(
    board: &Board<S>,
    pass: &mut Pass<S>,
    k: ShardId,
    request: S::Request,
) -> Option<S::Reply>
    requires board { pass.old.board ≡ board.now }
    requires shard { k < board.now.limits.count }
    requires free { pass.old.held ≡ None }
    ensures board { pass.new.board ≡ board.now }
    ensures free { pass.new.held ≡ None }
{
    let Ok(permit) = board.admit(pass, k, Mode::Direct) else {
        return None;
    };
    board.execute(pass, permit, request).0.ok()
}
