//! Clusters of two shards with their clients.
ghost use Rattle.std.specs.Prelude.{◌≡◌, ◌<◌, ◌≤◌, ◌^◌, [], All, IfOk, length};
ghost use Rattle.sm_cluster.specs.Clusters.{IsClientOf};
ghost use Rattle.sm_ranges.specs.declared.stand.Stand.TheVariants.{Vacant};

use crate::holding::Holding;
use crate::latch::Latch;
use sm_cluster::{Client, Cluster, Gate, HoldFault, Setup, Told};
use sm_desk::{Command, Desk};
use sm_ownership::{Change, Record};
use sm_place::{Books, BooksFault};
use sm_ranges::limits::MAX_SERVER;
use sm_ranges::{Key, Layout, ServerId, ShardId, Stand};
use sm_rows::limits::MAX_DOMAIN_DOWN;
use sm_rows::{GroupRow, ServerRow, ShardRow, equal_domains};
use sm_service::{Bytes, Reply, Request, Service};
use sm_tasks::Tasks;
use sm_tasks::laws::all_up_meets_caps;
use std::alloc::{AllocError, Global};
use std::process::Abort;
use std::sync::{Arc, Wait};
use std::test::Fail;
use std::thread::Threads;

/// The shard with this number.
pub(crate) fn shard(number: u16) -> ShardId
    requires { number < 4096 }
    ensures { result ≡ number }
{
    let Some(k) = ShardId::new(number) else {
        unreachable!()
    };
    k
}

pub(crate) fn get_of<R: Abort>(rt: &R, alloc: Global, key: &[u8]) -> Request {
    Request::Get(Key::new(alloc, key).ok().expect(rt, "a key"))
}

pub(crate) fn inc_of<R: Abort>(rt: &R, alloc: Global, key: &[u8]) -> Request {
    Request::Inc(Key::new(alloc, key).ok().expect(rt, "a key"), 1)
}

pub(crate) fn append_of<R: Abort>(rt: &R, alloc: Global, key: &[u8], text: &[u8]) -> Request {
    let key = Key::new(alloc, key).ok().expect(rt, "a key");
    Request::Append(key, Bytes::new(alloc, text).ok().expect(rt, "a text"))
}

fn server_row(id: ServerId, domain: u16) -> ServerRow {
    ServerRow {
        id,
        domain,
        capacity: 2,
    }
}

/// Servers 1 to 3 with room for both shards each, the first in a domain of its own. One server may be down, and the second shard.
pub(crate) fn desk_of(alloc: Global) -> Result<Desk, BooksFault>
    ensures count { IfOk result (λ desk. length desk.books.shards ≡ 2) }
    ensures vacant { IfOk result (λ desk. All (λ shard. shard.stand ≡ Vacant) desk.books.shards) }
{
    let servers = [
        server_row(ServerId::of(1), 0),
        server_row(ServerId::of(2), 1),
        server_row(ServerId::of(3), 1),
    ];
    let group = GroupRow { limit: 2, down: 1 };
    let shards = [
        ShardRow {
            group: 0,
            load: 1,
            cap: 0,
        },
        ShardRow {
            group: 0,
            load: 1,
            cap: 1,
        },
    ];
    let domains = equal_domains(alloc, &servers, MAX_DOMAIN_DOWN)?;
    let books = Books::new(alloc, &servers, &[group], &shards, &domains)?;
    all_up_meets_caps();
    Ok(Desk::new(books, Tasks::new(1)))
}

/// Shard 0 has the keys below `m`, and shard 1 the others. Servers 1 to 3 have room for both.
pub(crate) fn setup_of(alloc: Global) -> Result<Setup, Fail>
    ensures ceiling { IfOk result (λ setup. setup.ceiling ≡ 1000000000) }
    ensures count { IfOk result (λ setup. length setup.desk.books.shards ≡ 2) }
    ensures vacant { IfOk result (λ setup. All (λ shard. shard.stand ≡ Vacant) setup.desk.books.shards) }
{
    Ok(Setup {
        layout: Layout::new(alloc, &[b"", b"m"])?,
        desk: desk_of(alloc)?,
        ceiling: 1_000_000_000,
    })
}

/// The bodies of two shards, each of which keeps at most so many requests. Those of the first stay at the latch, where there is one.
pub(crate) fn bodies_of(
    alloc: Global,
    limit: usize,
    latch: Option<Arc<Latch>>,
) -> Result<Vec<Holding>, AllocError>
    ensures length { IfOk result (λ bodies. length bodies.items ≡ 2) }
    ensures initial { IfOk result (λ bodies. All (λ body. body.base ≡ []) bodies.items) }
    ensures before { IfOk result (λ bodies. All (λ body. body.before ≡ 0) bodies.items) }
    ensures empty { IfOk result (λ bodies. All (λ body. body.requests ≡ []) bodies.items) }
{
    Ok(vec![in alloc;
        Holding::new(alloc, limit, latch),
        Holding::new(alloc, limit, None),
    ]?)
}

/// A cluster of two shards with two clients.
pub(crate) struct Running {
    pub(crate) cluster: Cluster<Holding>,
    pub(crate) first: Client<Holding>,
    pub(crate) second: Client<Holding>,
    ghost shards: { cluster.control.chair.board.limits.count ≡ 2 },
    ghost first_is_its: { IsClientOf cluster first },
    ghost second_is_its: { IsClientOf cluster second },
}

impl Running {
    /// Starts two workers for each server.
    pub(crate) fn start<
        G: Gate + Send + Sync + Drop + 'static,
        R: Threads + Wait + Abort + Clone + Send + Drop + 'static,
    >(rt: &R, alloc: Global, setup: Setup, bodies: Vec<Holding>, gate: G) -> Running
        requires ceiling { setup.ceiling ≡ 1000000000 }
        requires shards { length setup.desk.books.shards ≡ 2 }
        requires vacant { All (λ shard. shard.stand ≡ Vacant) setup.desk.books.shards }
        requires length { length bodies.items ≡ 2 }
        requires initial { All (λ body. body.base ≡ []) bodies.items }
        requires before { All (λ body. body.before ≡ 0) bodies.items }
        requires empty { All (λ body. body.requests ≡ []) bodies.items }
    {
        let (cluster, mut clients) = Cluster::start(rt, alloc, setup, bodies, 2, 2, gate)
            .ok()
            .expect(rt, "a cluster");
        let first = pop_client(rt, &cluster, &mut clients);
        let second = pop_client(rt, &cluster, &mut clients);
        Running {
            cluster,
            first,
            second,
        }
    }

    /// Gives the commands in turn, each of which is made.
    pub(crate) fn command_all<R: Abort>(&mut self, rt: &R, commands: &[Command]) {
        for command in commands {
            assert!(rt; self.cluster.command(*command).is_ok());
        }
    }

    /// Assigns shard 0 to server 1 and shard 1 to server 2, and publishes both.
    pub(crate) fn assign_both<R: Wait + Abort>(&mut self, rt: &R) {
        self.assign(rt, ServerId::of(2));
    }

    /// Assigns shard 0 to server 1 and shard 1 to this server, and publishes both.
    pub(crate) fn assign<R: Wait + Abort>(&mut self, rt: &R, second: ServerId) {
        self.command_all(
            rt,
            &[
                Command::Change(shard(0), Change::Assign(ServerId::of(1))),
                Command::Change(shard(1), Change::Assign(second)),
            ],
        );
        self.publish(rt, shard(0));
        self.publish(rt, shard(1));
    }

    // Publishes the shard's route.
    fn publish<R: Wait + Abort>(&mut self, rt: &R, k: ShardId) {
        assert!(rt; self.cluster.publish(rt, k).is_ok());
    }

    /// Has the server hold the shard.
    pub(crate) fn hold(&mut self, k: ShardId, a: ServerId) -> Result<(), HoldFault> {
        match self.cluster.hold(k, a) {
            Ok(()) => Ok(()),
            Err(fault) => Err(fault),
        }
    }

    /// Frees the shard.
    pub(crate) fn free(&mut self, k: ShardId) -> Result<(), HoldFault> {
        match self.cluster.free(k) {
            Ok(()) => Ok(()),
            Err(fault) => Err(fault),
        }
    }

    /// Tells the second client what the cluster's calls have done.
    pub(crate) fn tell(&mut self) {
        self.cluster.tell(&mut self.second);
    }

    /// Stops it with both clients.
    pub(crate) fn stop<R: Threads + Wait + Abort>(
        self,
        rt: &R,
        alloc: Global,
    ) -> Vec<(Record, Option<Holding>)> {
        let Running {
            cluster,
            first,
            second,
        } = self;
        let clients = vec![in alloc; first, second].ok().expect(rt, "memory");
        cluster
            .stop(rt, clients)
            .ok()
            .expect(rt, "all clients are back")
    }
}

/// The last of the clients, which all are the cluster's.
pub(crate) fn pop_client<R: Abort>(
    rt: &R,
    _cluster: &Cluster<Holding>,
    clients: &mut Vec<Client<Holding>>,
) -> Client<Holding>
    requires { All (IsClientOf _cluster.now) clients.old.items }
    ensures rest { All (IsClientOf _cluster.now) clients.new.items }
    ensures its { IsClientOf _cluster.now result }
{
    clients.pop().expect(rt, "a client")
}

/// The client's request is answered, and the client learns the answer.
pub(crate) fn ask<R: Wait + Abort>(
    rt: &R,
    alloc: Global,
    client: &mut Client<Holding>,
    number: u64,
    request: Request,
) -> Told<Reply>
    ensures board { client.new.pass.board ≡ client.old.pass.board }
    ensures bounds { client.new.bounds ≡ client.old.bounds }
{
    let answer = client
        .call(rt, alloc, number, request)
        .ok()
        .expect(rt, "an answer");
    client.learn(answer)
}

/// The record of a shard that is not admitted.
pub(crate) fn idle(stand: Stand, generation: u64) -> Record {
    Record {
        stand,
        admitted: false,
        generation,
    }
}

/// How many requests the shard's body keeps, where it is there.
pub(crate) fn kept_of(rows: &[(Record, Option<Holding>)], k: ShardId) -> Option<usize> {
    Some(rows.get(k.index())?.1.as_ref()?.kept())
}
