//! Jobs that clients push and take, while their shard moves.
ghost use Rattle.std.specs.Prelude.{◌≡◌, ◌<◌};
ghost use Rattle.sm_cluster.specs.Clusters.{IsClientOf};

use crate::setup::setup_of;
use sm_body::{Bytes, Service};
use sm_cluster::{CallFault, Client, Cluster, Open};
use sm_desk::Command;
use sm_ownership::{Change, Record};
use sm_queue::{Job, JobQueue, Reply, Request};
use sm_ranges::{ServerId, ShardId};
use sm_server::Refusal;
use std::alloc::Global;
use std::process::Abort;
use std::sync::Wait;
use std::test::Fail;
use std::thread::Threads;

fn bytes_of<R: Abort>(rt: &R, alloc: Global, bytes: &[u8]) -> Bytes {
    Bytes::new(alloc, bytes).ok().expect(rt, "memory")
}

fn push_of<R: Abort>(rt: &R, alloc: Global, key: &[u8], work: &[u8]) -> Request {
    let (key, work) = (bytes_of(rt, alloc, key), bytes_of(rt, alloc, work));
    Request::Push(Job { key, work })
}

fn take_of<R: Abort>(rt: &R, alloc: Global, key: &[u8]) -> Request {
    Request::Take(bytes_of(rt, alloc, key))
}

// Whether this job was given out.
fn is_given(reply: Reply, work: &[u8]) -> bool {
    match reply {
        Reply::Given(job) => job.work.as_bytes() == work,
        _ => false,
    }
}

// A cluster of one shard, which keeps at most two requests, with its only client.
struct Running {
    cluster: Cluster<JobQueue>,
    client: Client<JobQueue>,
    ghost shards: { cluster.control.chair.board.limits.count ≡ 1 },
    ghost its: { IsClientOf cluster client },
}

impl Running {
    // Starts one worker for each server, has server 1 own the shard, and publishes that.
    fn start<R: Threads + Wait + Abort + Clone + Send + Drop + 'static>(
        rt: &R,
        alloc: Global,
    ) -> Result<Running, Fail> {
        let bodies = vec![in alloc; JobQueue::new(alloc, 2)]?;
        let started = Cluster::start(rt, alloc, setup_of(alloc)?, bodies, 1, 1, Open);
        let (cluster, mut clients) = started.ok().expect(rt, "a cluster");
        let client = clients.pop().expect(rt, "a client");
        let mut running = Running { cluster, client };
        running.change(rt, Change::Assign(ServerId::of(1)));
        running.publish(rt);
        Ok(running)
    }

    // Makes the change of the shard.
    fn change<R: Abort>(&mut self, rt: &R, change: Change) {
        let made = self.cluster.command(Command::Change(shard(), change));
        assert!(rt; made.is_ok());
    }

    fn publish<R: Wait + Abort>(&mut self, rt: &R) {
        assert!(rt; self.cluster.publish(rt, shard()).is_ok());
    }

    // The server that executed the request, and its reply.
    fn ask<R: Wait + Abort>(
        &mut self,
        rt: &R,
        alloc: Global,
        request: Request,
    ) -> (ServerId, Reply) {
        let answer = self.client.call(rt, alloc, 1, request).ok();
        let told = self.client.learn(answer.expect(rt, "an answer"));
        (told.server, told.reply)
    }

    // Whether the request comes back, as the shard keeps as many as it may.
    fn is_full<R: Wait + Abort>(&mut self, rt: &R, alloc: Global, request: Request) -> bool {
        match self.client.call(rt, alloc, 1, request) {
            Ok(_) => false,
            Err(refused) => {
                let full = CallFault::Refused(Refusal::KeptFull);
                refused.fault == full && refused.back.is_some()
            }
        }
    }

    fn stop<R: Threads + Wait + Abort>(
        self,
        rt: &R,
        alloc: Global,
    ) -> Vec<(Record, Option<JobQueue>)> {
        let Running { cluster, client } = self;
        let clients = vec![in alloc; client].ok().expect(rt, "memory");
        let stopped = cluster.stop(rt, clients).ok();
        stopped.expect(rt, "the client is back")
    }
}

fn shard() -> ShardId
    ensures { result ≡ 0 }
{
    let Some(k) = ShardId::new(0) else {
        unreachable!()
    };
    k
}

// A job that was pushed at server 1 is taken at server 2, to which server 1 forwards the client, who knows no better.
#[test]
fn jobs_migrate_while_clients_ask(rt: HostRuntime) -> Result<(), Fail> {
    let (alloc, one, two) = (rt.alloc(), ServerId::of(1), ServerId::of(2));
    let mut running = Running::start(&rt, alloc)?;
    let (server, reply) = running.ask(&rt, alloc, push_of(&rt, alloc, b"oven", b"bake"));
    assert!(rt; server == one && matches!(reply, Reply::Queued));
    running.change(&rt, Change::PrepareAddShard(two));
    running.change(&rt, Change::PrepareDropShard);
    let (server, reply) = running.ask(&rt, alloc, take_of(&rt, alloc, b"oven"));
    assert!(rt; server == two && is_given(reply, b"bake"));
    running.change(&rt, Change::AddShard);
    running.publish(&rt);
    running.change(&rt, Change::DropShard);
    let rows = running.stop(&rt, alloc);
    assert!(rt; rows.len() == 1 && rows[0].1.as_ref().map(Service::kept) == Some(2));
    Ok(())
}

// A full shard takes requests again after a checkpoint, which the owner of the cluster makes.
#[test]
fn checkpoint_makes_room(rt: HostRuntime) -> Result<(), Fail> {
    let (alloc, one) = (rt.alloc(), ServerId::of(1));
    let mut running = Running::start(&rt, alloc)?;
    running.ask(&rt, alloc, push_of(&rt, alloc, b"oven", b"bake"));
    running.ask(&rt, alloc, push_of(&rt, alloc, b"oven", b"cool"));
    assert!(rt; running.is_full(&rt, alloc, take_of(&rt, alloc, b"oven")));
    assert!(rt; running.cluster.checkpoint(shard(), one).is_ok());
    let (_, reply) = running.ask(&rt, alloc, take_of(&rt, alloc, b"oven"));
    assert!(rt; is_given(reply, b"bake"));
    running.stop(&rt, alloc);
    Ok(())
}
