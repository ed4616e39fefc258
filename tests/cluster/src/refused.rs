//! A cluster where memory is refused: the same call made again does its work.
ghost use Rattle.std.specs.Prelude.{◌≡◌, ◌<◌, ◌≤◌, [], All, IfOk, length};
ghost use Rattle.sm_cluster.specs.Clusters.{IsClientOf};
ghost use Rattle.sm_ranges.specs.declared.stand.Stand.TheVariants.{Vacant};

use crate::holding::Holding;
use crate::running::{Running, desk_of, inc_of, pop_client, shard};
use sm_cluster::{
    CallFault, CallRefused, Client, Cluster, Counts, Fate, HoldFault, Open, Setup, StartFault, Told,
};
use sm_control::DrainFault;
use sm_desk::Command;
use sm_ownership::{Change, Record, RouteFault};
use sm_place::{Move, Plan};
use sm_ranges::{Layout, ServerId};
use sm_server::{Answer, Refusal};
use sm_service::{Reply, Request, Service};
use std::alloc::{AllocError, Global};
use std::process::Abort;
use std::sync::Wait;
use std::thread::Threads;

// What the cluster is made of, where memory for that isn't refused.
fn new_setup<R: Abort>(rt: &R, alloc: Global) -> Setup
    ensures ceiling { result.ceiling ≡ 1000000000 }
    ensures count { length result.desk.books.shards ≡ 2 }
    ensures vacant { All (λ shard. shard.stand ≡ Vacant) result.desk.books.shards }
{
    Setup {
        layout: Layout::new(alloc, &[b"", b"m"]).ok().expect(rt, "a layout"),
        desk: desk_of(alloc).ok().expect(rt, "memory"),
        ceiling: 1_000_000_000,
    }
}

// The bodies of two shards, where memory for them isn't refused. The first refuses its first checkpoint.
fn new_bodies<R: Abort>(rt: &R, alloc: Global) -> Vec<Holding>
    ensures length { length result.items ≡ 2 }
    ensures initial { All (λ body. body.base ≡ []) result.items }
    ensures before { All (λ body. body.before ≡ 0) result.items }
    ensures empty { All (λ body. body.requests ≡ []) result.items }
{
    let (first, second) = (
        Holding::refusing(alloc, 100),
        Holding::new(alloc, 100, None),
    );
    vec![in alloc; first, second].ok().expect(rt, "bodies")
}

// Starts a worker for each of three servers, and two clients. The setup and the bodies are gone where that is refused.
fn started<R: Threads + Wait + Abort + Clone + Send + Drop + 'static>(
    rt: &R,
    alloc: Global,
) -> Result<(Cluster<Holding>, Vec<Client<Holding>>), StartFault>
    ensures shards { IfOk result (λ made. made.0.control.chair.board.limits.count ≡ 2) }
    ensures theirs { IfOk result (λ made. All (IsClientOf made.0) made.1.items) }
{
    let (setup, bodies) = (new_setup(rt, alloc), new_bodies(rt, alloc));
    Cluster::start(rt, alloc, setup, bodies, 1, 2, Open)
}

// The same, where memory is refused once more. A thread that std gets no memory for is no thread.
fn started_in_two<R: Threads + Wait + Abort + Clone + Send + Drop + 'static>(
    rt: &R,
    alloc: Global,
) -> (Cluster<Holding>, Vec<Client<Holding>>)
    ensures shards { result.0.control.chair.board.limits.count ≡ 2 }
    ensures theirs { All (IsClientOf result.0) result.1.items }
{
    match started(rt, alloc) {
        Ok(made) => made,
        Err(fault) => {
            assert!(rt; fault == StartFault::NoMemory || fault == StartFault::NoThread);
            started(rt, alloc).ok().expect(rt, "the cluster")
        }
    }
}

fn running_in_two<R: Threads + Wait + Abort + Clone + Send + Drop + 'static>(
    rt: &R,
    alloc: Global,
) -> Running {
    let (cluster, mut clients) = started_in_two(rt, alloc);
    let first = pop_client(rt, &cluster, &mut clients);
    let second = pop_client(rt, &cluster, &mut clients);
    Running {
        cluster,
        first,
        second,
    }
}

// Plans from the server, or where there is none for the vacant shards.
fn planned(
    alloc: Global,
    cluster: &Cluster<Holding>,
    from: Option<ServerId>,
) -> Result<Plan, DrainFault> {
    match from {
        None => Ok(cluster.plan_assign(alloc)?),
        Some(a) => cluster.plan_drain(alloc, a),
    }
}

// The plan has these moves, made again where memory is refused.
fn plans_in_two<R: Abort>(
    rt: &R,
    alloc: Global,
    cluster: &Cluster<Holding>,
    from: Option<ServerId>,
    moves: &[Move],
) {
    let plan = match planned(alloc, cluster, from) {
        Ok(plan) => plan,
        Err(fault) => {
            assert!(rt; fault == DrainFault::NoMemory);
            planned(alloc, cluster, from).ok().expect(rt, "the plan")
        }
    };
    assert!(rt; plan.moves() == moves && plan.left().is_empty());
}

fn moved(k: u16, to: u16) -> Move
    requires shard { k < 4096 }
    requires server { (1 ≤ to) × (to ≤ 4095) }
{
    Move {
        shard: shard(k),
        to: ServerId::of(to),
    }
}

// Publishes the route of shard 0. Where memory for it is refused, the client reads none, and it is published again.
fn publish_in_two<R: Wait + Abort>(rt: &R, running: &mut Running) {
    let k = shard(0);
    if let Err(refusal) = running.cluster.publish(rt, k) {
        assert!(rt; refusal == RouteFault::NoMemory);
        assert!(rt; running.first.route(b"a").is_none());
        assert!(rt; running.cluster.publish(rt, k).is_ok());
    }
    assert!(rt; running.first.route(b"a").is_some());
}

// The request of a call that memory was refused for, on its way or at the server.
fn request_back<R: Abort>(rt: &R, fault: CallFault, back: Option<Request>) -> Request {
    let is_want = matches!(
        fault,
        CallFault::NoMemory | CallFault::Refused(Refusal::NoMemory)
    );
    assert!(rt; is_want);
    back.expect(rt, "the request")
}

// Calls by the published route, or at this server.
fn called<R: Wait>(
    rt: &R,
    alloc: Global,
    client: &mut Client<Holding>,
    at: Option<ServerId>,
    request: Request,
) -> Result<Answer<Holding>, CallRefused<Request>>
    ensures answer { IfOk result (λ answer. answer.note.board ≡ client.old.pass.board) }
    ensures board { client.new.pass.board ≡ client.old.pass.board }
    ensures bounds { client.new.bounds ≡ client.old.bounds }
{
    match at {
        None => client.call(rt, alloc, 7, request),
        Some(server) => client.call_at(rt, alloc, server, 7, request),
    }
}

// The client learns the answer.
fn told<R: Wait + Abort>(
    rt: &R,
    alloc: Global,
    client: &mut Client<Holding>,
    at: Option<ServerId>,
    request: Request,
) -> Told<Reply>
    ensures board { client.new.pass.board ≡ client.old.pass.board }
    ensures bounds { client.new.bounds ≡ client.old.bounds }
{
    let answer = called(rt, alloc, client, at, request);
    client.learn(answer.ok().expect(rt, "the answer"))
}

// The client increments. Where memory is refused, the request comes back, and is called with again.
fn told_in_two<R: Wait + Abort>(
    rt: &R,
    alloc: Global,
    client: &mut Client<Holding>,
    at: Option<ServerId>,
) -> Told<Reply>
    ensures board { client.new.pass.board ≡ client.old.pass.board }
    ensures bounds { client.new.bounds ≡ client.old.bounds }
{
    match called(rt, alloc, client, at, inc_of(rt, alloc, b"a")) {
        Ok(answer) => client.learn(answer),
        Err(CallRefused { fault, back }) => {
            let request = request_back(rt, fault, back);
            told(rt, alloc, client, at, request)
        }
    }
}

// The client's increment is the one at this place, of those of the key.
fn increments<R: Wait + Abort>(
    rt: &R,
    alloc: Global,
    client: &mut Client<Holding>,
    at: Option<ServerId>,
    place: u64,
)
    ensures board { client.new.pass.board ≡ client.old.pass.board }
    ensures bounds { client.new.bounds ≡ client.old.bounds }
{
    let told = told_in_two(rt, alloc, client, at);
    assert!(rt; told.place == place);
    let count = match told.reply {
        Reply::Count(count) => u64::try_from(count).unwrap_or(0),
        _ => 0,
    };
    assert!(rt; count == place.wrapping_add(1));
}

// Both shards are planned for and assigned, the first is published, and a plan is made to drain its server.
fn plan_and_publish<R: Wait + Abort>(rt: &R, alloc: Global, running: &mut Running) {
    let (one, two) = (ServerId::of(1), ServerId::of(2));
    let planned = [moved(0, 1), moved(1, 1)];
    plans_in_two(rt, alloc, &running.cluster, None, &planned);
    running.command_all(
        rt,
        &[
            Command::Change(shard(0), Change::Assign(one)),
            Command::Change(shard(1), Change::Assign(two)),
        ],
    );
    publish_in_two(rt, running);
    plans_in_two(rt, alloc, &running.cluster, Some(two), &[moved(1, 1)]);
}

// What takes no memory is made in each run, but for the first checkpoint, which the body refuses.
fn hold_and_base<R: Abort>(rt: &R, running: &mut Running) {
    let (one, k) = (ServerId::of(1), shard(0));
    assert!(rt; running.hold(k, one).is_ok());
    assert!(rt; running.free(k).is_ok());
    let refused = HoldFault::NoMemory;
    assert!(rt; running.cluster.checkpoint(k, one).err() == Some(refused));
    assert!(rt; running.cluster.checkpoint(k, one).is_ok());
}

fn counts_in_two<R: Abort>(rt: &R, alloc: Global, cluster: &Cluster<Holding>) -> Counts {
    match cluster.counts(alloc) {
        Ok(counts) => counts,
        Err(AllocError) => cluster.counts(alloc).ok().expect(rt, "the counts"),
    }
}

// Two requests were answered, be it after they came back.
fn counts_two<R: Abort>(rt: &R, alloc: Global, cluster: &Cluster<Holding>) {
    let counts = counts_in_two(rt, alloc, cluster);
    assert!(rt; counts.servers.len() == 3 && counts.shards.len() == 2);
    assert!(rt; counts.servers.first().map(|row| row.of(Fate::Answered)) == Some(2));
}

// How many requests came before the base of the first body, and how many are kept since.
fn first_and_kept(rows: &[(Record, Option<Holding>)]) -> Option<(u64, usize)> {
    let body = rows.first()?.1.as_ref()?;
    Some((body.first(), body.kept()))
}

// Neither the stop without clients nor what it gives takes memory that could be refused for good.
fn stopped<R: Threads + Wait + Abort>(
    rt: &R,
    alloc: Global,
    running: Running,
) -> Vec<(Record, Option<Holding>)> {
    let Running {
        cluster,
        first,
        second,
    } = running;
    drop(first);
    drop(second);
    cluster
        .stop(rt, Vec::new(alloc))
        .ok()
        .expect(rt, "no client is out")
}

// With each allocation refused in turn (`tools/run-tests` does it), those of its threads too.
#[test]
fn refused_memory_changes_nothing(rt: HostRuntime) {
    let (alloc, one) = (rt.alloc(), ServerId::of(1));
    let mut running = running_in_two(&rt, alloc);
    plan_and_publish(&rt, alloc, &mut running);
    increments(&rt, alloc, &mut running.first, None, 0);
    hold_and_base(&rt, &mut running);
    increments(&rt, alloc, &mut running.second, Some(one), 1);
    counts_two(&rt, alloc, &running.cluster);
    let rows = stopped(&rt, alloc, running);
    assert!(rt; rows.len() == 2 && first_and_kept(&rows) == Some((1, 1)));
}
