//! A cluster of as many shards as there are, at the last one and the last server.
ghost use Rattle.std.specs.Prelude.{◌≡◌, [], All, IfOk, length};
ghost use Rattle.sm_cluster.specs.Clusters.{IsClientOf};
ghost use Rattle.sm_ranges.specs.declared.stand.Stand.TheVariants.{Vacant};

use crate::holding::Holding;
use crate::loads::Increments;
use crate::running::{ask, inc_of, kept_of, pop_client, shard};
use sm_cluster::{Client, Cluster, Open, Setup};
use sm_desk::{Command, Desk};
use sm_load::load;
use sm_ownership::{Change, Route};
use sm_place::{Books, BooksFault};
use sm_ranges::{Key, ServerId, Stand};
use sm_rows::limits::MAX_DOMAIN_DOWN;
use sm_rows::{GroupRow, ServerRow, ShardRow, equal_domains};
use sm_tasks::Tasks;
use sm_tasks::laws::all_up_meets_caps;
use std::alloc::{AllocError, Global};
use std::process::Abort;
use std::sync::Wait;
use std::test::Fail;
use std::thread::Threads;
use test_fixture::layout_of;

fn server_row(id: ServerId, domain: u16) -> ServerRow {
    ServerRow {
        id,
        domain,
        capacity: 1,
    }
}

// The rows of all shards.
fn shard_rows(alloc: Global) -> Result<Vec<ShardRow>, AllocError>
    ensures { IfOk result (λ shards. length shards.items ≡ 4096) }
{
    let row = ShardRow {
        group: 0,
        load: 1,
        cap: 1,
    };
    vec![in alloc; row; 4_096]
}

// A desk of servers 1 and 4,095, each with room for one of these shards.
fn desk_of(alloc: Global, shards: &[ShardRow]) -> Result<Desk, BooksFault>
    ensures count { IfOk result (λ desk. length desk.books.shards ≡ length shards.now) }
    ensures vacant { IfOk result (λ desk. All (λ shard. shard.stand ≡ Vacant) desk.books.shards) }
{
    let servers = [
        server_row(ServerId::of(1), 0),
        server_row(ServerId::of(4_095), 4_095),
    ];
    let group = GroupRow { limit: 1, down: 1 };
    let domains = equal_domains(alloc, &servers, MAX_DOMAIN_DOWN)?;
    let books = Books::new(alloc, &servers, &[group], shards, &domains)?;
    all_up_meets_caps();
    Ok(Desk::new(books, Tasks::new(1)))
}

fn setup_of<R: Abort>(rt: &R, alloc: Global) -> Setup
    ensures ceiling { result.ceiling ≡ 1000000000 }
    ensures count { length result.desk.books.shards ≡ 4096 }
    ensures vacant { All (λ shard. shard.stand ≡ Vacant) result.desk.books.shards }
{
    let shards = shard_rows(alloc).ok().expect(rt, "memory");
    Setup {
        layout: layout_of(alloc, 4_096).expect(rt, "a layout"),
        desk: desk_of(alloc, &shards).ok().expect(rt, "a desk"),
        ceiling: 1_000_000_000,
    }
}

// The bodies of all shards, which have applied nothing yet.
fn bodies_of(alloc: Global) -> Result<Vec<Holding>, AllocError>
    ensures length { IfOk result (λ bodies. length bodies.items ≡ 4096) }
    ensures initial { IfOk result (λ bodies. All (λ body. body.base ≡ []) bodies.items) }
    ensures before { IfOk result (λ bodies. All (λ body. body.before ≡ 0) bodies.items) }
    ensures empty { IfOk result (λ bodies. All (λ body. body.requests ≡ []) bodies.items) }
{
    let mut bodies = Vec::with_capacity(alloc, 4_096)?;
    for _body in 0..4_096usize {
        bodies.push(Holding::new(alloc, 100, None))?;
    }
    Ok(bodies)
}

// Starts one worker for each server, and makes three clients.
fn start<R: Threads + Wait + Abort + Clone + Send + Drop + 'static>(
    rt: &R,
    alloc: Global,
) -> (Cluster<Holding>, Vec<Client<Holding>>)
    ensures count { result.0.control.chair.board.limits.count ≡ 4096 }
    ensures theirs { All (IsClientOf result.0) result.1.items }
{
    let setup = setup_of(rt, alloc);
    let bodies = bodies_of(alloc).ok().expect(rt, "memory");
    Cluster::start(rt, alloc, setup, bodies, 1, 3, Open)
        .ok()
        .expect(rt, "a cluster")
}

// Assigns the last shard to the last server, and publishes that.
fn assign_last<R: Wait + Abort>(rt: &R, cluster: &mut Cluster<Holding>) {
    let (k, last) = (shard(4_095), ServerId::of(4_095));
    let assigned = Command::Change(k, Change::Assign(last));
    assert!(rt; cluster.command(assigned).is_ok());
    assert!(rt; cluster.publish(rt, k).is_ok());
}

// The client looks at the last shard, and its calls by the route and past it are answered there.
fn call_last<R: Wait + Abort>(rt: &R, alloc: Global, client: &mut Client<Holding>)
    requires { client.old.pass.board.limits.count ≡ 4096 }
{
    let (k, last) = (shard(4_095), ServerId::of(4_095));
    assert!(rt; client.look(k).stand == Stand::Serving(last));
    let route = Route {
        shard: k,
        server: last,
        generation: 1,
    };
    assert!(rt; client.route(b"a") == Some(route));
    let told = ask(rt, alloc, client, 1, inc_of(rt, alloc, b"a"));
    assert!(rt; (told.server, told.place) == (last, 0));
    call_last_at(rt, alloc, client, last);
}

fn call_last_at<R: Wait + Abort>(
    rt: &R,
    alloc: Global,
    client: &mut Client<Holding>,
    last: ServerId,
) {
    let answer = client
        .call_at(rt, alloc, last, 2, inc_of(rt, alloc, b"a"))
        .ok()
        .expect(rt, "an answer");
    assert!(rt; (answer.server(), answer.place()) == (last, 1));
}

// The last shard is held and freed, and makes a checkpoint.
fn hold_last<R: Abort>(rt: &R, cluster: &mut Cluster<Holding>) {
    let (k, last) = (shard(4_095), ServerId::of(4_095));
    assert!(rt; cluster.hold(k, last).is_ok());
    assert!(rt; cluster.free(k).is_ok());
    assert!(rt; cluster.checkpoint(k, last).is_ok());
}

// A client makes 5 incs at the last shard, which counted 2 before.
fn load_last<R: Threads + Wait + Abort + Sync>(
    rt: &R,
    alloc: Global,
    clients: &mut [Client<Holding>],
    increments: &Increments,
) {
    assert!(rt; clients.len() == 2);
    let report = load(rt, alloc, clients, increments, 5);
    assert!(rt; report.acked == 5 && report.refused == 0);
    assert!(rt; report.before == Some(2) && report.after == Some(7));
}

// After the checkpoint the last shard keeps the load's 5 incs and 2 gets.
#[test]
fn calls_at_the_limits(rt: HostRuntime) -> Result<(), Fail> {
    let (alloc, k) = (rt.alloc(), shard(4_095));
    let key = Key::new(alloc, b"a")?;
    let (mut cluster, mut clients) = start(&rt, alloc);
    let mut client = pop_client(&rt, &cluster, &mut clients);
    assign_last(&rt, &mut cluster);
    call_last(&rt, alloc, &mut client);
    hold_last(&rt, &mut cluster);
    drop(client);
    load_last(
        &rt,
        alloc,
        clients.as_mut_slice(),
        &Increments { alloc, key },
    );
    drop(clients);
    let rows = cluster
        .stop(&rt, Vec::new(alloc))
        .ok()
        .expect(&rt, "no client is out");
    assert!(rt; rows.len() == 4_096 && kept_of(&rows, k) == Some(7));
    Ok(())
}
