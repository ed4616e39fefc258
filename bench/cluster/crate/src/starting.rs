//! Clusters of any size.
ghost use Rattle.std.specs.Prelude.{◌≡◌, [], All, IfOk, IfSome, length};
ghost use Rattle.sm_ranges.specs.declared.stand.Stand.TheVariants.{Vacant};

use crate::plan::Plan;
use sm_cluster::{Client, Cluster, Open, Setup};
use sm_desk::{Command, Desk};
use sm_ownership::{Change, Record};
use sm_place::{Books, BooksFault};
use sm_ranges::layout::Layout;
use sm_ranges::server_id::ServerId;
use sm_ranges::shard_id::ShardId;
use sm_rows::limits::MAX_DOMAIN_DOWN;
use sm_rows::{GroupRow, ServerRow, ShardRow, equal_domains};
use sm_service::{CounterText, Service};
use sm_tasks::Tasks;
use sm_tasks::laws::all_up_meets_caps;
use std::alloc::Global;
use std::sync::Wait;
use std::thread::Threads;

/// How many requests a shard keeps at most.
const KEPT: usize = 100_000_000;

/// The greatest generation of a shard.
const CEILING: u64 = 10_000_000_000;

/// How many servers may be away for an approval.
const AWAY: u16 = 1;

const MOST_SHARDS: u16 = 4096;

const MOST_CLIENTS: usize = 1000;

// The shards' keys begin with their numbers.
fn layout_of(alloc: Global, shards: u16) -> Option<Layout> {
    let mut bounds: Vec<[u8; 2]> = Vec::new(alloc);
    for number in 0..shards {
        bounds.push(number.to_be_bytes()).ok()?;
    }
    let mut slices: Vec<&[u8]> = Vec::new(alloc);
    for bound in bounds.iter() {
        slices
            .push(if slices.is_empty() { b"" } else { &bound[..] })
            .ok()?;
    }
    Layout::new(alloc, &slices).ok()
}

// Servers with room for all shards, each in a domain of its own.
fn servers_of(alloc: Global, servers: u16) -> Option<Vec<ServerRow>> {
    let mut rows = Vec::new(alloc);
    for number in 1..=servers {
        rows.push(ServerRow {
            id: ServerId::new(number)?,
            domain: number & 4095,
            capacity: u32::from(MOST_SHARDS),
        })
        .ok()?;
    }
    Some(rows)
}

// A desk for so many servers and shards, which are vacant.
fn new_desk(alloc: Global, servers: u16, shards: u16) -> Option<Desk>
    ensures count { IfSome result (λ desk. length desk.books.shards ≡ shards) }
    ensures vacant { IfSome result (λ desk. All (λ shard. shard.stand ≡ Vacant) desk.books.shards) }
{
    let servers = servers_of(alloc, servers)?;
    let group = GroupRow {
        limit: MOST_SHARDS,
        down: MOST_SHARDS,
    };
    let row = ShardRow {
        group: 0,
        load: 1,
        cap: 1,
    };
    let rows = vec![in alloc; row; usize::from(shards)].ok()?;
    if rows.len() != usize::from(shards) {
        return None;
    }
    desk_of(alloc, &servers, &[group], &rows).ok()
}

// A desk of the rows.
fn desk_of(
    alloc: Global,
    servers: &[ServerRow],
    groups: &[GroupRow],
    shards: &[ShardRow],
) -> Result<Desk, BooksFault>
    ensures count { IfOk result (λ desk. length desk.books.shards ≡ length shards.now) }
    ensures vacant { IfOk result (λ desk. All (λ shard. shard.stand ≡ Vacant) desk.books.shards) }
{
    let domains = equal_domains(alloc, servers, MAX_DOMAIN_DOWN)?;
    let books = Books::new(alloc, servers, groups, shards, &domains)?;
    all_up_meets_caps();
    Ok(Desk::new(books, Tasks::new(AWAY)))
}

// A body that has applied nothing, for each shard.
fn bodies_of(alloc: Global, shards: u16) -> Option<Vec<CounterText>>
    ensures length { IfSome result (λ bodies. length bodies.items ≡ shards) }
    ensures initial { IfSome result (λ bodies. All (λ body. body.base ≡ []) bodies.items) }
    ensures before { IfSome result (λ bodies. All (λ body. body.before ≡ 0) bodies.items) }
    ensures empty { IfSome result (λ bodies. All (λ body. body.requests ≡ []) bodies.items) }
{
    let mut bodies = Vec::with_capacity(alloc, usize::from(shards)).ok()?;
    for _body in 0..shards {
        bodies.push(CounterText::new(alloc, KEPT)).ok()?;
    }
    Some(bodies)
}

/// A cluster of the plan's size with its clients, or none where a size, memory or a thread is refused.
pub(crate) fn start<R: Threads + Wait + Clone + Send + Drop + 'static>(
    rt: &R,
    alloc: Global,
    plan: Plan,
) -> Option<(Cluster<CounterText>, Vec<Client<CounterText>>)> {
    let (shards, clients) = (plan.shards, plan.clients);
    if shards == 0 || shards > MOST_SHARDS || plan.workers == 0 || clients == 0 {
        return None;
    }
    let setup = Setup {
        layout: layout_of(alloc, shards)?,
        desk: new_desk(alloc, plan.servers, shards)?,
        ceiling: CEILING,
    };
    let bodies = bodies_of(alloc, shards)?;
    let clients = clients.min(MOST_CLIENTS);
    Cluster::start(rt, alloc, setup, bodies, plan.workers, clients, Open).ok()
}

/// Assigns the shards to the servers in turn, and publishes them.
pub(crate) fn assign_all<R: Wait>(rt: &R, cluster: &mut Cluster<CounterText>, plan: Plan) {
    for number in 0..plan.shards {
        let server = ServerId::new(
            number
                .checked_rem(plan.servers)
                .unwrap_or(0)
                .wrapping_add(1),
        );
        if let (Some(k), Some(server)) = (ShardId::new(number), server) {
            assign(rt, cluster, k, server);
        }
    }
}

fn assign<R: Wait>(rt: &R, cluster: &mut Cluster<CounterText>, k: ShardId, server: ServerId) {
    let assigned = Command::Change(k, Change::Assign(server));
    if cluster.command(assigned).is_ok() {
        let _published = cluster.publish(rt, k).is_ok();
    }
}

/// How many requests the bodies have applied that a stop gives, once all clients are gone.
pub(crate) fn stop<R: Threads + Wait>(
    rt: &R,
    alloc: Global,
    cluster: Cluster<CounterText>,
) -> Option<u64> {
    let rows = cluster.stop(rt, Vec::new(alloc)).ok()?;
    Some(applied(&rows))
}

fn applied(rows: &[(Record, Option<CounterText>)]) -> u64 {
    let mut sum = 0u64;
    for (_, body) in rows {
        if let Some(body) = body {
            sum = sum
                .wrapping_add(body.first())
                .wrapping_add(body.kept() as u64);
        }
    }
    sum
}
