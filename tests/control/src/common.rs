//! Boards with a control, of which each test makes one.
ghost use Rattle.std.specs.Prelude.{◌≡◌, ◌<◌, ◌≤◌, All, IfOk, length};
ghost use Rattle.sm_ranges.specs.declared.stand.Stand.TheVariants.{Vacant};

use crate::running::Running;
use sm_desk::Desk;
use sm_ownership::record::Record;
use sm_place::{Books, BooksFault};
use sm_ranges::{ServerId, ShardId, Stand};
use sm_rows::limits::MAX_DOMAIN_DOWN;
use sm_rows::{GroupRow, ServerRow, ShardRow, equal_domains};
use sm_service::CounterText;
use sm_tasks::Tasks;
use sm_tasks::laws::all_up_meets_caps;
use std::alloc::{AllocError, Global};
use std::process::Abort;
use test_fixture::new_bodies;

// The shard with this number.
pub(crate) fn shard(number: u16) -> ShardId
    requires { number < 4096 }
    ensures { result ≡ number }
{
    let Some(k) = ShardId::new(number) else {
        unreachable!()
    };
    k
}

fn server_row(id: ServerId, domain: u16, capacity: u32) -> ServerRow {
    ServerRow {
        id,
        domain,
        capacity,
    }
}

// So many shards of load 1, of which the first may not be down.
fn shard_rows(alloc: Global, count: usize) -> Result<Vec<ShardRow>, AllocError>
    ensures { IfOk result (λ shards. length shards.items ≡ count) }
{
    let mut shards = vec![in alloc; ShardRow {
        group: 0,
        load: 1,
        cap: 1
    }; count]?;
    if let Some(first) = shards.first_mut() {
        first.cap = 0;
    }
    Ok(shards)
}

// A desk for the shards, of which as many as this may be in one domain. One of them and one server may be down.
fn desk_of(
    alloc: Global,
    servers: &[ServerRow],
    limit: u16,
    shards: &[ShardRow],
) -> Result<Desk, BooksFault>
    ensures count { IfOk result (λ desk. length desk.books.shards ≡ length shards.now) }
    ensures vacant { IfOk result (λ desk. All (λ shard. shard.stand ≡ Vacant) desk.books.shards) }
{
    let group = GroupRow { limit, down: 1 };
    let domains = equal_domains(alloc, servers, MAX_DOMAIN_DOWN)?;
    let books = Books::new(alloc, servers, &[group], shards, &domains)?;
    all_up_meets_caps();
    Ok(Desk::new(books, Tasks::new(1)))
}

// A desk for so many shards, and servers 1 to 3 of capacity 2, the first in a domain of its own.
fn new_desk(alloc: Global, count: usize) -> Result<Desk, BooksFault>
    ensures count { IfOk result (λ desk. length desk.books.shards ≡ count) }
    ensures vacant { IfOk result (λ desk. All (λ shard. shard.stand ≡ Vacant) desk.books.shards) }
{
    let servers = [
        server_row(ServerId::of(1), 0, 2),
        server_row(ServerId::of(2), 1, 2),
        server_row(ServerId::of(3), 1, 2),
    ];
    let shards = shard_rows(alloc, count)?;
    desk_of(alloc, &servers, 2, &shards)
}

// A desk for as many shards as there are, server 1 of room for all but one, and server 4,095 of room for one.
fn full_desk(alloc: Global) -> Result<Desk, BooksFault>
    ensures count { IfOk result (λ desk. length desk.books.shards ≡ 4096) }
    ensures vacant { IfOk result (λ desk. All (λ shard. shard.stand ≡ Vacant) desk.books.shards) }
{
    let servers = [
        server_row(ServerId::of(1), 0, 4_095),
        server_row(ServerId::of(4_095), 4_095, 1),
    ];
    let shards = shard_rows(alloc, 4_096)?;
    desk_of(alloc, &servers, 4_095, &shards)
}

/// A board with so many vacant shards below this ceiling, and its control.
pub(crate) fn new_running(
    rt: &impl Abort,
    alloc: Global,
    count: usize,
    ceiling: u64,
) -> Running<CounterText>
    requires { 1 ≤ count }
{
    let desk = new_desk(alloc, count).ok().expect(rt, "a desk");
    let bodies = new_bodies(alloc, count, 2_000).ok().expect(rt, "memory");
    Running::new(rt, alloc, bodies, desk, ceiling)
}

/// A board of as many vacant shards as there are, and its control of servers 1 and 4,095. The second has room for one shard.
pub(crate) fn new_full(rt: &impl Abort, alloc: Global) -> Running<CounterText> {
    let desk = full_desk(alloc).ok().expect(rt, "a desk");
    let bodies = new_bodies(alloc, 4_096, 2_000).ok().expect(rt, "memory");
    Running::new(rt, alloc, bodies, desk, 68_719_476_735)
}

pub(crate) fn idle(stand: Stand, generation: u64) -> Record {
    Record {
        stand,
        admitted: false,
        generation,
    }
}
