//! What a cluster of one shard of two servers is started from.
ghost use Rattle.std.specs.Prelude.{◌≡◌, All, IfOk, length};
ghost use Rattle.sm_ranges.specs.declared.stand.Stand.TheVariants.{Vacant};

use sm_cluster::Setup;
use sm_desk::Desk;
use sm_place::{Books, BooksFault};
use sm_ranges::{Layout, ServerId};
use sm_rows::limits::MAX_DOMAIN_DOWN;
use sm_rows::{GroupRow, ServerRow, ShardRow, equal_domains};
use sm_tasks::Tasks;
use sm_tasks::laws::all_up_meets_caps;
use std::alloc::Global;
use std::test::Fail;

// A server with room for the shard, in a domain of its own.
fn server_row(id: ServerId, domain: u16) -> ServerRow {
    ServerRow {
        id,
        domain,
        capacity: 1,
    }
}

// Servers 1 and 2, of which one may be down.
fn desk_of(alloc: Global) -> Result<Desk, BooksFault>
    ensures count { IfOk result (λ desk. length desk.books.shards ≡ 1) }
    ensures vacant { IfOk result (λ desk. All (λ shard. shard.stand ≡ Vacant) desk.books.shards) }
{
    let servers = [
        server_row(ServerId::of(1), 0),
        server_row(ServerId::of(2), 1),
    ];
    let group = GroupRow { limit: 1, down: 1 };
    let shard = ShardRow {
        group: 0,
        load: 1,
        cap: 1,
    };
    let domains = equal_domains(alloc, &servers, MAX_DOMAIN_DOWN)?;
    let books = Books::new(alloc, &servers, &[group], &[shard], &domains)?;
    all_up_meets_caps();
    Ok(Desk::new(books, Tasks::new(1)))
}

/// One shard has all keys.
pub(crate) fn setup_of(alloc: Global) -> Result<Setup, Fail>
    ensures ceiling { IfOk result (λ setup. setup.ceiling ≡ 1000000000) }
    ensures count { IfOk result (λ setup. length setup.desk.books.shards ≡ 1) }
    ensures vacant { IfOk result (λ setup. All (λ shard. shard.stand ≡ Vacant) setup.desk.books.shards) }
{
    Ok(Setup {
        layout: Layout::new(alloc, &[b""])?,
        desk: desk_of(alloc)?,
        ceiling: 1_000_000_000,
    })
}
