ghost use Rattle.std.specs.Prelude.{◌≡◌, ◌<◌, IfOk, map, replicate};
ghost use Rattle.sm_ranges.specs.declared.stand.Stand.TheVariants.{Vacant};
ghost use Rattle.sm_tasks.specs.Caps.{MeetsCaps};

use sm_place::{Books, BooksFault};
use sm_ranges::server_id::ServerId;
use sm_ranges::shard_id::ShardId;
use sm_rows::{GroupRow, ServerRow, ShardRow, equal_domains};
use sm_tasks::laws::all_up_meets_caps;
use std::alloc::{AllocError, Global};

// The shard of this number.
pub fn shard(number: u16) -> ShardId
    requires { number < 4096 }
{
    let Some(k) = ShardId::new(number) else {
        unreachable!()
    };
    k
}

// Rows of servers in a domain each.
fn server_rows(alloc: Global, servers: &[ServerId]) -> Result<Vec<ServerRow>, AllocError> {
    let mut rows = Vec::with_capacity(alloc, servers.len())?;
    for server in servers {
        rows.push(ServerRow {
            id: *server,
            domain: server.number(),
            capacity: 4,
        })?;
    }
    Ok(rows)
}

// Books of servers in a domain each, and of so many vacant shards of one group. No more than one of the shards may be down.
pub fn new_books(alloc: Global, count: usize, servers: &[ServerId]) -> Result<Books, BooksFault>
    ensures caps { IfOk result (λ books. MeetsCaps (record { ops = 1 }) books) }
    ensures vacant { IfOk result (λ books. map (λ shard. shard.stand) books.shards ≡ replicate count Vacant) }
{
    let rows = server_rows(alloc, servers)?;
    let row = ShardRow {
        group: 0,
        load: 1,
        cap: 1,
    };
    let shards = vec![in alloc; row; count]?;
    let domains = equal_domains(alloc, &rows, 1)?;
    all_up_meets_caps();
    let group = GroupRow { limit: 4, down: 1 };
    Ok(Books::new(alloc, &rows, &[group], &shards, &domains)?)
}
