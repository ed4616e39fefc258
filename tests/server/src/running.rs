//! A board of 64 shards and its control.
ghost use Rattle.std.specs.Prelude.{◌≡◌, ◌≤◌, [], All, IfOk, length};
ghost use Rattle.sm_ranges.specs.declared.stand.Stand.TheVariants.{Vacant};

use sm_control::Control;
use sm_desk::Desk;
use sm_place::{Books, BooksFault};
use sm_ranges::ServerId;
use sm_rows::limits::MAX_DOMAIN_DOWN;
use sm_rows::{GroupRow, ServerRow, ShardRow, equal_domains};
use sm_rule::Board;
use sm_service::{CounterText, Service};
use sm_tasks::Tasks;
use sm_tasks::laws::all_up_meets_caps;
use std::alloc::{AllocError, Global};
use std::process::Abort;
use test_fixture::new_bodies;

/// The most requests that a shard keeps.
pub(crate) const LIMIT: usize = 1_000_000;

/// How many shards the board has.
pub(crate) const SHARDS: u16 = 64;

/// A board with its control.
#[derive(Drop)]
pub(crate) struct Running<S: Service> {
    pub(crate) board: Board<S>,
    pub(crate) control: Control<S>,
    ghost tied: { control.chair.board ≡ board },
}

impl<S: Service> Running<S> {
    // A board with these bodies, and a control at this desk.
    fn new(rt: &impl Abort, alloc: Global, bodies: Vec<S>, desk: Desk) -> Running<S>
        requires count { length desk.books.shards ≡ length bodies.items }
        requires vacant { All (λ shard. shard.stand ≡ Vacant) desk.books.shards }
        requires initial { All (λ body. S.base body ≡ S.initial) bodies.items }
        requires before { All (λ body. S.before body ≡ 0) bodies.items }
        requires empty { All (λ body. S.requests body ≡ []) bodies.items }
    {
        let (board, chair) = Board::make(alloc, bodies, 1_000_000_000)
            .ok()
            .expect(rt, "a board");
        Running {
            board,
            control: Control::new(chair, desk),
        }
    }
}

/// A board of vacant shards, and its control.
pub(crate) fn new_running(rt: &impl Abort, alloc: Global) -> Running<CounterText> {
    let desk = new_desk(alloc).ok().expect(rt, "a desk");
    let bodies = new_bodies(alloc, usize::from(SHARDS), LIMIT)
        .ok()
        .expect(rt, "memory");
    Running::new(rt, alloc, bodies, desk)
}

fn server_row(id: ServerId, domain: u16) -> ServerRow {
    ServerRow {
        id,
        domain,
        capacity: 64,
    }
}

// A desk of the shards, and of two servers that have room for all of them.
fn new_desk(alloc: Global) -> Result<Desk, BooksFault>
    ensures count { IfOk result (λ desk. length desk.books.shards ≡ 64) }
    ensures vacant { IfOk result (λ desk. All (λ shard. shard.stand ≡ Vacant) desk.books.shards) }
{
    let servers = [
        server_row(ServerId::of(1), 0),
        server_row(ServerId::of(2), 1),
    ];
    let shards = shard_rows(alloc)?;
    desk_of(alloc, &servers, &shards)
}

// The rows of the shards, of load 1 each.
fn shard_rows(alloc: Global) -> Result<Vec<ShardRow>, AllocError>
    ensures { IfOk result (λ shards. length shards.items ≡ 64) }
{
    let row = ShardRow {
        group: 0,
        load: 1,
        cap: 1,
    };
    vec![in alloc; row; 64]
}

// A desk of these rows, whose shards are of one group.
fn desk_of(alloc: Global, servers: &[ServerRow], shards: &[ShardRow]) -> Result<Desk, BooksFault>
    ensures count { IfOk result (λ desk. length desk.books.shards ≡ length shards.now) }
    ensures vacant { IfOk result (λ desk. All (λ shard. shard.stand ≡ Vacant) desk.books.shards) }
{
    let group = GroupRow {
        limit: 64,
        down: 64,
    };
    let domains = equal_domains(alloc, servers, MAX_DOMAIN_DOWN)?;
    let books = Books::new(alloc, servers, &[group], shards, &domains)?;
    all_up_meets_caps();
    Ok(Desk::new(books, Tasks::new(1)))
}
