//! Migrations by the control, and by a board alone.
ghost use Rattle.std.specs.Prelude.{◌≡◌, [], All, IfOk, IfSome, IsTrue, None, length};
ghost use Rattle.sm_ranges.specs.declared.stand.Stand.TheVariants.{Vacant};
ghost use Rattle.sm_ownership.specs.Rules.{phase_fault};

use crate::rows::Rows;
use sm_control::Control;
use sm_desk::{Command, Desk};
use sm_ownership::change::Change;
use sm_place::{Books, BooksFault};
use sm_ranges::server_id::ServerId;
use sm_ranges::shard_id::ShardId;
use sm_ranges::stand::Stand;
use sm_rule::{Board, Chair};
use sm_service::CounterText;
use sm_tasks::Tasks;
use sm_tasks::laws::all_up_meets_caps;
use std::alloc::Global;

const SHARDS: u16 = 4096;

const KEPT: usize = 1_048_576;

const CEILING: u64 = (1 << 36) - 1;

/// What makes changes of shards.
pub(crate) trait Changing {
    /// Makes the change of the shard for the server, and says whether it was made.
    fn change(&mut self, k: ShardId, change: Change, server: ServerId) -> bool;
}

/// A board with its control.
#[derive(Drop)]
pub(crate) struct Controlled {
    board: Board<CounterText>,
    control: Control<CounterText>,
    ghost tied: { control.chair.board ≡ board },
}

impl Controlled {
    /// A board of vacant shards, or none where memory is refused.
    pub(crate) fn new(alloc: Global) -> Option<Controlled> {
        let desk = new_desk(alloc)?;
        let (board, chair) = new_board(alloc)?;
        Some(Controlled {
            board,
            control: Control::new(chair, desk),
        })
    }
}

impl Changing for Controlled {
    fn change(&mut self, k: ShardId, change: Change, _: ServerId) -> bool {
        self.control
            .command(&self.board, Command::Change(k, change))
            .is_ok()
    }
}

/// A board with its chair, beside books of vacant shards.
#[derive(Drop)]
pub(crate) struct Plain {
    board: Board<CounterText>,
    chair: Chair<CounterText>,
    books: Books,
    ghost full: { board.limits.count ≡ 4096 },
    ghost tied: { chair.board ≡ board },
}

impl Plain {
    /// A board of vacant shards and its books, or none where memory is refused.
    pub(crate) fn new(alloc: Global) -> Option<Plain> {
        let books = new_books(alloc)?;
        let (board, chair) = new_board(alloc)?;
        Some(Plain {
            board,
            chair,
            books,
        })
    }
}

fn new_books(alloc: Global) -> Option<Books> {
    let rows = Rows::new(alloc, SHARDS, 1).ok()?;
    rows.books(alloc).ok()
}

// Whether the stand allows the change.
fn allows(stand: Stand, change: &Change) -> bool
    ensures { IsTrue result → phase_fault stand change.now ≡ None }
{
    match change.apply_to(stand) {
        Ok(_) => true,
        Err(_) => false,
    }
}

impl Changing for Plain {
    // A look into the counters, and the change of the board.
    fn change(&mut self, k: ShardId, change: Change, server: ServerId) -> bool {
        if k.index() >= self.books.shards().len() || !self.books.knows(server) {
            return false;
        }
        self.books.fits(k, server).is_ok()
            && allows(self.chair.stand(k), &change)
            && self.board.change(&mut self.chair, k, change).is_ok()
    }
}

/// Gives each shard to a server, and says how many changes were made.
pub(crate) fn assign_all<C: Changing>(to: &mut C) -> u64 {
    let mut made = 0u64;
    for number in 0..SHARDS {
        if let (Some(k), Some(owner)) = (ShardId::new(number), ServerId::new(number / 2 + 1)) {
            made = made.wrapping_add(u64::from(to.change(k, Change::Assign(owner), owner)));
        }
    }
    made
}

/// Begins so many migrations of shards chosen at random to servers chosen at random and ends them, and says how many changes
/// were made.
pub(crate) fn migrate<C: Changing>(to: &mut C, migrations: u64) -> u64 {
    let mut state = 88_172_645_463_325_252u64;
    let mut made = 0u64;
    for _ in 0..migrations {
        state = next(state);
        let (k, server) = (
            ShardId::new((state >> 40 & 4095) as u16),
            ServerId::new((state >> 20 & 4095) as u16),
        );
        if let (Some(k), Some(server)) = (k, server) {
            made = made.wrapping_add(migrate_once(to, k, server));
        }
    }
    made
}

// How many of the four changes of a migration are made.
fn migrate_once<C: Changing>(to: &mut C, k: ShardId, next: ServerId) -> u64 {
    let changes = [
        Change::PrepareAddShard(next),
        Change::PrepareDropShard,
        Change::AddShard,
        Change::DropShard,
    ];
    let mut made = 0u64;
    for change in changes {
        made = made.wrapping_add(u64::from(to.change(k, change, next)));
    }
    made
}

// The next state of a pseudo-random choice (xorshift64).
fn next(state: u64) -> u64 {
    let state = state ^ (state << 13);
    let state = state ^ (state >> 7);
    state ^ (state << 17)
}

// A board of vacant shards and its chair.
fn new_board(alloc: Global) -> Option<(Board<CounterText>, Chair<CounterText>)>
    ensures count { IfSome result (λ made. made.0.limits.count ≡ 4096) }
    ensures chair { IfSome result (λ made. made.1 ≡ record { board = made.0; seen = [] }) }
{
    Board::make(alloc, new_bodies(alloc)?, CEILING).ok()
}

// Bodies that have applied nothing yet.
fn new_bodies(alloc: Global) -> Option<Vec<CounterText>>
    ensures length { IfSome result (λ bodies. length bodies.items ≡ 4096) }
    ensures initial { IfSome result (λ bodies. All (λ body. body.base ≡ []) bodies.items) }
    ensures before { IfSome result (λ bodies. All (λ body. body.before ≡ 0) bodies.items) }
    ensures empty { IfSome result (λ bodies. All (λ body. body.requests ≡ []) bodies.items) }
{
    let mut bodies = Vec::with_capacity(alloc, usize::from(SHARDS)).ok()?;
    for _body in 0..usize::from(SHARDS) {
        bodies.push(CounterText::new(alloc, KEPT)).ok()?;
    }
    Some(bodies)
}

// A desk of as many servers, groups and domains as there may be, which fit all shards.
fn new_desk(alloc: Global) -> Option<Desk>
    ensures count { IfSome result (λ desk. length desk.books.shards ≡ 4096) }
    ensures vacant { IfSome result (λ desk. All (λ shard. shard.stand ≡ Vacant) desk.books.shards) }
{
    let rows = Rows::new(alloc, SHARDS, 1).ok()?;
    if rows.shards.len() != usize::from(SHARDS) {
        return None;
    }
    desk_of(alloc, &rows).ok()
}

// A desk of the rows.
fn desk_of(alloc: Global, rows: &Rows) -> Result<Desk, BooksFault>
    ensures count { IfOk result (λ desk. length desk.books.shards ≡ length rows.now.shards.items) }
    ensures vacant { IfOk result (λ desk. All (λ shard. shard.stand ≡ Vacant) desk.books.shards) }
{
    let Rows {
        servers,
        groups,
        shards,
        domains,
    } = rows;
    let books = Books::new(alloc, servers, groups, shards, domains)?;
    all_up_meets_caps();
    Ok(Desk::new(books, Tasks::new(4095)))
}
