ghost use Rattle.std.specs.Prelude.{All, ◌≡◌, ◌<◌, IfSome, [], length};

use crate::choice::SHARDS;
use crate::request::layout_of;
use sm_body::Boxed;
use sm_ownership::change::Change;
use sm_ranges::layout::Layout;
use sm_ranges::server_id::ServerId;
use sm_ranges::shard_id::ShardId;
use sm_ranges::stand::Stand;
use sm_rule::{Board, Chair};
use sm_service::CounterText;
use std::alloc::Global;

// So many requests a shard keeps at most.
const KEPT: usize = 100_000_000;

const CEILING: u64 = (1 << 36) - 1;

/// The body of a shard, of which an admission moves the pointer alone.
pub(crate) type Body = Boxed<CounterText>;

/// A board of 4,096 shards that server 1 serves, and the layout of their keys.
#[derive(Drop)]
pub(crate) struct Site {
    pub(crate) board: Board<Body>,
    pub(crate) layout: Layout,
    ghost full: { board.limits.count ≡ 4096 },
}

impl Site {
    /// The site, or none where memory is refused.
    pub(crate) fn make(alloc: Global) -> Option<Site> {
        let layout = layout_of(alloc)?;
        let (board, mut chair) = Board::make(alloc, bodies_of(alloc)?, CEILING).ok()?;
        assign_all(&board, &mut chair);
        Some(Site { board, layout })
    }
}

// Gives all shards to server 1.
fn assign_all(board: &Board<Body>, chair: &mut Chair<Body>)
    requires board { chair.old.board ≡ board.now }
    requires full { board.now.limits.count ≡ 4096 }
{
    for number in 0..SHARDS {
        if let Some(k) = ShardId::new(number) {
            assign(board, chair, k);
        }
    }
}

fn assign(board: &Board<Body>, chair: &mut Chair<Body>, k: ShardId)
    requires board { chair.old.board ≡ board.now }
    requires full { board.now.limits.count ≡ 4096 }
    ensures { chair.new.board ≡ board.now }
{
    if let Stand::Vacant = chair.stand(k) {
        let _refused = board
            .change(chair, k, Change::Assign(ServerId::of(1)))
            .is_err();
    }
}

/// A body that has applied nothing, for each shard.
pub(crate) fn bodies_of(alloc: Global) -> Option<Vec<Body>>
    ensures length { IfSome result (λ bodies. length bodies.items ≡ 4096) }
    ensures initial { IfSome result (λ bodies. All (λ body. body.base ≡ []) bodies.items) }
    ensures before { IfSome result (λ bodies. All (λ body. body.before ≡ 0) bodies.items) }
    ensures empty { IfSome result (λ bodies. All (λ body. body.requests ≡ []) bodies.items) }
{
    let mut bodies = Vec::with_capacity(alloc, usize::from(SHARDS)).ok()?;
    for _body in 0..usize::from(SHARDS) {
        let body = Boxed::new(alloc, CounterText::new(alloc, KEPT)).ok()?;
        bodies.push(body).ok()?;
    }
    Some(bodies)
}
