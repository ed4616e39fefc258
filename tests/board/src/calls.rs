//! What the tests of several services do on a board.
ghost use Rattle.std.specs.Prelude.{◌≡◌, ◌<◌, [], All, length, None, IsTrue, IfSome};
ghost use Rattle.sm_ownership.specs.Rules.{phase_fault};

use sm_body::service::{ApplyFault, Service};
use sm_ownership::change::Change;
use sm_ownership::mode::Mode;
use sm_ranges::server_id::ServerId;
use sm_ranges::shard_id::ShardId;
use sm_ranges::stand::Stand;
use sm_rule::board::Board;
use sm_rule::chair::Chair;
use sm_rule::pass::Pass;
use std::alloc::Global;

// The only shard of a board with one body.
pub(crate) fn first_shard() -> ShardId
    ensures { result ≡ 0 }
{
    let Some(k) = ShardId::new(0) else {
        unreachable!()
    };
    k
}

// What the shard's body replies under an admission of the pass, or why it refuses; none where the pass isn't admitted.
pub(crate) fn executed<S: Service>(
    board: &Board<S>,
    pass: &mut Pass<S>,
    k: ShardId,
    request: S::Request,
) -> Option<Result<S::Reply, ApplyFault>>
    requires board { pass.old.board ≡ board.now }
    requires shard { k < board.now.limits.count }
    requires free { pass.old.held ≡ None }
    ensures board { pass.new.board ≡ board.now }
    ensures free { pass.new.held ≡ None }
{
    let Ok(permit) = board.admit(pass, k, Mode::Direct) else {
        return None;
    };
    let (applied, _) = board.execute(pass, permit, request);
    match applied {
        Ok(reply) => Some(Ok(reply)),
        Err((_, fault)) => Some(Err(fault)),
    }
}

// What the shard's body replies, as `served` says, where it applies the request before the admission is finished.
pub(crate) fn applied<S: Service>(
    board: &Board<S>,
    pass: &mut Pass<S>,
    k: ShardId,
    request: S::Request,
) -> Option<S::Reply>
    requires board { pass.old.board ≡ board.now }
    requires shard { k < board.now.limits.count }
    requires free { pass.old.held ≡ None }
    ensures board { pass.new.board ≡ board.now }
    ensures free { pass.new.held ≡ None }
{
    let Ok(mut permit) = board.admit(pass, k, Mode::Direct) else {
        return None;
    };
    match permit.body().apply(request) {
        Ok(reply) => {
            board.finish(pass, permit);
            Some(reply)
        }
        Err(_) => {
            board.finish(pass, permit);
            None
        }
    }
}

// Whether the stand allows the change.
fn allows(stand: Stand, change: &Change) -> bool
    ensures { IsTrue result → phase_fault stand change.now ≡ None }
{
    match change.apply_to(stand) {
        Ok(_) => true,
        Err(_) => false,
    }
}

// Makes the change where the shard's stand allows it, and whether it was made.
pub(crate) fn changed<S: Service>(
    board: &Board<S>,
    chair: &mut Chair<S>,
    k: ShardId,
    change: Change,
) -> bool
    requires board { chair.old.board ≡ board.now }
    requires shard { k < board.now.limits.count }
    ensures { chair.new.board ≡ board.now }
{
    allows(chair.stand(k), &change) && board.change(chair, k, change).is_ok()
}
