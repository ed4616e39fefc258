//! What two passes of one board know of each other, while shards move.
ghost use Rattle.std.specs.Arc.{arc_value};
ghost use Rattle.std.specs.Prelude.{◌≡◌, ◌≢◌, ◌<◌, None, IfSome};
ghost use Rattle.sm_ownership.specs.declared.entry.Ending.{Ending};
ghost use Rattle.sm_rule.specs.Admissions.{HoldsPermit};
ghost use Rattle.sm_rule.specs.Boards.{limit_at};
ghost use Rattle.sm_rule.specs.Bodies.{Keeps};
ghost use Rattle.sm_rule.specs.Views.{EndsWith};

use crate::calls::{changed, first_shard};
use crate::rule::two_owned;
use sm_body::service::Service;
use sm_ownership::change::Change;
use sm_ownership::mode::Mode;
use sm_ranges::{ServerId, ShardId};
use sm_rule::{Board, Chair, Front, Pass, Permit};
use sm_service::CounterText;
use std::alloc::Global;
use std::process::Abort;
use std::sync::Arc;
use std::thread;
use std::thread::{JoinHandle, Threads};

const THREADS: usize = 8;

// The second shard of a board.
fn second_shard() -> ShardId
    ensures { result ≡ 1 }
{
    let Some(k) = ShardId::new(1) else {
        unreachable!()
    };
    k
}

// Ends two admissions that stand at one moment: they are of different shards.
fn ended<S: Service>(
    board: &Board<S>,
    one: &mut Pass<S>,
    first: Permit<S>,
    other: &mut Pass<S>,
    second: Permit<S>,
) -> (Front, Front)
    requires one { one.old.board ≡ board.now }
    requires other { other.old.board ≡ board.now }
    requires first { HoldsPermit one.old first }
    requires second { HoldsPermit other.old second }
    requires first_body { (ending : Ending S.Request)
        × EndsWith (Keeps S.initial S.next S.base S.before S.requests) one.old.held first.body ending }
    requires second_body { (ending : Ending S.Request)
        × EndsWith (Keeps S.initial S.next S.base S.before S.requests) other.old.held second.body ending }
    requires first_limit { S.limit first.body ≡ limit_at board.now.limits first.shard }
    requires second_limit { S.limit second.body ≡ limit_at board.now.limits second.shard }
    ensures one { (one.new.board ≡ board.now) × (one.new.held ≡ None) }
    ensures other { (other.new.board ≡ board.now) × (other.new.held ≡ None) }
    ensures apart { first.shard ≢ second.shard }
{
    board.apart(one, &first, other, &second);
    (board.finish(one, first), board.finish(other, second))
}

// Where the ends of two admissions leave these shards, which two passes held at once; none where one of the two was
// refused. It succeeds for different shards alone.
fn held_at_once<S: Service>(
    board: &Board<S>,
    one: &mut Pass<S>,
    k: ShardId,
    other: &mut Pass<S>,
    j: ShardId,
) -> Option<(Front, Front)>
    requires one { one.old.board ≡ board.now }
    requires other { other.old.board ≡ board.now }
    requires shards { (k < board.now.limits.count) × (j < board.now.limits.count) }
    requires free { (one.old.held ≡ None) × (other.old.held ≡ None) }
    ensures one { (one.new.board ≡ board.now) × (one.new.held ≡ None) }
    ensures other { (other.new.board ≡ board.now) × (other.new.held ≡ None) }
    ensures apart { IfSome result (λ _. k ≢ j) }
{
    let Ok(first) = board.admit(one, k, Mode::Direct) else {
        return None;
    };
    match board.admit(other, j, Mode::Direct) {
        Ok(second) => Some(ended(board, one, first, other, second)),
        Err(_) => {
            board.finish(one, first);
            None
        }
    }
}

// A pass of each of two servers, which are sent to a thread with their board.
#[derive(Drop)]
struct Pair {
    board: Arc<Board<CounterText>>,
    one: Pass<CounterText>,
    other: Pass<CounterText>,
    ghost one_tied: { one.board ≡ arc_value board },
    ghost other_tied: { other.board ≡ arc_value board },
    ghost free: { (one.held ≡ None) × (other.held ≡ None) },
}

/// How often both shards were held at once, and how often one of them by both passes.
#[derive(Clone, Copy, Debug, PartialEq, Drop)]
struct Held {
    both: u32,
    one_twice: u32,
}

impl Pair {
    // Tries so many times.
    fn holds(mut self, tries: u32) -> Held {
        let mut held = Held {
            both: 0,
            one_twice: 0,
        };
        let (k, j, mut last) = (first_shard(), second_shard(), 0u64);
        for _ in 0..tries {
            // Of two admissions, the later one has the greater generation.
            if let Some(generation) = self.generation(k, j).or(self.generation(j, k))
                && generation > last
            {
                held.both = held.both.saturating_add(1);
                last = generation;
            }
            if self.generation(k, k).is_some() {
                held.one_twice = held.one_twice.saturating_add(1);
            }
        }
        held
    }

    // The greater generation of these shards after they were held at once; none where one was refused.
    fn generation(&mut self, k: ShardId, j: ShardId) -> Option<u64> {
        let count = self.board.count();
        if u32::from(k.number()) >= count || u32::from(j.number()) >= count {
            return None;
        }
        let (one, other) = held_at_once(&self.board, &mut self.one, k, &mut self.other, j)?;
        Some(one.generation.max(other.generation))
    }
}

// New passes of servers 1 and 2, with their board.
fn pair_of<R: Abort>(rt: &R, board: &Arc<Board<CounterText>>) -> Pair {
    let one = board.pass(Some(ServerId::of(1)));
    let other = board.pass(Some(ServerId::of(2)));
    Pair {
        board: Arc::try_clone(board).ok().expect(rt, "memory"),
        one,
        other,
    }
}

// The chair of a board, which moves shards.
#[derive(Drop)]
struct Mover {
    board: Arc<Board<CounterText>>,
    chair: Chair<CounterText>,
    ghost tied: { chair.board ≡ arc_value board },
}

impl Mover {
    // Moves both shards between servers 1 and 2, so many times or, where passes are quicker, less often.
    fn moves(&mut self, rounds: u32) {
        for _ in 0..rounds {
            self.go_on(first_shard(), ServerId::of(2));
            self.go_on(second_shard(), ServerId::of(1));
            self.go_on(first_shard(), ServerId::of(1));
            self.go_on(second_shard(), ServerId::of(2));
        }
    }

    // Makes those changes of a migration to this server that the shard's stand allows.
    fn go_on(&mut self, k: ShardId, next: ServerId) {
        if u32::from(k.number()) < self.board.count() {
            changed(
                &self.board,
                &mut self.chair,
                k,
                Change::PrepareAddShard(next),
            );
            changed(&self.board, &mut self.chair, k, Change::PrepareDropShard);
            changed(&self.board, &mut self.chair, k, Change::AddShard);
            changed(&self.board, &mut self.chair, k, Change::DropShard);
        }
    }
}

// A mover of a board of two shards, which servers 1 and 2 own.
fn new_mover<R: Abort>(rt: &R, alloc: Global) -> Mover {
    let (board, chair) = two_owned(rt, alloc);
    Mover {
        board: Arc::new(alloc, board).ok().expect(rt, "memory"),
        chair,
    }
}

// Threads with a pair each, which tries so many times.
fn holders<R: Threads + Abort>(
    rt: &R,
    alloc: Global,
    board: &Arc<Board<CounterText>>,
    tries: u32,
) -> Vec<JoinHandle<Held>> {
    let mut threads = Vec::new(alloc);
    for _ in 0..THREADS {
        let pair = pair_of(rt, board);
        let thread = thread::spawn(rt, move || pair.holds(tries)).ok();
        threads
            .push(thread.expect(rt, "a thread"))
            .ok()
            .expect(rt, "memory");
    }
    threads
}

#[test]
fn permits_are_apart(rt: HostRuntime) {
    let alloc = rt.alloc();
    let mover = new_mover(&rt, alloc);
    let all = Held {
        both: 10,
        one_twice: 0,
    };
    assert!(rt; pair_of(&rt, &mover.board).holds(10) == all);
}

#[test]
fn permits_are_apart_beside_migrations(rt: HostRuntime) {
    let alloc = rt.alloc();
    let mut mover = new_mover(&rt, alloc);
    let threads = holders(&rt, alloc, &mover.board, 1_000);
    mover.moves(1_000);
    let mut both = 0u32;
    for thread in threads {
        let held = thread.join(&rt);
        assert!(rt; held.one_twice == 0);
        both = both.saturating_add(held.both);
    }
    assert!(rt; both > 0);
}
