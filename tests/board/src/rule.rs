//! What passes and the chair do on a board of counters.
ghost use Rattle.std.specs.Arc.{arc_value};
ghost use Rattle.std.specs.Prelude.{◌≡◌, ◌<◌, None, IfOk, All, [], length};

use crate::calls::{executed, first_shard};
use crate::fixture::{Fixture, Left, left_at};
use sm_ownership::admit_fault::AdmitFault;
use sm_ownership::change::Change;
use sm_ownership::mode::Mode;
use sm_ownership::record::Record;
use sm_ranges::{Key, ServerId, ShardId, Stand};
use sm_rule::{Board, Chair, ChangeRefusal, Front, MakeFault, Pass, Permit};
use sm_service::{Bytes, CounterText, Request};
use std::alloc::{AllocError, Global};
use std::mem::ManuallyDrop;
use std::process::Abort;
use std::sync::{Arc, Wait};
use std::test::Fail;
use std::thread;
use std::thread::Threads;

// The shard with this number.
fn shard(number: u16) -> ShardId
    requires { number < 4096 }
    ensures { result ≡ number }
{
    let Some(k) = ShardId::new(number) else {
        unreachable!()
    };
    k
}

// So many bodies that have applied nothing yet. Each may keep so many requests or, without a limit, as its place in the list says.
fn bodies(alloc: Global, count: usize, limit: Option<usize>) -> Result<Vec<CounterText>, AllocError>
    ensures initial { IfOk result (λ bodies. All (λ body. body.base ≡ []) bodies.items) }
    ensures before { IfOk result (λ bodies. All (λ body. body.before ≡ 0) bodies.items) }
    ensures empty { IfOk result (λ bodies. All (λ body. body.requests ≡ []) bodies.items) }
{
    let mut bodies = Vec::with_capacity(alloc, count)?;
    for place in 0..count {
        bodies.push(CounterText::new(alloc, limit.unwrap_or(place)))?;
    }
    Ok(bodies)
}

// A vacant shard of a board of so many, and a pass without a server.
fn vacant<R: Abort>(
    rt: &R,
    alloc: Global,
    count: usize,
    ceiling: u64,
    k: ShardId,
) -> Fixture<CounterText> {
    let bodies = bodies(alloc, count, Some(2_000)).ok().expect(rt, "memory");
    Fixture::new(rt, alloc, bodies, ceiling, k)
}

// The only shard of a board, which is vacant, and a pass without a server.
pub(crate) fn alone<R: Abort>(rt: &R, alloc: Global, ceiling: u64) -> Fixture<CounterText> {
    vacant(rt, alloc, 1, ceiling, first_shard())
}

// The only shard of a board, which server 1 owns, and a pass of that server.
pub(crate) fn owned<R: Abort>(rt: &R, alloc: Global, ceiling: u64) -> Fixture<CounterText> {
    let mut fixture = alone(rt, alloc, ceiling);
    fixture.assign(rt, ServerId::of(1));
    fixture
}

// A board of two shards, which servers 1 and 2 own, and its chair.
pub(crate) fn two_owned<R: Abort>(rt: &R, alloc: Global) -> (Board<CounterText>, Chair<CounterText>)
    ensures { result.1.board ≡ result.0 }
{
    let mut fixture = vacant(rt, alloc, 2, 1_000_000, first_shard());
    fixture.assign(rt, ServerId::of(1));
    fixture.go_on_at(rt, shard(1));
    fixture.assign(rt, ServerId::of(2));
    let (board, chair, _) = fixture.parts();
    (board, chair)
}

fn put_of(alloc: Global) -> Option<Request> {
    let key = Key::new(alloc, b"a").ok()?;
    Some(Request::Put(key, Bytes::new(alloc, b"x").ok()?))
}

// Has the shard's body apply a put under an admission of the pass, which is ended. None where it isn't applied.
pub(crate) fn put(fixture: &mut Fixture<CounterText>, alloc: Global) -> Option<Front> {
    fixture.front_after(put_of(alloc)?)
}

pub(crate) fn serving(owner: ServerId, admitted: bool, generation: u64) -> Record {
    Record {
        stand: Stand::Serving(owner),
        admitted,
        generation,
    }
}

fn front_at(shard: ShardId, generation: u64) -> Front {
    Front { shard, generation }
}

// What is left of a shard that server 1 owns, the only one of its board, of which no checkpoint was made.
pub(crate) fn left(generation: u64, kept: usize) -> Left {
    Left {
        count: 1,
        record: serving(ServerId::of(1), false, generation),
        body: Some((0, kept)),
    }
}

// A look of a pass that was made before all that happens.
#[test]
fn stale_pass_looks(rt: HostRuntime) {
    let owner = ServerId::of(1);
    let mut fixture = alone(&rt, rt.alloc(), 3);
    assert!(rt; fixture.change(Change::Assign(owner)));
    // A look that answers from what it saw before (look_from_memory) fails here.
    assert!(rt; fixture.look() == serving(owner, false, 1));
    assert!(rt; fixture.server() == None);
}

#[test]
fn chair_knows_the_stand(rt: HostRuntime) {
    let owner = ServerId::of(1);
    let mut fixture = alone(&rt, rt.alloc(), 3);
    assert!(rt; fixture.stand() == Stand::Vacant);
    assert!(rt; fixture.change(Change::Assign(owner)));
    assert!(rt; fixture.stand() == Stand::Serving(owner));
    assert!(rt; fixture.look_chair() == serving(owner, false, 1));
}

// While a pass is admitted, the chair can't change the stand, and the refused change leaves the record as it was.
#[test]
fn admitted_shard_is_busy(rt: HostRuntime) {
    let owner = ServerId::of(1);
    let mut fixture = owned(&rt, rt.alloc(), 3);
    let (refusal, seen, left) = fixture.pause_while_admitted(&rt);
    assert!(rt; refusal == Some(ChangeRefusal::Busy(serving(owner, true, 2))));
    assert!(rt; seen == serving(owner, true, 2));
    assert!(rt; left == 3);
}

// One admission and its end reach ceiling 3, beyond which there is nothing more.
#[test]
fn generations_are_spent(rt: HostRuntime) {
    let mut fixture = owned(&rt, rt.alloc(), 3);
    assert!(rt; fixture.generation_left() == Some(3));
    let last = serving(ServerId::of(1), false, 3);
    assert!(rt; fixture.is_refused(AdmitFault::Spent, last));
    assert!(rt; fixture.pause_refusal() == Some(ChangeRefusal::Spent(last)));
    assert!(rt; fixture.look() == last);
}

#[test]
fn refusal_is_the_fault(rt: HostRuntime) {
    let owner = ServerId::of(1);
    let (board, _, _) = alone(&rt, rt.alloc(), 3).parts();
    let last = serving(owner, false, 3);
    let spent = board.refusal(&last, Some(owner), Mode::Direct);
    assert!(rt; spent == Some(AdmitFault::Spent));
    let nobody = board.refusal(&last, None, Mode::Direct);
    assert!(rt; nobody == Some(AdmitFault::NotExecutor));
}

// A refusal leaves the generation of the shard, at the greatest shard and server too, and the next admission is the first.
#[test]
fn refusals_leave_generations(rt: HostRuntime) {
    let owner = ServerId::of(4_095);
    let mut fixture = vacant(&rt, rt.alloc(), 4_096, 9, shard(4_095));
    assert!(rt; fixture.change(Change::Assign(owner)));
    fixture.go_on_as(Some(ServerId::of(4_094)));
    assert!(rt; fixture.is_refused(AdmitFault::NotExecutor, serving(owner, false, 1)));
    fixture.go_on_as(Some(owner));
    assert!(rt; fixture.generation_left() == Some(3));
}

// What happens at one shard leaves the generations of the others.
#[test]
fn other_shards_stay_vacant(rt: HostRuntime) {
    let mut fixture = vacant(&rt, rt.alloc(), 8, 9, shard(6));
    fixture.assign(&rt, ServerId::of(7));
    assert!(rt; fixture.generation_left() == Some(3));
    let vacant = Record {
        stand: Stand::Vacant,
        admitted: false,
        generation: 0,
    };
    fixture.go_on_at(&rt, shard(5));
    assert!(rt; fixture.is_refused(AdmitFault::Vacant, vacant));
}

// A body goes out with a permit, and comes home with what it has gained.
#[test]
fn body_comes_home(rt: HostRuntime) {
    let alloc = rt.alloc();
    let mut fixture = owned(&rt, alloc, 1_000);
    assert!(rt; put(&mut fixture, alloc) == Some(front_at(first_shard(), 3)));
    assert!(rt; fixture.generation_left() == Some(5));
    assert!(rt; fixture.end() == Some(left(5, 1)));
}

// The board, its chair and the pass of server 1, which was admitted to the first shard once.
fn admitted_once<R: Abort>(
    rt: &R,
    alloc: Global,
) -> (Board<CounterText>, Chair<CounterText>, Pass<CounterText>)
    ensures count { 0 < result.0.limits.count }
    ensures chair { result.1.board ≡ result.0 }
    ensures pass { result.2.board ≡ result.0 }
    ensures free { result.2.held ≡ None }
{
    let mut fixture = owned(rt, alloc, 1_000);
    assert!(rt; fixture.generation_left() == Some(3));
    fixture.parts()
}

#[test]
fn admits_again_and_closes(rt: HostRuntime) -> Result<(), Fail> {
    let k = first_shard();
    let (board, chair, mut pass) = admitted_once(&rt, rt.alloc());
    let Ok(permit) = board.admit(&mut pass, k, Mode::Direct) else {
        return Err("the pass is admitted again".into());
    };
    assert_eq!(rt; board.finish(&mut pass, permit), front_at(k, 5));
    let rows = board.close(chair, pass);
    assert!(rt; rows.len() == 1);
    Ok(())
}

// Each of 4,096 bodies is that of its own shard: the first may keep nothing, and the last something.
#[test]
fn bodies_keep_their_places(rt: HostRuntime) {
    let (alloc, owner) = (rt.alloc(), ServerId::of(1));
    let bodies = bodies(alloc, 4_096, None).ok().expect(&rt, "memory");
    let mut fixture = Fixture::new(&rt, alloc, bodies, 9, first_shard());
    fixture.assign(&rt, owner);
    assert!(rt; put(&mut fixture, alloc).is_none());
    fixture.go_on_at(&rt, shard(4_095));
    fixture.assign(&rt, owner);
    assert!(rt; put(&mut fixture, alloc).is_some());
}

// The rows of a board that is closed while the pass is admitted to the first shard, whose permit is never spent.
fn rows_with_permit_out<R: Abort>(
    rt: &R,
    board: Board<CounterText>,
    chair: Chair<CounterText>,
    mut pass: Pass<CounterText>,
) -> Vec<(Record, Option<CounterText>)>
    requires count { 0 < board.limits.count }
    requires chair { chair.board ≡ board }
    requires pass { pass.board ≡ board }
    requires free { pass.held ≡ None }
{
    let permit: Permit<CounterText> = board
        .admit(&mut pass, first_shard(), Mode::Direct)
        .ok()
        .expect(rt, "the pass is admitted");
    let last = board.pass(None);
    let rows = board.close(chair, last);
    let _unspent = unsafe { ManuallyDrop::new_unchecked(permit) };
    rows
}

// No permit can be dropped; a board whose body is still out leaves none for its shard.
#[test]
fn permit_is_never_spent(rt: HostRuntime) {
    let mut fixture = vacant(&rt, rt.alloc(), 2, 1_000, first_shard());
    fixture.assign(&rt, ServerId::of(1));
    let (board, chair, pass) = fixture.parts();
    let rows = rows_with_permit_out(&rt, board, chair, pass);
    let busy = Left {
        count: 2,
        record: serving(ServerId::of(1), true, 2),
        body: None,
    };
    assert!(rt; left_at(&rows, shard(0)) == Some(busy));
    assert!(rt; rows.len() == 2 && rows[1].1.is_some());
}

// A pass that is sent to a thread with its board.
#[derive(Drop)]
struct Worker {
    board: Arc<Board<CounterText>>,
    pass: Pass<CounterText>,
    ghost tied: { pass.board ≡ arc_value board },
    ghost free: { pass.held ≡ None },
}

impl Worker {
    // Tries so many puts at the shard, and gives the number of those that are applied.
    fn puts(mut self, alloc: Global, k: ShardId, tries: u32) -> u32 {
        let mut made = 0u32;
        for _ in 0..tries {
            if self.puts_one(alloc, k) {
                made = made.saturating_add(1);
            }
        }
        made
    }

    fn puts_one(&mut self, alloc: Global, k: ShardId) -> bool {
        let Some(request) = put_of(alloc) else {
            return false;
        };
        if u32::from(k.number()) >= self.board.count() {
            return false;
        }
        matches!(
            executed(&self.board, &mut self.pass, k, request),
            Some(Ok(_))
        )
    }
}

// A new pass of the server, with its board.
fn new_worker<R: Abort>(rt: &R, board: &Arc<Board<CounterText>>, owner: ServerId) -> Worker {
    let pass = board.pass(Some(owner));
    Worker {
        board: Arc::try_clone(board).ok().expect(rt, "memory"),
        pass,
    }
}

// How many puts two threads of the owner have the first shard apply, of so many tries each.
fn put_by_two<R: Threads + Wait + Abort>(
    rt: &R,
    alloc: Global,
    board: &Arc<Board<CounterText>>,
    tries: u32,
) -> u32 {
    let (k, owner) = (first_shard(), ServerId::of(1));
    let first = new_worker(rt, board, owner);
    let second = new_worker(rt, board, owner);
    let one_thread = thread::spawn(rt, move || first.puts(alloc, k, tries))
        .ok()
        .expect(rt, "a thread");
    let other_thread = thread::spawn(rt, move || second.puts(alloc, k, tries))
        .ok()
        .expect(rt, "a thread");
    one_thread.join(rt).saturating_add(other_thread.join(rt))
}

// What is left of the first shard of a board that no thread has any more.
fn left_alone<R: Abort>(
    rt: &R,
    board: Arc<Board<CounterText>>,
    chair: Chair<CounterText>,
) -> Option<Left>
    requires { chair.board ≡ arc_value board }
{
    let board = Arc::try_unwrap(board)
        .ok()
        .expect(rt, "the threads have let the board go");
    let last = board.pass(None);
    left_at(&board.close(chair, last), first_shard())
}

#[test]
fn two_threads_admit(rt: HostRuntime) {
    let alloc = rt.alloc();
    let (board, chair, _) = owned(&rt, alloc, 1_000_000).parts();
    let board = Arc::new(alloc, board).ok().expect(&rt, "memory");
    let made = put_by_two(&rt, alloc, &board, 1_000);
    assert!(rt; made > 0);
    let all = left(1 + 2 * u64::from(made), made as usize);
    assert!(rt; left_alone(&rt, board, chair) == Some(all));
}

// Why there is no board of so many shards below this ceiling.
fn make_fault(alloc: Global, count: usize, ceiling: u64) -> Option<MakeFault> {
    Board::make(alloc, bodies(alloc, count, Some(1)).ok()?, ceiling).err()
}

#[test]
fn refuses_counts_and_ceilings(rt: HostRuntime) {
    let cases = [
        (0, 2, MakeFault::NoShard),
        (4_097, 2, MakeFault::TooMany),
        (1, 2, MakeFault::BadCeiling),
        (1, 1 << 36, MakeFault::BadCeiling),
    ];
    for (count, ceiling, fault) in cases {
        assert!(rt; make_fault(rt.alloc(), count, ceiling) == Some(fault));
    }
}

#[test]
fn makes_the_greatest_board(rt: HostRuntime) {
    let ceiling = (1 << 36) - 1;
    let fixture = vacant(&rt, rt.alloc(), 4_096, ceiling, first_shard());
    let (board, _, _) = fixture.parts();
    assert!(rt; board.count() == 4_096);
}
