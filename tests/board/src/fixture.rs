//! A shard of a board, as the tests here act on it.
ghost use Rattle.std.specs.Prelude.{◌≡◌, ◌<◌, [], All, None, length};

use crate::calls::{applied, changed, executed, first_shard};
use crate::notes::record_told;
use sm_body::service::{ApplyFault, Service};
use sm_ownership::admit_fault::AdmitFault;
use sm_ownership::change::Change;
use sm_ownership::mode::Mode;
use sm_ownership::record::Record;
use sm_ranges::{ServerId, ShardId, Stand};
use sm_rule::{AdmitRefusal, Board, Chair, ChangeRefusal, Front, Pass};
use std::alloc::Global;
use std::process::Abort;

/// A shard of a board, with the board's chair and a pass that holds nothing. What its methods answer is for tests to look at:
/// they promise that all this goes on to belong together, and no more, so that a test of many calls is soon proved.
#[derive(Drop)]
pub(crate) struct Fixture<S: Service> {
    board: Board<S>,
    chair: Chair<S>,
    pass: Pass<S>,
    shard: ShardId,
    ghost its_shard: { shard < board.limits.count },
    ghost its_chair: { chair.board ≡ board },
    ghost its_pass: { pass.board ≡ board },
    ghost free: { pass.held ≡ None },
}

/// What is left of a shard when its board is closed.
#[derive(Clone, Copy, Debug, PartialEq, Drop)]
pub(crate) struct Left {
    /// How many shards the board had.
    pub(crate) count: usize,
    pub(crate) record: Record,
    /// How many requests came before the base of its body, and how many it has kept since; none where the body is out.
    pub(crate) body: Option<(u64, usize)>,
}

impl<S: Service> Fixture<S> {
    /// A vacant shard of a new board of these bodies, and a pass without a server.
    pub(crate) fn new<R: Abort>(
        rt: &R,
        alloc: Global,
        bodies: Vec<S>,
        ceiling: u64,
        shard: ShardId,
    ) -> Fixture<S>
        requires initial { All (λ body. S.base body ≡ S.initial) bodies.items }
        requires before { All (λ body. S.before body ≡ 0) bodies.items }
        requires empty { All (λ body. S.requests body ≡ []) bodies.items }
    {
        let (board, chair) = Board::make(alloc, bodies, ceiling)
            .ok()
            .expect(rt, "a board");
        assert!(rt; u32::from(shard.number()) < board.count());
        let pass = board.pass(None);
        Fixture {
            board,
            chair,
            pass,
            shard,
        }
    }

    /// The first shard of a new board of these bodies, which server 1 owns, and a pass of that server.
    pub(crate) fn owned<R: Abort>(rt: &R, alloc: Global, bodies: Vec<S>) -> Fixture<S>
        requires initial { All (λ body. S.base body ≡ S.initial) bodies.items }
        requires before { All (λ body. S.before body ≡ 0) bodies.items }
        requires empty { All (λ body. S.requests body ≡ []) bodies.items }
    {
        let mut fixture = Fixture::new(rt, alloc, bodies, 1_000_000, first_shard());
        fixture.assign(rt, ServerId::of(1));
        fixture
    }

    /// Goes on with a new pass of this server.
    pub(crate) fn go_on_as(&mut self, server: Option<ServerId>) {
        self.pass = self.board.pass(server);
    }

    /// Goes on with a new pass without a server, which is told by a note what the old one has seen.
    pub(crate) fn go_on_as_told(&mut self) {
        let note = self.board.note(&mut self.pass);
        let mut reader = self.board.pass(None);
        self.board.meet(&mut reader, note);
        self.pass = reader;
    }

    /// Goes on with a pass that is split from the old one.
    pub(crate) fn go_on_split(&mut self) {
        self.pass = self.board.split(&mut self.pass);
    }

    /// The shard's record, as a new pass finds it once it has met a note of the chair.
    pub(crate) fn told_by_chair(&mut self) -> Record {
        let note = self.board.chair_note(&mut self.chair);
        record_told(&self.board, note, self.shard)
    }

    /// The shard's record, as a new pass finds it once it has met the pass, which is a note from then on.
    pub(crate) fn told_at_last(self) -> Record {
        let shard = self.shard;
        let (board, _, pass) = self.parts();
        record_told(&board, pass.into_note(), shard)
    }

    /// Goes on at another shard, which the board has.
    pub(crate) fn go_on_at<R: Abort>(&mut self, rt: &R, shard: ShardId) {
        assert!(rt; u32::from(shard.number()) < self.board.count());
        self.shard = shard;
    }

    /// Assigns the shard, and goes on with a new pass of its owner.
    pub(crate) fn assign<R: Abort>(&mut self, rt: &R, owner: ServerId) {
        assert!(rt; self.change(Change::Assign(owner)));
        self.go_on_as(Some(owner));
    }

    /// Makes the change where the shard's stand allows it, and whether it was made.
    pub(crate) fn change(&mut self, change: Change) -> bool {
        changed(&self.board, &mut self.chair, self.shard, change)
    }

    /// Migrates the shard to this server, and whether each step was made.
    pub(crate) fn migrate(&mut self, next: ServerId) -> bool {
        self.change(Change::PrepareAddShard(next))
            && self.change(Change::PrepareDropShard)
            && self.change(Change::AddShard)
            && self.change(Change::DropShard)
    }

    /// Why a shard that is served isn't paused; none where it is, or isn't served.
    pub(crate) fn pause_refusal(&mut self) -> Option<ChangeRefusal> {
        refused_pause(&self.board, &mut self.chair, self.shard)
    }

    /// While the pass is admitted: why the shard isn't paused then, its record as the pass then finds it, and its generation after the
    /// end of the admission.
    pub(crate) fn pause_while_admitted<R: Abort>(
        &mut self,
        rt: &R,
    ) -> (Option<ChangeRefusal>, Record, u64) {
        let permit = self
            .board
            .admit(&mut self.pass, self.shard, Mode::Direct)
            .ok()
            .expect(rt, "the pass is admitted");
        let refusal = refused_pause(&self.board, &mut self.chair, self.shard);
        let seen = self.board.look(&mut self.pass, self.shard);
        let front = self.board.finish(&mut self.pass, permit);
        (refusal, seen, front.generation)
    }

    /// The shard's stand, as the chair knows it.
    pub(crate) fn stand(&self) -> Stand {
        self.chair.stand(self.shard)
    }

    /// The shard's record, as the chair finds it.
    pub(crate) fn look_chair(&mut self) -> Record {
        self.board.look_chair(&mut self.chair, self.shard)
    }

    /// The shard's record, as the pass finds it.
    pub(crate) fn look(&mut self) -> Record {
        self.board.look(&mut self.pass, self.shard)
    }

    /// The pass's server.
    pub(crate) fn server(&self) -> Option<ServerId> {
        self.pass.server()
    }

    // Why the pass isn't admitted; an admission that it gets is ended.
    fn refusal(&mut self) -> Option<AdmitRefusal> {
        match self.board.admit(&mut self.pass, self.shard, Mode::Direct) {
            Ok(permit) => {
                self.board.finish(&mut self.pass, permit);
                None
            }
            Err(refusal) => Some(refusal),
        }
    }

    /// Whether the pass is refused with this fault at this record, which a look at the shard then still finds.
    pub(crate) fn is_refused(&mut self, fault: AdmitFault, state: Record) -> bool {
        let refused = AdmitRefusal::Refused(fault, state);
        self.refusal() == Some(refused) && self.look() == state
    }

    /// The shard's generation after an admission of the pass and its end; none where it is refused.
    pub(crate) fn generation_left(&mut self) -> Option<u64> {
        match self.board.admit(&mut self.pass, self.shard, Mode::Direct) {
            Ok(permit) => Some(self.board.finish(&mut self.pass, permit).generation),
            Err(_) => None,
        }
    }

    /// What the shard's body replies under an admission of the pass, or why it refuses; none where the pass isn't admitted.
    pub(crate) fn execute(&mut self, request: S::Request) -> Option<Result<S::Reply, ApplyFault>> {
        executed(&self.board, &mut self.pass, self.shard, request)
    }

    /// What the shard's body replies under an admission of the pass; none where the pass isn't admitted, or the request not
    /// applied.
    pub(crate) fn serve(&mut self, request: S::Request) -> Option<S::Reply> {
        self.execute(request)?.ok()
    }

    /// The same, where the body applies the request before the admission is finished.
    pub(crate) fn serve_before_the_end(&mut self, request: S::Request) -> Option<S::Reply> {
        applied(&self.board, &mut self.pass, self.shard, request)
    }

    /// The same as `serve`, where the body first settles for the pass's server; none also where the pass has no server.
    pub(crate) fn serve_settled(&mut self, request: S::Request) -> Option<S::Reply> {
        let server = self.pass.server()?;
        let Ok(mut permit) = self.board.admit(&mut self.pass, self.shard, Mode::Direct) else {
            return None;
        };
        permit.body().settle(server);
        let (applied, _) = self.board.execute(&mut self.pass, permit, request);
        applied.ok()
    }

    /// Where the end of an admission leaves the shard, whose body applies the request; none where it doesn't.
    pub(crate) fn front_after(&mut self, request: S::Request) -> Option<Front> {
        let Ok(permit) = self.board.admit(&mut self.pass, self.shard, Mode::Direct) else {
            return None;
        };
        let (applied, front) = self.board.execute(&mut self.pass, permit, request);
        if applied.is_ok() { Some(front) } else { None }
    }

    /// Has the shard's body make a checkpoint under an admission of the pass, and whether it was made.
    pub(crate) fn checkpoint(&mut self) -> bool {
        let Ok(permit) = self.board.admit(&mut self.pass, self.shard, Mode::Direct) else {
            return false;
        };
        let (made, _) = self.board.checkpoint(&mut self.pass, permit);
        made.is_ok()
    }

    /// The board, its chair, and the pass.
    pub(crate) fn parts(self) -> (Board<S>, Chair<S>, Pass<S>)
        ensures shard { self.shard < result.0.limits.count }
        ensures chair { result.1.board ≡ result.0 }
        ensures pass { result.2.board ≡ result.0 }
        ensures free { result.2.held ≡ None }
    {
        let Fixture {
            board,
            chair,
            pass,
            shard: _,
        } = self;
        (board, chair, pass)
    }

    /// The rows of the closed board.
    pub(crate) fn rows(self) -> Vec<(Record, Option<S>)> {
        let (board, chair, pass) = self.parts();
        board.close(chair, pass)
    }

    /// What is left of the shard when the board is closed.
    pub(crate) fn end(self) -> Option<Left> {
        let shard = self.shard;
        left_at(&self.rows(), shard)
    }
}

/// What is left of the shard in the rows of a closed board, which have it.
pub(crate) fn left_at<S: Service>(rows: &[(Record, Option<S>)], shard: ShardId) -> Option<Left> {
    let row = rows.get(shard.index())?;
    let body = row.1.as_ref().map(|body| (body.first(), body.kept()));
    Some(Left {
        count: rows.len(),
        record: row.0,
        body,
    })
}

// Why a shard that is served isn't paused; none where it is, or isn't served.
fn refused_pause<S: Service>(
    board: &Board<S>,
    chair: &mut Chair<S>,
    k: ShardId,
) -> Option<ChangeRefusal>
    requires board { chair.old.board ≡ board.now }
    requires shard { k < board.now.limits.count }
    ensures { chair.new.board ≡ board.now }
{
    match chair.stand(k) {
        Stand::Serving(_) => board.change(chair, k, Change::Pause).err(),
        _ => None,
    }
}
