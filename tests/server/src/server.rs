//! A server of a board.
ghost use Rattle.std.specs.Prelude.{◌≡◌, ◌<◌, [], All, IfErr, IfSome, IsSome, IsTrue, None};
ghost use Rattle.sm_ownership.specs.Rules.{phase_fault};

use sm_envelope::Envelope;
use sm_ownership::change::Change;
use sm_ownership::record::Record;
use sm_ranges::{Layout, ServerId, ShardId, Stand};
use sm_rule::{Board, Chair, Note, Pass};
use sm_server::{Answer, CheckpointFault, Outcome, Refusal, checkpoint, serve};
use sm_service::Service;
use std::alloc::Global;
use std::process::Abort;

/// A server's pass at a board, and the board's chair.
#[derive(Drop)]
pub(crate) struct Server<S: Service> {
    board: Board<S>,
    chair: Chair<S>,
    layout: Layout,
    pass: Pass<S>,
    ghost its_chair: { chair.board ≡ board },
    ghost its_pass: { pass.board ≡ board },
    ghost server: { IsSome pass.server },
    ghost free: { pass.held ≡ None },
}

/// Why a server gave no answer.
#[derive(Clone, Copy, Drop)]
pub(crate) enum Unserved {
    /// The envelope goes on to this server.
    Forward(ServerId),
    Refused(Refusal),
}

/// A server's answer, or why there is none and the envelope.
pub(crate) type Served<S> = Result<
    Answer<S>,
    (Unserved, Envelope<<S as Service>::Request, Note<S>>),
>;

impl<S: Service> Server<S> {
    /// Server 1 of two shards, neither of which is its yet. Shard 0 has the keys below `m`, and shard 1 the others.
    pub(crate) fn new<R: Abort>(rt: &R, alloc: Global, bodies: Vec<S>) -> Server<S>
        requires initial { All (λ body. S.base body ≡ S.initial) bodies.items }
        requires before { All (λ body. S.before body ≡ 0) bodies.items }
        requires empty { All (λ body. S.requests body ≡ []) bodies.items }
    {
        let layout = Layout::new(alloc, &[b"", b"m"]).ok().expect(rt, "a layout");
        Server::of(rt, alloc, bodies, layout)
    }

    /// Server 1 of a board of these bodies, of which no shard is yet.
    pub(crate) fn of<R: Abort>(rt: &R, alloc: Global, bodies: Vec<S>, layout: Layout) -> Server<S>
        requires initial { All (λ body. S.base body ≡ S.initial) bodies.items }
        requires before { All (λ body. S.before body ≡ 0) bodies.items }
        requires empty { All (λ body. S.requests body ≡ []) bodies.items }
    {
        let (board, chair) = Board::make(alloc, bodies, 1_000_000)
            .ok()
            .expect(rt, "a board");
        let pass = board.pass(Some(ServerId::of(1)));
        Server {
            board,
            chair,
            layout,
            pass,
        }
    }

    /// Goes on as this server, with a new pass.
    pub(crate) fn go_on_as(&mut self, server: ServerId)
        ensures { self.new.board ≡ self.old.board }
    {
        self.pass = self.board.pass(Some(server));
    }

    // Whether the board has the shard.
    fn has(&self, k: ShardId) -> bool
        ensures { IsTrue result → k < self.now.board.limits.count }
    {
        u32::from(k.number()) < self.board.count()
    }

    /// Makes the change where the board has the shard and its stand allows that, and whether it was made.
    pub(crate) fn change(&mut self, k: ShardId, change: Change) -> bool {
        self.has(k)
            && allows(self.chair.stand(k), &change)
            && self.board.change(&mut self.chair, k, change).is_ok()
    }

    /// What the server makes of a direct envelope for the shard, with the note of a new client.
    pub(crate) fn serve(&mut self, k: ShardId, request: S::Request) -> Served<S>
        ensures { IfErr result (λ back. back.1.note.board ≡ self.new.board) }
    {
        let envelope = Envelope::new(7, k, request, note_of(&self.board));
        self.serve_again(envelope)
    }

    /// What the server makes of an envelope that came back from this board.
    pub(crate) fn serve_again(&mut self, envelope: Envelope<S::Request, Note<S>>) -> Served<S>
        requires { envelope.note.board ≡ self.old.board }
        ensures { IfErr result (λ back. back.1.note.board ≡ self.new.board) }
    {
        match serve(&self.board, &self.layout, &mut self.pass, envelope) {
            Outcome::Answered(answer) => Ok(answer),
            Outcome::Forward(to, back) => Err((Unserved::Forward(to), back)),
            Outcome::Refused(refusal, back) => Err((Unserved::Refused(refusal), back)),
        }
    }

    /// Why a request for the shard is refused, and its envelope; none where it isn't refused.
    pub(crate) fn refused(
        &mut self,
        k: ShardId,
        request: S::Request,
    ) -> Option<(Refusal, Envelope<S::Request, Note<S>>)>
        ensures { IfSome result (λ refused. refused.1.note.board ≡ self.new.board) }
    {
        match self.serve(k, request) {
            Err((Unserved::Refused(refusal), back)) => Some((refusal, back)),
            _ => None,
        }
    }

    /// Where the server sends a request for the shard, with its envelope; none where it doesn't.
    pub(crate) fn sent_on(
        &mut self,
        k: ShardId,
        request: S::Request,
    ) -> Option<(ServerId, Envelope<S::Request, Note<S>>)>
        ensures { IfSome result (λ sent. sent.1.note.board ≡ self.new.board) }
    {
        let envelope = Envelope::new(7, k, request, note_of(&self.board));
        match serve(&self.board, &self.layout, &mut self.pass, envelope) {
            Outcome::Forward(to, back) => Some((to, back)),
            _ => None,
        }
    }

    /// What the server makes of a request. Where memory is refused, sees that the shard is idle, and serves the same envelope again.
    pub(crate) fn serve_in_two<R: Abort>(
        &mut self,
        rt: &R,
        k: ShardId,
        request: S::Request,
    ) -> Served<S> {
        match self.serve(k, request) {
            Err((Unserved::Refused(Refusal::NoMemory), back)) => {
                assert!(rt; !self.is_admitted(rt, k));
                self.serve_again(back)
            }
            served => served,
        }
    }

    /// Whether a pass is admitted to the shard.
    pub(crate) fn is_admitted<R: Abort>(&mut self, rt: &R, k: ShardId) -> bool
        ensures { self.new.board ≡ self.old.board }
    {
        assert!(rt; self.has(k));
        self.board.look(&mut self.pass, k).admitted
    }

    /// Makes a checkpoint of the shard, or says why not.
    pub(crate) fn checkpoint<R: Abort>(&mut self, rt: &R, k: ShardId) -> Option<CheckpointFault>
        ensures { self.new.board ≡ self.old.board }
    {
        assert!(rt; self.has(k));
        checkpoint(&self.board, &mut self.pass, k).err()
    }

    /// The board, the layout and the server's pass.
    pub(crate) fn parts(self) -> (Board<S>, Layout, Pass<S>)
        ensures board { result.2.board ≡ result.0 }
        ensures server { IsSome result.2.server }
        ensures free { result.2.held ≡ None }
    {
        let Server {
            board,
            chair: _,
            layout,
            pass,
        } = self;
        (board, layout, pass)
    }

    /// The rows of the closed board.
    pub(crate) fn rows(self) -> Vec<(Record, Option<S>)> {
        let Server {
            board,
            chair,
            layout: _,
            pass,
        } = self;
        board.close(chair, pass)
    }
}

/// A note of a new pass.
pub(crate) fn note_of<S: Service>(board: &Board<S>) -> Note<S>
    ensures { result.board ≡ board.now }
{
    let mut client = board.pass(None);
    board.note(&mut client)
}

// Whether the stand allows the change.
fn allows(stand: Stand, change: &Change) -> bool
    ensures { IsTrue result → phase_fault stand change.now ≡ None }
{
    match change.apply_to(stand) {
        Ok(_) => true,
        Err(_) => false,
    }
}
