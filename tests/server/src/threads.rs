//! Servers on threads, beside a control.
ghost use Rattle.std.specs.Arc.{arc_value};
ghost use Rattle.std.specs.Prelude.{◌≡◌, None, IsSome};

use crate::running::{Running, SHARDS, new_running};
use crate::server::note_of;
use sm_control::Control;
use sm_desk::{Command, CommandFault};
use sm_envelope::Envelope;
use sm_ownership::change::Change;
use sm_ownership::change_fault::ChangeFault;
use sm_ownership::record::Record;
use sm_ranges::{Key, Layout, ServerId, ShardId};
use sm_rule::{Board, Pass};
use sm_server::{Outcome, serve};
use sm_service::{CounterText, Request, Service};
use std::alloc::{AllocError, Global};
use std::process::Abort;
use std::sync::Arc;
use std::thread;
use std::thread::{JoinHandle, Threads};
use test_fixture::layout_of;

// How many envelopes of each shard a server is to serve: 100,032 in all.
const ROUNDS: u32 = 1_563;

// How often all shards are moved to the second server and back.
const MOVES: u32 = 100;

// A server's pass and layout, whose board other threads have too.
#[derive(Drop)]
struct Post<S: Service> {
    board: Arc<Board<S>>,
    layout: Layout,
    pass: Pass<S>,
    ghost tied: { pass.board ≡ arc_value board },
    ghost server: { IsSome pass.server },
    ghost free: { pass.held ≡ None },
}

impl<S: Service> Post<S> {
    fn new<R: Abort>(rt: &R, board: &Arc<Board<S>>, server: ServerId, layout: Layout) -> Post<S> {
        let pass = board.pass(Some(server));
        Post {
            board: Arc::try_clone(board).ok().expect(rt, "memory"),
            layout,
            pass,
        }
    }

    // The place of the answer to the request of a new client; none where there is no answer.
    fn place(&mut self, k: ShardId, request: S::Request) -> Option<u64> {
        let envelope = Envelope::new(7, k, request, note_of(&self.board));
        match serve(&self.board, &self.layout, &mut self.pass, envelope) {
            Outcome::Answered(answer) => Some(answer.place()),
            _ => None,
        }
    }
}

// A server that is sent to a thread, and the places of its answers by shard.
#[derive(Drop)]
struct Worker {
    post: Post<CounterText>,
    places: Vec<Vec<u64>>,
}

impl Worker {
    // Serves so many envelopes, of each shard in turn, and gives the places of the answers.
    fn serves(mut self, alloc: Global, rounds: u32) -> Vec<Vec<u64>> {
        for _ in 0..rounds {
            self.serves_all(alloc);
        }
        self.places
    }

    // Serves an envelope of each shard.
    fn serves_all(&mut self, alloc: Global) {
        for number in 0..SHARDS {
            if let Some(k) = ShardId::new(number) {
                self.serves_one(alloc, k);
            }
        }
    }

    // Serves an envelope, and notes the place of its answer.
    fn serves_one(&mut self, alloc: Global, k: ShardId) {
        let Some(request) = request_of(alloc, k) else {
            return;
        };
        if let Some(place) = self.post.place(k, request) {
            add_place(&mut self.places, k, place);
        }
    }
}

// A request for the shard; none where memory is refused.
fn request_of(alloc: Global, k: ShardId) -> Option<Request> {
    let key = Key::new(alloc, &k.number().to_be_bytes()).ok()?;
    Some(Request::Inc(key, 1))
}

// Notes the place of an answer of the shard.
fn add_place(places: &mut [Vec<u64>], k: ShardId, place: u64) {
    if let Some(places) = places.get_mut(k.index()) {
        let _forgotten = places.push(place).is_err();
    }
}

fn new_worker<R: Abort>(
    rt: &R,
    board: &Arc<Board<CounterText>>,
    server: ServerId,
    alloc: Global,
) -> Worker {
    let layout = layout_of(alloc, SHARDS).expect(rt, "a layout");
    Worker {
        post: Post::new(rt, board, server, layout),
        places: no_places(alloc).ok().expect(rt, "memory"),
    }
}

fn no_places(alloc: Global) -> Result<Vec<Vec<u64>>, AllocError> {
    let mut places = Vec::with_capacity(alloc, usize::from(SHARDS))?;
    for _ in 0..SHARDS {
        places.push(Vec::new(alloc))?;
    }
    Ok(places)
}

// A control on the thread of the test, with its board.
#[derive(Drop)]
struct Steward<S: Service> {
    board: Arc<Board<S>>,
    control: Control<S>,
    ghost tied: { control.chair.board ≡ arc_value board },
}

impl<S: Service> Steward<S> {
    // Gives all shards to the server, and says whether that was done.
    fn assigns_all(&mut self, server: ServerId) -> bool {
        let mut all = true;
        for number in 0..SHARDS {
            if let Some(k) = ShardId::new(number) {
                all = self.changes(k, Change::Assign(server)) && all;
            }
        }
        all
    }

    // Moves all shards to the server, and says whether that was done.
    fn moves_all(&mut self, next: ServerId) -> bool {
        let mut all = true;
        for number in 0..SHARDS {
            if let Some(k) = ShardId::new(number) {
                all = self.moves(k, next) && all;
            }
        }
        all
    }

    fn moves(&mut self, k: ShardId, next: ServerId) -> bool {
        self.changes(k, Change::PrepareAddShard(next))
            && self.changes(k, Change::PrepareDropShard)
            && self.changes(k, Change::AddShard)
            && self.changes(k, Change::DropShard)
    }

    fn changes(&mut self, k: ShardId, change: Change) -> bool {
        self.makes(&Command::Change(k, change))
    }

    // Tries until the command is made, or is refused for another cause than that a pass was first.
    fn makes(&mut self, command: &Command) -> bool {
        for _ in 0..10_000_000u32 {
            if let Some(made) = self.made(command) {
                return made;
            }
        }
        false
    }

    // Whether the command is made; none where a pass was first.
    fn made(&mut self, command: &Command) -> Option<bool> {
        match self.control.command(&self.board, *command) {
            Ok(()) => Some(true),
            Err(fault) => other_cause(fault),
        }
    }
}

// The rows of the closed board.
fn rows_of<S: Service, R: Abort>(rt: &R, steward: Steward<S>) -> Vec<(Record, Option<S>)> {
    let Steward { board, control } = steward;
    let board = Arc::try_unwrap(board)
        .ok()
        .expect(rt, "the threads have let the board go");
    let (chair, _) = control.into_parts();
    let last = board.pass(None);
    board.close(chair, last)
}

// Not made, where the cause is another than that a pass was first.
fn other_cause(fault: CommandFault) -> Option<bool> {
    match fault {
        CommandFault::Change(ChangeFault::Busy(_)) => None,
        CommandFault::Raced { .. } => None,
        _ => Some(false),
    }
}

// Whether the places of both are together 0, 1 and so on, each once, and as many as were kept.
fn are_all_places(
    alloc: Global,
    places: &[u64],
    others: &[u64],
    kept: usize,
) -> Result<bool, AllocError> {
    let mut all = Vec::with_capacity(alloc, kept)?;
    for place in places.iter().chain(others) {
        all.push(*place)?;
    }
    all.sort()?;
    Ok(
        all.len() == kept
            && all
                .iter()
                .enumerate()
                .all(|(at, place)| *place == at as u64),
    )
}

// A control in front of a board, all of whose shards server 1 owns.
fn new_steward<R: Abort>(rt: &R, alloc: Global) -> Steward<CounterText> {
    let Running { board, control } = new_running(rt, alloc);
    let board = Arc::new(alloc, board).ok().expect(rt, "memory");
    let mut steward = Steward { board, control };
    assert!(rt; steward.assigns_all(ServerId::of(1)));
    steward
}

// Has a worker of the server serve its envelopes in a thread of its own, which gives the places of the answers.
fn answers_of<R: Threads + Abort>(
    rt: &R,
    alloc: Global,
    board: &Arc<Board<CounterText>>,
    server: ServerId,
) -> JoinHandle<Vec<Vec<u64>>> {
    let worker = new_worker(rt, board, server, alloc);
    thread::spawn(rt, move || worker.serves(alloc, ROUNDS))
        .ok()
        .expect(rt, "a thread")
}

// Moves all shards to the second server and back.
fn move_all<S: Service, R: Abort>(rt: &R, steward: &mut Steward<S>) {
    for _ in 0..MOVES {
        assert!(rt; steward.moves_all(ServerId::of(2)));
        assert!(rt; steward.moves_all(ServerId::of(1)));
    }
}

// The places of both servers' answers by shard, which they give beside the moves.
fn serve_beside<R: Threads + Abort>(
    rt: &R,
    alloc: Global,
    steward: &mut Steward<CounterText>,
) -> (Vec<Vec<u64>>, Vec<Vec<u64>>) {
    let one = answers_of(rt, alloc, &steward.board, ServerId::of(1));
    let other = answers_of(rt, alloc, &steward.board, ServerId::of(2));
    move_all(rt, steward);
    (one.join(rt), other.join(rt))
}

// Each shard's places are all there, as many as its body kept.
fn has_all_places<S: Service>(
    rt: &impl Abort,
    alloc: Global,
    rows: &[(Record, Option<S>)],
    places: &[Vec<u64>],
    others: &[Vec<u64>],
) {
    for (k, row) in rows.iter().enumerate() {
        let kept = row.1.as_ref().map_or(0, |body| body.kept());
        let some = places.get(k).expect(rt, "places");
        let more = others.get(k).expect(rt, "places");
        assert!(rt; are_all_places(alloc, some, more, kept) == Ok(true));
    }
}

// Two servers answer beside a control that moves all shards between them. Each answer has a place of its own, and the shards
// keep what was answered.
#[test]
fn two_threads_serve(rt: HostRuntime) {
    let alloc = rt.alloc();
    let mut steward = new_steward(&rt, alloc);
    let (places, others) = serve_beside(&rt, alloc, &mut steward);
    let rows = rows_of(&rt, steward);
    assert!(rt; rows.len() == usize::from(SHARDS));
    assert!(rt; places.iter().any(|places| !places.is_empty()));
    has_all_places(&rt, alloc, &rows, &places, &others);
}
