//! Serves requests while shards migrate, and refuses none. Each server is a thread with an inbox. A server that hands a
//! shard over forwards the shard's requests to the next owner. Clients learn new owners from the published routes.
use durkenzo::word::Change;
use durkenzo::{Board, Control, Mode, Pass, Router, Routes, ServerId, ShardId, MOST_HOPS};
use std::error::Error;
use std::sync::mpsc::{self, Receiver, Sender};
use std::thread;

type BoxError = Box<dyn Error + Send + Sync>;

const SERVERS: u16 = 3;
const SHARDS: usize = 8;
const CLIENTS: usize = 4;
const REQUESTS: usize = 10_000;

/// A request to add 1 to the shard's count.
struct AddRequest {
    shard: ShardId,
    /// How it came to the server that has it now.
    mode: Mode,
    /// How often it was forwarded.
    hops: u8,
    answer: Sender<Answer>,
}

/// The answer to a request.
enum Answer {
    Added,
    /// The server neither executes the shard's requests nor forwards them. Ask the owner.
    Ask(ServerId),
}

/// A message to a server.
enum Message {
    Add(AddRequest),
    Stop,
}

/// The inboxes of all servers, in order.
type Inboxes = [Sender<Message>];

/// Serves the inbox as the pass's server until it is told to stop. Returns how many requests it forwarded.
fn serve(
    mut pass: Pass<u64>,
    inbox: &Receiver<Message>,
    inboxes: &Inboxes,
) -> Result<u64, BoxError> {
    let mut forwarded = 0;
    while let Message::Add(request) = inbox.recv()? {
        let added = pass.with(request.shard, request.mode, |count| **count += 1);
        let Err(fault) = added else {
            request.answer.send(Answer::Added)?;
            continue;
        };
        let next = fault.forward(pass.server());
        if let Some(next) = next.filter(|_| request.hops < MOST_HOPS) {
            let onward = AddRequest {
                mode: Mode::Forwarded(pass.server()),
                hops: request.hops + 1,
                ..request
            };
            inboxes[next.index()].send(Message::Add(onward))?;
            forwarded += 1;
        } else {
            let owner = fault.owner().ok_or(fault)?;
            request.answer.send(Answer::Ask(owner))?;
        }
    }
    Ok(forwarded)
}

/// Makes requests to all shards in turn. Each goes to the server of the shard's route first.
fn call(mut router: Router, inboxes: &Inboxes) -> Result<(), BoxError> {
    for shard in ShardId::all(SHARDS).cycle().take(REQUESTS) {
        let mut to = router.route(shard).ok_or("no route is published")?.server;
        loop {
            let (answer, answered) = mpsc::channel();
            let request = AddRequest {
                shard,
                mode: Mode::Direct,
                hops: 0,
                answer,
            };
            inboxes[to.index()].send(Message::Add(request))?;
            match answered.recv()? {
                Answer::Added => break,
                Answer::Ask(owner) => to = owner,
            }
        }
    }
    Ok(())
}

/// Moves all shards round and round until nobody calls any more. Each new owner is published while the previous one
/// still forwards.
fn migrate(
    control: &Control<u64>,
    routes: &Routes,
    mut looks: Pass<u64>,
    has_callers: impl Fn() -> bool,
) -> Result<(), BoxError> {
    for round in (1..=SERVERS).cycle().take_while(|_| has_callers()) {
        for shard in ShardId::all(SHARDS) {
            let to = ServerId::new((shard.get() + round) % SERVERS + 1)?;
            control.change_blocking(shard, Change::PrepareAddShard(to.get()))?;
            control.change_blocking(shard, Change::PrepareDropShard)?;
            control.change_blocking(shard, Change::AddShard)?;
            routes.publish(&mut looks, shard)?;
            control.change_blocking(shard, Change::DropShard)?;
        }
    }
    Ok(())
}

fn main() -> Result<(), BoxError> {
    let board = Board::builder().servers(SERVERS).build([0; SHARDS])?;
    let (control, routes) = (board.control(), Routes::new(SHARDS)?);
    let mut looks = board.pass(ServerId::FIRST)?;
    for (shard, server) in board.shards().zip(ServerId::all(SERVERS).cycle()) {
        control.assign(shard, server)?;
        routes.publish(&mut looks, shard)?;
    }
    let (inboxes, receivers): (Vec<_>, Vec<_>) = (0..SERVERS).map(|_| mpsc::channel()).unzip();
    let passes = ServerId::all(SERVERS).map(|it| board.pass(it));
    let passes: Vec<_> = passes.collect::<Result<_, _>>()?;
    let routers = (0..CLIENTS).map(|_| routes.router());
    let routers: Vec<_> = routers.collect::<Result<_, _>>()?;
    let forwarded = thread::scope(|scope| {
        let inboxes = &inboxes[..];
        let serve = |(pass, inbox)| scope.spawn(move || serve(pass, &inbox, inboxes));
        let servers: Vec<_> = passes.into_iter().zip(receivers).map(serve).collect();
        let call = |router| scope.spawn(move || call(router, inboxes));
        let clients: Vec<_> = routers.into_iter().map(call).collect();
        let has_callers = || clients.iter().any(|it| !it.is_finished());
        let moved = migrate(&control, &routes, looks, has_callers);
        let called = clients.into_iter().try_for_each(|it| it.join().unwrap());
        for inbox in inboxes {
            // A server that ended with a fault has no inbox any more.
            let _ = inbox.send(Message::Stop);
        }
        let forwarded: Result<u64, _> = servers.into_iter().map(|it| it.join().unwrap()).sum();
        moved.and(called).and(forwarded)
    })?;
    drop(control);
    let counts = board.into_bodies().map_err(|_| "the board is in use")?;
    assert_eq!(counts.iter().sum::<u64>(), (CLIENTS * REQUESTS) as u64);
    eprintln!("{forwarded} requests were forwarded");
    println!("each request was executed once");
    Ok(())
}
