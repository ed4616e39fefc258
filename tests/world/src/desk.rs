ghost use Rattle.sm_tasks.specs.Caps.{MeetsCaps};

use crate::common::{new_books, shard};
use sm_desk::{Command, CommandFault, Desk};
use sm_ownership::change::Change;
use sm_ownership::change_fault::ChangeFault;
use sm_place::{Books, PlaceFault};
use sm_ranges::server_id::ServerId;
use sm_ranges::shard_id::ShardId;
use sm_tasks::{RestartFault, Tasks};
use std::alloc::Global;
use std::process::Abort;

// Books of two vacant shards and of servers 1 and 2.
fn books_of_two(rt: &impl Abort, alloc: Global) -> Books
    ensures { MeetsCaps (record { ops = 1 }) result }
{
    let servers = [ServerId::of(1), ServerId::of(2)];
    new_books(alloc, 2, &servers).ok().expect(rt, "books")
}

// The example of the crate's documentation.
#[test]
fn commits_a_command(rt: HostRuntime) {
    let (one, k) = (ServerId::of(1), shard(1));
    let books = books_of_two(&rt, rt.alloc());
    let mut desk = Desk::new(books, Tasks::new(1));
    let assign = Command::Change(k, Change::Assign(one));
    assert!(rt; desk.check(&assign).is_ok());
    desk.commit(assign);
    let again = desk.check(&assign);
    assert!(rt; again == Err(CommandFault::Change(ChangeFault::WrongPhase)));
}

type Answer = Result<(), CommandFault>;

// Gives the commands in turn: each is refused so, or made.
fn give(rt: &impl Abort, desk: &mut Desk, commands: &[(Command, Answer)]) {
    for (command, answer) in commands {
        let checked = desk.check(command);
        assert!(*rt; checked == *answer);
        if checked.is_ok() {
            desk.commit(*command);
        }
    }
}

// The desk of the two books, for one restart at a time, once it was given these commands.
fn given(rt: &impl Abort, alloc: Global, commands: &[(Command, Answer)]) -> Desk {
    let mut desk = Desk::new(books_of_two(rt, alloc), Tasks::new(1));
    give(rt, &mut desk, commands);
    desk
}

// An unknown server is refused, and the owner itself.
fn refused_servers(k: ShardId) -> [(Command, Answer); 3] {
    let (one, unknown) = (ServerId::of(1), ServerId::of(3));
    [
        (Command::Change(k, Change::Assign(one)), Ok(())),
        (
            Command::Change(k, Change::PrepareAddShard(unknown)),
            Err(CommandFault::UnknownServer),
        ),
        (
            Command::Change(k, Change::PrepareAddShard(one)),
            Err(CommandFault::Change(ChangeFault::SameServer)),
        ),
    ]
}

#[test]
fn checks_commands(rt: HostRuntime) {
    given(&rt, rt.alloc(), &refused_servers(shard(1)));
}

// Shard 0 is moved from server 1 to server 2, which may not take it while its restart is approved.
fn refused_to_approved(k: ShardId) -> [(Command, Answer); 6] {
    let (one, two) = (ServerId::of(1), ServerId::of(2));
    [
        (Command::Change(k, Change::Assign(one)), Ok(())),
        (Command::Ask(two), Ok(())),
        (Command::Approve(two), Ok(())),
        (
            Command::Change(k, Change::PrepareAddShard(two)),
            Err(CommandFault::Place(PlaceFault::Leaving)),
        ),
        (Command::Back(two), Ok(())),
        (Command::Change(k, Change::PrepareAddShard(two)), Ok(())),
    ]
}

#[test]
fn prepares_no_leaving_server(rt: HostRuntime) {
    given(&rt, rt.alloc(), &refused_to_approved(shard(0)));
}

// Server 1, which owns shard 0, restarts: the shard is paused before, and resumed after.
fn restart(k: ShardId) -> [(Command, Answer); 9] {
    let (one, two) = (ServerId::of(1), ServerId::of(2));
    [
        (Command::Change(k, Change::Assign(one)), Ok(())),
        (Command::Ask(one), Ok(())),
        (Command::Approve(one), Ok(())),
        (
            Command::Stopped(one),
            Err(CommandFault::Restart(RestartFault::StillServing(k))),
        ),
        (Command::Change(k, Change::Pause), Ok(())),
        (Command::Stopped(one), Ok(())),
        (
            Command::Change(k, Change::Resume),
            Err(CommandFault::Place(PlaceFault::Leaving)),
        ),
        (Command::Ask(two), Ok(())),
        (
            Command::Approve(two),
            Err(CommandFault::Restart(RestartFault::GlobalCap)),
        ),
    ]
}

// The server is back, and serves the shard again.
fn back(k: ShardId) -> [(Command, Answer); 2] {
    [
        (Command::Back(ServerId::of(1)), Ok(())),
        (Command::Change(k, Change::Resume), Ok(())),
    ]
}

// Whether requests reach server 2 alone.
fn reaches_the_other(desk: &Desk) -> bool {
    let (one, two) = (ServerId::of(1), ServerId::of(2));
    !desk.reaches(one) && desk.reaches(two) && desk.knows(two)
}

#[test]
fn restarts_a_server(rt: HostRuntime) {
    let mut desk = given(&rt, rt.alloc(), &restart(shard(0)));
    assert!(rt; reaches_the_other(&desk));
    give(&rt, &mut desk, &back(shard(0)));
    assert!(rt; desk.reaches(ServerId::of(1)) && desk.books().shards().len() == 2);
}
