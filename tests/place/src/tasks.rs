ghost use Rattle.sm_place.specs.Books.{IsKnown};

use crate::common::{
    all_shards, assign_all, equal_groups, narrow, new_books, numbered, open_books, prepare_gives,
    server, server_row, shard_row,
};
use sm_place::{Books, ServerState};
use sm_ranges::limits::MAX_SERVER;
use sm_ranges::{ServerId, Stand};
use sm_rows::limits::{MAX_DOMAIN, MAX_GROUPS};
use sm_rows::{GroupRow, equal_domains};
use sm_tasks::{RestartFault, Tasks};
use std::alloc::Global;
use std::fmt::Display;
use std::process::Abort;
use std::test::Fail;

// The step of a restart that a test makes, with its answer.
#[derive(Clone, Copy)]
enum Step {
    Ask(Result<(), RestartFault>),
    Approve(Result<(), RestartFault>),
    Stopped(Result<(), RestartFault>),
    Back(Result<(), RestartFault>),
    Fail(Result<(), RestartFault>),
}

// Whether the step has its answer.
fn is_answered(tasks: &Tasks, books: &mut Books, a: ServerId, step: Step) -> bool
    requires { IsKnown books.old.servers a }
{
    match step {
        Step::Ask(answer) => tasks.ask(books, a) == answer,
        Step::Approve(answer) => tasks.approve(books, a) == answer,
        Step::Stopped(answer) => tasks.stopped(books, a) == answer,
        Step::Back(answer) => tasks.back(books, a) == answer,
        Step::Fail(answer) => tasks.fail(books, a) == answer,
    }
}

// Makes the steps in turn, with at most one server leaving.
fn make_all(rt: &impl Abort, books: &mut Books, steps: &[(u16, Step)]) {
    make_each(rt, books, 1, steps);
}

// Makes the steps in turn, with at most so many servers leaving.
fn make_each(rt: &impl Abort, books: &mut Books, ops: u16, steps: &[(u16, Step)]) {
    let tasks = Tasks::new(ops);
    for (a, step) in steps {
        let a = server(rt, books, *a);
        assert!(rt; is_answered(&tasks, books, a, *step));
    }
}

// Moves shard 0 from its owner to the other server, step by step.
fn migrate(rt: &impl Abort, books: &mut Books, owner: ServerId, next: ServerId) {
    prepare_gives(rt, books, 0, next.number(), Ok(()));
    narrow(rt, books, 0, Stand::Forwarding { owner, next });
    let taken = Stand::Taken {
        owner: next,
        previous: owner,
    };
    narrow(rt, books, 0, taken);
    narrow(rt, books, 0, Stand::Serving(next));
}

// Books where server 1 serves shard 0, which may not be down, and server 2 shard 1.
fn served_books(rt: &impl Abort, alloc: Global) -> Books {
    let mut books = new_books(rt, alloc, GroupRow { limit: 2, down: 1 }, 2);
    assign_all(rt, &mut books, &[(0, 1, Ok(())), (1, 2, Ok(()))]);
    books
}

#[test]
fn restarts_after_a_pause(rt: HostRuntime) {
    let mut books = served_books(&rt, rt.alloc());
    let second = ServerId::of(2);
    let serving = RestartFault::StillServing(numbered(1));
    let steps = [
        (2, Step::Ask(Ok(()))),
        (2, Step::Approve(Ok(()))),
        (2, Step::Stopped(Err(serving))),
    ];
    make_all(&rt, &mut books, &steps);
    narrow(&rt, &mut books, 1, Stand::Paused(second));
    let steps = [(2, Step::Stopped(Ok(()))), (2, Step::Back(Ok(())))];
    make_all(&rt, &mut books, &steps);
    narrow(&rt, &mut books, 1, Stand::Serving(second));
}

// Server 1 may not restart while it serves shard 0, nor while server 2 restarts.
fn restart_the_second(rt: &impl Abort, books: &mut Books) {
    let capped = RestartFault::ShardCap(numbered(0));
    let steps = [
        (1, Step::Ask(Ok(()))),
        (2, Step::Ask(Ok(()))),
        (1, Step::Approve(Err(capped))),
        (2, Step::Approve(Ok(()))),
        (1, Step::Approve(Err(RestartFault::GlobalCap))),
        (2, Step::Back(Ok(()))),
    ];
    make_all(rt, books, &steps);
}

// Server 1 may restart once, until server 3 fails.
fn fail_the_third(rt: &impl Abort, books: &mut Books) {
    let steps = [
        (1, Step::Approve(Ok(()))),
        (3, Step::Fail(Ok(()))),
        (1, Step::Back(Ok(()))),
        (1, Step::Ask(Ok(()))),
        (1, Step::Approve(Err(RestartFault::GlobalCap))),
        (3, Step::Approve(Err(RestartFault::NotAsked))),
    ];
    make_all(rt, books, &steps);
}

#[test]
fn counts_servers_that_leave(rt: HostRuntime) {
    let mut books = served_books(&rt, rt.alloc());
    restart_the_second(&rt, &mut books);
    migrate(&rt, &mut books, ServerId::of(1), ServerId::of(3));
    fail_the_third(&rt, &mut books);
}

#[test]
fn group_cap(rt: HostRuntime) {
    let mut books = new_books(&rt, rt.alloc(), GroupRow { limit: 2, down: 0 }, 2);
    assign_all(&rt, &mut books, &[(1, 2, Ok(()))]);
    let full = RestartFault::GroupCap(0);
    let steps = [(2, Step::Ask(Ok(()))), (2, Step::Approve(Err(full)))];
    make_all(&rt, &mut books, &steps);
}

// Three servers, of which the last two are of domain 1, where of each domain one may be down.
fn capped_books(rt: &impl Abort, alloc: Global) -> Books {
    let servers = [
        server_row(1, 0, 2),
        server_row(2, 1, 2),
        server_row(3, 1, 2),
    ];
    let group = GroupRow { limit: 2, down: 1 };
    let domains = equal_domains(alloc, &servers, 1).ok().expect(rt, "memory");
    let books = Books::new(alloc, &servers, &[group], &[shard_row(0, 1)], &domains);
    books.ok().expect(rt, "books")
}

// A failed server counts in its domain.
#[test]
fn domain_caps(rt: HostRuntime) {
    let mut books = capped_books(&rt, rt.alloc());
    let steps = [
        (1, Step::Ask(Ok(()))),
        (2, Step::Ask(Ok(()))),
        (3, Step::Ask(Ok(()))),
        (2, Step::Approve(Ok(()))),
        (3, Step::Approve(Err(RestartFault::DomainCap(1)))),
        (1, Step::Approve(Ok(()))),
        (2, Step::Back(Ok(()))),
        (3, Step::Approve(Ok(()))),
        (2, Step::Ask(Ok(()))),
        (2, Step::Approve(Err(RestartFault::DomainCap(1)))),
        (3, Step::Fail(Ok(()))),
        (2, Step::Approve(Err(RestartFault::DomainCap(1)))),
    ];
    make_each(&rt, &mut books, 3, &steps);
}

#[test]
fn steps_out_of_turn(rt: HostRuntime) {
    let mut books = new_books(&rt, rt.alloc(), GroupRow { limit: 2, down: 1 }, 2);
    let steps = [
        (1, Step::Back(Err(RestartFault::AlreadyUp))),
        (1, Step::Stopped(Err(RestartFault::NotApproved))),
        (1, Step::Fail(Ok(()))),
        (1, Step::Fail(Err(RestartFault::AlreadyFailed))),
        (1, Step::Ask(Err(RestartFault::NotUp))),
    ];
    make_all(&rt, &mut books, &steps);
}

// The example of the documentation of sm_tasks.
#[test]
fn restarts_a_server(rt: HostRuntime) -> Result<(), Fail> {
    // A function of its own, so that one early exit alone has books to drop.
    fn restart(mut books: &mut Books, a: ServerId) -> Result<(), Fail>
        requires { IsKnown books.old.servers a }
    {
        let tasks = Tasks::new(1);
        tasks.ask(&mut books, a)?;
        tasks.approve(&mut books, a)?;
        tasks.stopped(&mut books, a)?;
        tasks.back(&mut books, a)?;
        Ok(())
    }
    let mut books = new_books(&rt, rt.alloc(), GroupRow { limit: 2, down: 1 }, 2);
    let a = server(&rt, &books, 1);
    restart(&mut books, a)?;
    assert!(rt; state(&rt, &books, 1) == ServerState::Up);
    Ok(())
}

fn state(rt: &impl Abort, books: &Books, a: u16) -> ServerState {
    let a = server(rt, books, a);
    books.state(a)
}

// Whether the fault's text is this one.
fn is_text<T: Display>(rt: &impl Abort, alloc: Global, fault: &T, text: &str) -> bool {
    let written = format!(in alloc; "{fault}");
    written.ok().expect(rt, "memory").as_str() == text
}

#[test]
fn faults_of_states_have_texts(rt: HostRuntime) {
    let alloc = rt.alloc();
    assert!(rt; is_text(&rt, alloc, &RestartFault::NotUp, "the server is not up"));
    assert!(rt;
        is_text(
            &rt,
            alloc,
            &RestartFault::AlreadyUp,
            "the server is up already"
        )
    );
    assert!(rt;
        is_text(
            &rt,
            alloc,
            &RestartFault::AlreadyFailed,
            "the server failed already"
        )
    );
}

#[test]
fn faults_of_approvals_have_texts(rt: HostRuntime) {
    let faults = [
        (RestartFault::NotAsked, "the restart is not asked for"),
        (RestartFault::GlobalCap, "too many servers are leaving"),
        (
            RestartFault::ShardCap(numbered(4095)),
            "shard 4095 may not be down",
        ),
        (
            RestartFault::GroupCap(4095),
            "too many shards of group 4095 would be down",
        ),
        (
            RestartFault::DomainCap(4095),
            "too many servers of domain 4095 would be down",
        ),
    ];
    for (fault, text) in &faults {
        assert!(rt; is_text(&rt, rt.alloc(), fault, text));
    }
}

#[test]
fn faults_of_stops_have_texts(rt: HostRuntime) {
    let serving = RestartFault::StillServing(numbered(1));
    let not_approved = "the restart is not approved";
    assert!(rt; is_text(&rt, rt.alloc(), &RestartFault::NotApproved, not_approved));
    assert!(rt; is_text(&rt, rt.alloc(), &serving, "shard 1 is not paused"));
}

// As many groups and shards as there are, of which server 4095 serves the last one, of the last group.
fn last_books(rt: &impl Abort, alloc: Global) -> Books {
    let servers = [server_row(1, 0, 2), server_row(MAX_SERVER, MAX_DOMAIN, 2)];
    let groups = equal_groups(rt, alloc, GroupRow { limit: 1, down: 0 }, MAX_GROUPS);
    let shards = all_shards(alloc).ok().expect(rt, "memory");
    let mut books = open_books(rt, alloc, &servers, &groups, &shards);
    assign_all(rt, &mut books, &[(4095, MAX_SERVER, Ok(()))]);
    books
}

// The last group refuses the restart of the last server, and lets the first one restart beside it.
#[test]
fn approves_at_the_limits(rt: HostRuntime) {
    let mut books = last_books(&rt, rt.alloc());
    let full = RestartFault::GroupCap(4095);
    let steps = [
        (MAX_SERVER, Step::Ask(Ok(()))),
        (MAX_SERVER, Step::Approve(Err(full))),
        (1, Step::Ask(Ok(()))),
        (1, Step::Approve(Ok(()))),
    ];
    make_each(&rt, &mut books, MAX_SERVER, &steps);
    assert!(rt; state(&rt, &books, 1) == ServerState::Approved);
}
