ghost use Rattle.std.specs.Prelude.{◌≤◌, ◌<◌};
ghost use Rattle.sm_ranges.specs.declared.limits.TheConstants.{MAX_SERVER};

use crate::common::{
    all_shards, assign_all, equal_groups, narrow, new_books, numbered, open_books, prepare_gives,
    server, server_row, shard, shard_row,
};
use sm_place::{Books, BooksFault, Move, PlaceFault, Plan, ServerState};
use sm_ranges::limits::{MAX_SERVER, MAX_SHARD, MAX_SHARDS};
use sm_ranges::{ServerId, ShardId, Stand};
use sm_rows::limits::{MAX_DOMAIN, MAX_GROUPS, MAX_LIMIT};
use sm_rows::{DomainRow, GroupRow, ServerRow, ShardRow, equal_domains};
use std::alloc::{AllocError, Global};
use std::process::Abort;
use std::test::Fail;

fn group(limit: u16) -> GroupRow {
    GroupRow { limit, down: 1 }
}

// The move of this shard to this server.
fn moved(k: u16, a: u16) -> Move
    requires shard { k < 4096 }
    requires server { (1 ≤ a) × (a ≤ MAX_SERVER) }
{
    Move {
        shard: numbered(k),
        to: ServerId::of(a),
    }
}

// The plan makes these moves, and leaves these shards.
fn assert_plan(rt: &impl Abort, plan: &Plan, moves: &[Move], left: &[ShardId]) {
    assert!(rt; plan.moves() == moves);
    assert!(rt; plan.left() == left);
}

// A plan for the vacant shards makes these moves, and leaves these shards.
fn assert_assigned(
    rt: &impl Abort,
    alloc: Global,
    books: &Books,
    moves: &[Move],
    left: &[ShardId],
) {
    let plan = books.plan_assign(alloc).ok().expect(rt, "a plan");
    assert_plan(rt, &plan, moves, left);
}

// A plan for the shards of this server makes these moves, and leaves these shards.
fn assert_drained(
    rt: &impl Abort,
    alloc: Global,
    books: &Books,
    a: u16,
    moves: &[Move],
    left: &[ShardId],
) {
    let a = server(rt, books, a);
    let plan = books.plan_drain(alloc, a).ok().expect(rt, "a plan");
    assert_plan(rt, &plan, moves, left);
}

// The example of the documentation of sm_place: the second server alone has room for the shard.
#[test]
fn plans_a_shard(rt: HostRuntime) -> Result<(), Fail> {
    let alloc = rt.alloc();
    let servers = [server_row(1, 0, 2), server_row(2, 1, 3)];
    let group = GroupRow { limit: 1, down: 0 };
    let shard = ShardRow {
        group: 0,
        load: 3,
        cap: 0,
    };
    let domains = equal_domains(alloc, &servers, 1)?;
    let books = Books::new(alloc, &servers, &[group], &[shard], &domains)?;
    let plan = books.plan_assign(alloc)?;
    assert_plan(&rt, &plan, &[moved(0, 2)], &[]);
    Ok(())
}

#[test]
fn plans_where_all_fits(rt: HostRuntime) {
    let books = new_books(&rt, rt.alloc(), group(2), 2);
    assert_assigned(&rt, rt.alloc(), &books, &[moved(0, 1), moved(1, 1)], &[]);
}

#[test]
fn shows_its_rows(rt: HostRuntime) {
    let books = new_books(&rt, rt.alloc(), group(2), 2);
    assert!(rt; books.rows().len() == 3);
    assert!(rt; books.groups().len() == 1);
    assert!(rt; books.domains().len() == 2);
    assert!(rt; capacity(&rt, &books, 3) == 2);
}

fn capacity(rt: &impl Abort, books: &Books, a: u16) -> u32 {
    let a = server(rt, books, a);
    books.row(a).capacity
}

// Has shard 0 served by server 1 and shard 1 by server 2, where not both fit server 1.
fn serve_apart(rt: &impl Abort, books: &mut Books) {
    let turns = [
        (0, 1, Ok(())),
        (1, 1, Err(PlaceFault::DomainLimit)),
        (1, 2, Ok(())),
    ];
    assign_all(rt, books, &turns);
}

#[test]
fn drains_within_limits(rt: HostRuntime) {
    let mut books = new_books(&rt, rt.alloc(), group(1), 1);
    serve_apart(&rt, &mut books);
    assert_drained(&rt, rt.alloc(), &books, 2, &[moved(1, 3)], &[]);
    assert_drained(&rt, rt.alloc(), &books, 1, &[], &[numbered(0)]);
    let turns = [(1, 3, Ok(())), (0, 2, Err(PlaceFault::DomainLimit))];
    assign_all(&rt, &mut books, &turns);
}

// Has an approval of the server's restart, which is Up.
fn approve(rt: &impl Abort, books: &mut Books, a: u16) {
    let a = server(rt, books, a);
    assert!(rt; books.state(a) == ServerState::Up);
    books.set_state(a, ServerState::Approved);
}

#[test]
fn refuses_a_leaving_server(rt: HostRuntime) {
    let mut books = new_books(&rt, rt.alloc(), group(1), 1);
    approve(&rt, &mut books, 2);
    let turns = [(0, 2, Err(PlaceFault::Leaving)), (0, 1, Ok(()))];
    assign_all(&rt, &mut books, &turns);
}

#[test]
fn migrates_within_limits(rt: HostRuntime) {
    let mut books = new_books(&rt, rt.alloc(), group(1), 1);
    let owner = ServerId::of(3);
    assign_all(&rt, &mut books, &[(0, 1, Ok(())), (1, 2, Ok(()))]);
    prepare_gives(&rt, &mut books, 1, 3, Ok(()));
    prepare_gives(&rt, &mut books, 0, 2, Err(PlaceFault::NoCapacity));
    forward(&rt, &mut books, ServerId::of(2), owner);
    prepare_gives(&rt, &mut books, 0, 2, Err(PlaceFault::NoCapacity));
    narrow(&rt, &mut books, 1, Stand::Serving(owner));
    prepare_gives(&rt, &mut books, 0, 2, Err(PlaceFault::DomainLimit));
}

// Has the next owner of shard 1 take it from the previous one.
fn forward(rt: &impl Abort, books: &mut Books, previous: ServerId, owner: ServerId) {
    let forwarding = Stand::Forwarding {
        owner: previous,
        next: owner,
    };
    narrow(rt, books, 1, forwarding);
    narrow(rt, books, 1, Stand::Taken { owner, previous });
}

#[test]
fn fills_a_server_to_its_capacity(rt: HostRuntime) {
    let mut books = new_books(&rt, rt.alloc(), group(2), 1);
    let turns = [
        (1, 2, Ok(())),
        (0, 2, Err(PlaceFault::NoCapacity)),
        (1, 2, Ok(())),
    ];
    assign_all(&rt, &mut books, &turns);
    assert_served(&rt, &books, 1, 2);
}

fn assert_served(rt: &impl Abort, books: &Books, k: u16, a: u16) {
    let k = shard(rt, books, k);
    let a = server(rt, books, a);
    assert!(rt; books.stand(k) == Stand::Serving(a));
}

// The rows of equal domains, of which one server may be down, again where memory is refused.
fn domains_in_two(rt: &impl Abort, alloc: Global, servers: &[ServerRow]) -> Vec<DomainRow> {
    match equal_domains(alloc, servers, 1) {
        Ok(domains) => domains,
        Err(_) => equal_domains(alloc, servers, 1).ok().expect(rt, "domains"),
    }
}

// Makes books of three servers and a limit of 1, again where memory is refused.
fn made_in_two(rt: &impl Abort, alloc: Global) -> Books {
    let servers = [
        server_row(1, 0, 2),
        server_row(2, 1, 2),
        server_row(3, 1, 2),
    ];
    books_in_two(rt, alloc, &servers)
}

// Makes books of these servers and a limit of 1, again where memory is refused.
fn books_in_two(rt: &impl Abort, alloc: Global, servers: &[ServerRow]) -> Books {
    let shards = [shard_row(0, 0), shard_row(0, 1)];
    let domains = domains_in_two(rt, alloc, servers);
    match Books::new(alloc, servers, &[group(1)], &shards, &domains) {
        Ok(books) => books,
        Err(fault) => {
            assert!(rt; fault == BooksFault::NoMemory);
            let books = Books::new(alloc, servers, &[group(1)], &shards, &domains);
            books.ok().expect(rt, "books")
        }
    }
}

// Plans from the server, or where there is none the Vacant shards, again where memory is refused.
fn planned_in_two(
    alloc: Global,
    books: &Books,
    from: Option<ServerId>,
) -> Result<Plan, AllocError> {
    match from {
        None => books
            .plan_assign(alloc)
            .or_else(|_| books.plan_assign(alloc)),
        Some(a) => books
            .plan_drain(alloc, a)
            .or_else(|_| books.plan_drain(alloc, a)),
    }
}

// The plan moves this shard to server 3, and no other.
fn assert_moves_one(rt: &impl Abort, alloc: Global, books: &Books, from: Option<ServerId>, k: u16)
    requires { k < 4096 }
{
    let plan = planned_in_two(alloc, books, from).ok().expect(rt, "a plan");
    assert_plan(rt, &plan, &[moved(k, 3)], &[]);
}

fn fail(rt: &impl Abort, books: &mut Books, a: u16) {
    let a = server(rt, books, a);
    books.set_state(a, ServerState::Failed);
}

fn assert_failed(rt: &impl Abort, books: &Books, a: u16) {
    let a = server(rt, books, a);
    assert!(rt; books.state(a) == ServerState::Failed);
}

// Vacant shard 1 goes to server 3, and so does shard 0 where server 1 is drained.
fn assert_plans(rt: &impl Abort, alloc: Global, books: &Books) {
    assert_moves_one(rt, alloc, books, None, 1);
    assert_moves_one(rt, alloc, books, Some(ServerId::of(1)), 0);
}

// With each allocation refused in turn (`tools/run-tests` does it) a refused call leaves the books as they were,
// and the same call made again does its work.
#[test]
fn refused_memory_changes_nothing(rt: HostRuntime) {
    let mut books = made_in_two(&rt, rt.alloc());
    fail(&rt, &mut books, 2);
    assign_all(&rt, &mut books, &[(0, 1, Ok(()))]);
    assert_plans(&rt, rt.alloc(), &books);
    assert_served(&rt, &books, 0, 1);
    assert_failed(&rt, &books, 2);
}

// Whether a server, a group of this limit and a shard of this cap make no books without a row of a domain, for this reason.
fn is_refused(alloc: Global, server: ServerRow, limit: u16, cap: u8, fault: BooksFault) -> bool {
    let shards = [shard_row(0, cap)];
    Books::new(alloc, &[server], &[group(limit)], &shards, &[]).err() == Some(fault)
}

#[test]
fn names_bad_servers_first(rt: HostRuntime) {
    let beyond = server_row(1, MAX_DOMAIN + 1, 2);
    assert!(rt; is_refused(rt.alloc(), beyond, MAX_LIMIT + 1, 2, BooksFault::BadServers));
}

#[test]
fn names_bad_groups_before_shards(rt: HostRuntime) {
    let server = server_row(1, 0, 2);
    assert!(rt; is_refused(rt.alloc(), server, MAX_LIMIT + 1, 2, BooksFault::BadGroups));
}

#[test]
fn names_bad_shards_before_domains(rt: HostRuntime) {
    let server = server_row(1, 0, 2);
    assert!(rt; is_refused(rt.alloc(), server, MAX_LIMIT, 2, BooksFault::BadShards));
}

#[test]
fn names_bad_domains_last(rt: HostRuntime) {
    let server = server_row(1, 0, 2);
    assert!(rt; is_refused(rt.alloc(), server, MAX_LIMIT, 1, BooksFault::BadDomains));
}

// As many servers as there are, in as many domains; the first has room for all shards, each other for one.
fn all_servers(alloc: Global) -> Result<Vec<ServerRow>, AllocError> {
    let mut servers = Vec::new(alloc);
    servers.push(server_row(1, MAX_DOMAIN, MAX_SERVER.into()))?;
    for number in 2..=MAX_SERVER {
        servers.push(server_row(number, number - 1, 1))?;
    }
    Ok(servers)
}

fn full_books(rt: &impl Abort, alloc: Global) -> Books {
    let servers = all_servers(alloc).ok().expect(rt, "memory");
    let groups = equal_groups(rt, alloc, group(1), MAX_GROUPS);
    let shards = all_shards(alloc).ok().expect(rt, "memory");
    open_books(rt, alloc, &servers, &groups, &shards)
}

// Whether a plan for the vacant shards moves all shards, the last one so.
fn moves_all(rt: &impl Abort, alloc: Global, books: &Books, last: Move) -> bool {
    let plan = books.plan_assign(alloc).ok().expect(rt, "a plan");
    plan.moves().len() == MAX_SHARDS && plan.left().is_empty() && plan.moves().last() == Some(&last)
}

// All but one shard go to server 1.
#[test]
fn plans_at_the_limits(rt: HostRuntime) {
    let books = full_books(&rt, rt.alloc());
    assert!(rt; moves_all(&rt, rt.alloc(), &books, moved(MAX_SHARD, 2)));
}

#[test]
fn serves_and_drains_at_the_limits(rt: HostRuntime) {
    let mut books = full_books(&rt, rt.alloc());
    assign_all(&rt, &mut books, &[(MAX_SHARD, MAX_SERVER, Ok(()))]);
    assert_served(&rt, &books, MAX_SHARD, MAX_SERVER);
    assert_drained(
        &rt,
        rt.alloc(),
        &books,
        MAX_SERVER,
        &[moved(MAX_SHARD, 1)],
        &[],
    );
    fail(&rt, &mut books, MAX_SERVER);
    assert_failed(&rt, &books, MAX_SERVER);
}

// One server, of the greatest domain, and two shards of the last group.
fn books_of_the_greatest_domain(rt: &impl Abort, alloc: Global) -> Books {
    let servers = [server_row(MAX_SERVER, MAX_DOMAIN, 2)];
    let groups = equal_groups(rt, alloc, group(1), MAX_GROUPS);
    let shards = [shard_row(MAX_SHARD, 1), shard_row(MAX_SHARD, 1)];
    open_books(rt, alloc, &servers, &groups, &shards)
}

#[test]
fn plans_in_the_greatest_domain(rt: HostRuntime) {
    let books = books_of_the_greatest_domain(&rt, rt.alloc());
    assert_assigned(
        &rt,
        rt.alloc(),
        &books,
        &[moved(0, MAX_SERVER)],
        &[numbered(1)],
    );
}
