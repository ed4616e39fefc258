//! Rows and books that several tests use, and new stands of shards in them.

ghost use Rattle.std.specs.Prelude.{◌≡◌, ◌≤◌, ◌<◌, IfSome, Ok, length, true};
ghost use Rattle.sm_ranges.specs.Stand.{AllNamed, names};
ghost use Rattle.sm_ranges.specs.declared.limits.TheConstants.{MAX_SERVER};
ghost use Rattle.sm_ranges.specs.declared.stand.Stand.TheVariants.{Serving};
ghost use Rattle.sm_place.specs.Books.{IsKnown, shard_at};
ghost use Rattle.sm_place.specs.Room.{fit};

use sm_place::laws::{fewer_names_leave_room, fit_leaves_room};
use sm_place::{Books, PlaceFault};
use sm_ranges::limits::MAX_SHARD;
use sm_ranges::{ServerId, ShardId, Stand};
use sm_rows::limits::MAX_DOMAIN_DOWN;
use sm_rows::{GroupRow, ServerRow, ShardRow, equal_domains};
use std::alloc::{AllocError, Global};
use std::process::Abort;

pub(crate) fn server_row(id: u16, domain: u16, capacity: u32) -> ServerRow
    requires { (1 ≤ id) × (id ≤ MAX_SERVER) }
{
    ServerRow {
        id: ServerId::of(id),
        domain,
        capacity,
    }
}

/// A shard of load 1.
pub(crate) fn shard_row(group: u16, cap: u8) -> ShardRow {
    ShardRow {
        group,
        load: 1,
        cap,
    }
}

/// As many shards as there are, each of a group of its own.
pub(crate) fn all_shards(alloc: Global) -> Result<Vec<ShardRow>, AllocError> {
    let mut shards = Vec::new(alloc);
    for number in 0..=MAX_SHARD {
        shards.push(shard_row(number, 1))?;
    }
    Ok(shards)
}

/// So many equal groups.
pub(crate) fn equal_groups(
    rt: &impl Abort,
    alloc: Global,
    group: GroupRow,
    count: usize,
) -> Vec<GroupRow> {
    vec![in alloc; group; count].ok().expect(rt, "memory")
}

/// Books of these rows, whose domains have no cap.
pub(crate) fn open_books(
    rt: &impl Abort,
    alloc: Global,
    servers: &[ServerRow],
    groups: &[GroupRow],
    shards: &[ShardRow],
) -> Books {
    let domains = equal_domains(alloc, servers, MAX_DOMAIN_DOWN);
    let domains = domains.ok().expect(rt, "memory");
    let books = Books::new(alloc, servers, groups, shards, &domains);
    books.ok().expect(rt, "books")
}

/// Three servers in two domains, the second of this capacity and the others of 2, one group, and two shards of load 1, the
/// first of which may not be down.
pub(crate) fn new_books(rt: &impl Abort, alloc: Global, group: GroupRow, capacity: u32) -> Books {
    let servers = [
        server_row(1, 0, 2),
        server_row(2, 1, capacity),
        server_row(3, 1, 2),
    ];
    let shards = [shard_row(0, 0), shard_row(0, 1)];
    open_books(rt, alloc, &servers, &[group], &shards)
}

/// The shard with this number.
pub(crate) fn numbered(k: u16) -> ShardId
    requires { k < 4096 }
{
    let Some(k) = ShardId::new(k) else {
        unreachable!()
    };
    k
}

pub(crate) fn server(rt: &impl Abort, books: &Books, a: u16) -> ServerId
    ensures { IsKnown books.now.servers result }
{
    let a = ServerId::new(a).expect(rt, "a server");
    assert!(rt; books.knows(a));
    a
}

pub(crate) fn shard(rt: &impl Abort, books: &Books, k: u16) -> ShardId
    ensures { result < length books.now.shards }
{
    let k = ShardId::new(k).expect(rt, "a shard");
    assert!(rt; k.index() < books.shards().len());
    k
}

// Has the server serve the shard, where it fits.
fn assign(rt: &impl Abort, books: &mut Books, k: u16, a: u16) -> Result<(), PlaceFault> {
    let k = shard(rt, books, k);
    let a = server(rt, books, a);
    let fits = books.fits(k, a);
    if let Ok(()) = fits {
        serve(books, k, a);
    }
    fits
}

/// Makes the assignments in turn, each of a shard to a server with this answer.
pub(crate) fn assign_all(
    rt: &impl Abort,
    books: &mut Books,
    turns: &[(u16, u16, Result<(), PlaceFault>)],
) {
    for (k, a, answer) in turns {
        assert!(rt; assign(rt, books, *k, *a) == *answer);
    }
}

// Has the server serve the shard, which it fits.
fn serve(books: &mut Books, k: ShardId, a: ServerId)
    requires shard { k < length books.old.shards }
    requires known { IsKnown books.old.servers a }
    requires fits { fit books.old k a ≡ Ok tt }
{
    books.soundness();
    fit_leaves_room();
    books.set_stand(k, Stand::Serving(a));
}

// The server that serves the shard.
fn owner(rt: &impl Abort, books: &Books, k: ShardId) -> ServerId
    requires { k < length books.now.shards }
    ensures serves { (shard_at books.now.shards k).stand ≡ Serving result }
    ensures known { IsKnown books.now.servers result }
{
    let Stand::Serving(owner) = books.stand(k) else {
        panic!(rt; "nobody serves the shard")
    };
    assert!(rt; books.knows(owner));
    owner
}

// Has the server make ready beside the owner of the shard, where it fits.
fn prepare(rt: &impl Abort, books: &mut Books, k: u16, next: u16) -> Result<(), PlaceFault> {
    let k = shard(rt, books, k);
    let next = server(rt, books, next);
    let owner = owner(rt, books, k);
    let fits = books.fits(k, next);
    if let Ok(()) = fits {
        make_ready(books, k, owner, next);
    }
    fits
}

/// Has the server make ready beside the owner of the shard, with this answer.
pub(crate) fn prepare_gives(
    rt: &impl Abort,
    books: &mut Books,
    k: u16,
    next: u16,
    answer: Result<(), PlaceFault>,
) {
    assert!(rt; prepare(rt, books, k, next) == answer);
}

// Has the server make ready beside the owner of the shard, which it fits.
fn make_ready(books: &mut Books, k: ShardId, owner: ServerId, next: ServerId)
    requires shard { k < length books.old.shards }
    requires owner { (shard_at books.old.shards k).stand ≡ Serving owner }
    requires owner_known { IsKnown books.old.servers owner }
    requires known { IsKnown books.old.servers next }
    requires fits { fit books.old k next ≡ Ok tt }
{
    books.soundness();
    fit_leaves_room();
    books.set_stand(k, Stand::Prepared { owner, next });
}

/// Gives the shard a stand that names no further server.
pub(crate) fn narrow(rt: &impl Abort, books: &mut Books, k: u16, stand: Stand) {
    let k = shard(rt, books, k);
    let old = books.stand(k);
    assert!(rt; is_named(books, &old, stand.owner()));
    assert!(rt; is_named(books, &old, stand.other()));
    set_fewer(books, k, stand);
}

// Gives the shard this stand, which names servers of the old one alone.
fn set_fewer(books: &mut Books, k: ShardId, stand: Stand)
    requires shard { k < length books.old.shards }
    requires known { AllNamed (IsKnown books.old.servers) stand }
    requires named { AllNamed (λ a. names (shard_at books.old.shards k).stand a ≡ true) stand }
{
    books.soundness();
    fewer_names_leave_room();
    books.set_stand(k, stand);
}

// Whether the stand names the server, where there is one, and the books know it.
fn is_named(books: &Books, stand: &Stand, server: Option<ServerId>) -> bool
    ensures named { result ≡ true → IfSome server (λ a. names stand.now a ≡ true) }
    ensures known { result ≡ true → IfSome server (IsKnown books.now.servers) }
{
    match server {
        Some(a) => stand.names(a) && books.knows(a),
        None => true,
    }
}
