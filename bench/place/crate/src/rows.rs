use sm_place::books::Books;
use sm_place::books_fault::BooksFault;
use sm_place::laws::fit_leaves_room;
use sm_ranges::server_id::ServerId;
use sm_ranges::shard_id::ShardId;
use sm_ranges::stand::Stand;
use sm_rows::limits::MAX_DOMAIN_DOWN;
use sm_rows::{DomainRow, GroupRow, ServerRow, ShardRow, equal_domains};
use std::alloc::{AllocError, Global};

/// Rows of servers in as many domains, of groups, and of as many shards of load 1, one a group.
#[derive(Drop)]
pub(crate) struct Rows {
    pub(crate) servers: Vec<ServerRow>,
    pub(crate) groups: Vec<GroupRow>,
    pub(crate) shards: Vec<ShardRow>,
    pub(crate) domains: Vec<DomainRow>,
}

impl Rows {
    /// The rows of so many shards and groups, and of one server less, up to 4,095. The servers from the number `roomy` on
    /// have room for all shards, and the others for none.
    pub(crate) fn new(alloc: Global, size: u16, roomy: u16) -> Result<Rows, AllocError> {
        let servers = servers_of(alloc, size, roomy)?;
        Ok(Rows {
            domains: equal_domains(alloc, &servers, MAX_DOMAIN_DOWN)?,
            servers,
            groups: vec![in alloc; GroupRow {
                limit: 1,
                down: 4096
            }; usize::from(size)]?,
            shards: shards_of(alloc, size)?,
        })
    }

    /// The books of the rows.
    pub(crate) fn books(&self, alloc: Global) -> Result<Books, BooksFault> {
        Books::new(
            alloc,
            &self.servers,
            &self.groups,
            &self.shards,
            &self.domains,
        )
    }
}

// One server less than so many, up to 4,095, each in a domain of its own.
fn servers_of(alloc: Global, size: u16, roomy: u16) -> Result<Vec<ServerRow>, AllocError> {
    let mut servers = Vec::new(alloc);
    for number in 1..size {
        if let Some(id) = ServerId::new(number) {
            let capacity = if number >= roomy { 4096 } else { 0 };
            servers.push(ServerRow {
                id,
                domain: number,
                capacity,
            })?;
        }
    }
    Ok(servers)
}

// So many shards of load 1, each of a group of its own.
fn shards_of(alloc: Global, size: u16) -> Result<Vec<ShardRow>, AllocError> {
    let mut shards = Vec::new(alloc);
    for group in 0..size {
        shards.push(ShardRow {
            group,
            load: 1,
            cap: 1,
        })?;
    }
    Ok(shards)
}

/// Has the server serve each shard that fits it.
pub(crate) fn serve_all(books: &mut Books, a: ServerId) {
    for number in 0..4096 {
        if let Some(k) = ShardId::new(number) {
            serve(books, k, a);
        }
    }
}

// Has the server serve the shard, if it fits.
fn serve(books: &mut Books, k: ShardId, a: ServerId) {
    if k.index() < books.shards().len() && books.knows(a) && books.fits(k, a).is_ok() {
        books.soundness();
        fit_leaves_room();
        books.set_stand(k, Stand::Serving(a));
    }
}
