use crate::common::{server_row, shard_row};
use sm_ranges::ServerId;
use sm_ranges::limits::{MAX_SERVER, MAX_SHARD};
use sm_rows::limits::{MAX_DOMAIN, MAX_DOMAIN_DOWN, MAX_GROUPS, MAX_LIMIT};
use sm_rows::{
    DomainRow, GroupRow, ServerRow, are_domains, are_groups, are_servers, are_shards, equal_domains,
};

#[test]
fn servers_rise(rt: HostRuntime) {
    let server = ServerRow {
        id: ServerId::of(7),
        domain: 4095,
        capacity: 100,
    };
    assert!(rt; server.is_in_range());
    assert!(rt; are_servers(&[server]));
    assert!(rt; !are_servers(&[server, server]));
}

// Whether a group of these numbers keeps its rules.
fn is_group(limit: u16, down: u16) -> bool {
    are_groups(&[GroupRow { limit, down }])
}

// Whether a shard of these numbers keeps its rules.
fn is_shard(groups: usize, group: u16, cap: u8) -> bool {
    are_shards(groups, &[shard_row(group, cap)])
}

#[test]
fn servers_keep_their_limits(rt: HostRuntime) {
    let first = server_row(1, 0, 0);
    let last = server_row(MAX_SERVER, MAX_DOMAIN, u32::MAX);
    let beyond = server_row(1, MAX_DOMAIN + 1, 0);
    assert!(rt; are_servers(&[first, last]));
    assert!(rt; !are_servers(&[]));
    assert!(rt; !are_servers(&[beyond]));
}

#[test]
fn groups_keep_their_limits(rt: HostRuntime) {
    assert!(rt; is_group(MAX_LIMIT, MAX_LIMIT));
    assert!(rt; !is_group(MAX_LIMIT + 1, MAX_LIMIT));
    assert!(rt; !is_group(MAX_LIMIT, MAX_LIMIT + 1));
    assert!(rt; !are_groups(&[]));
}

#[test]
fn shards_keep_their_limits(rt: HostRuntime) {
    assert!(rt; is_shard(MAX_GROUPS, MAX_SHARD, 1));
    assert!(rt; !is_shard(MAX_GROUPS - 1, MAX_SHARD, 1));
    assert!(rt; !is_shard(MAX_GROUPS, 0, 2));
    assert!(rt; !are_shards(MAX_GROUPS, &[]));
}

fn domain_row(domain: u16, down: u16) -> DomainRow {
    DomainRow { domain, down }
}

// Three servers of the least and the greatest domain.
fn servers_apart() -> [ServerRow; 3] {
    [
        server_row(1, MAX_DOMAIN, 0),
        server_row(2, 0, 0),
        server_row(3, 0, 0),
    ]
}

#[test]
fn domains_keep_their_limits(rt: HostRuntime) {
    let servers = servers_apart();
    let (first, last) = (domain_row(0, 1), domain_row(MAX_DOMAIN, MAX_DOMAIN_DOWN));
    let beyond = domain_row(MAX_DOMAIN, MAX_DOMAIN_DOWN + 1);
    assert!(rt; last.is_in_range());
    assert!(rt; are_domains(&servers, &[first, last]));
    assert!(rt; !are_domains(&servers, &[first, beyond]));
}

#[test]
fn domains_are_those_of_servers(rt: HostRuntime) {
    let servers = servers_apart();
    let (first, last) = (domain_row(0, 1), domain_row(MAX_DOMAIN, 1));
    assert!(rt; !are_domains(&servers, &[first]));
    assert!(rt; !are_domains(&servers, &[last, first]));
    assert!(rt; !are_domains(&servers, &[first, first, last]));
    assert!(rt; !are_domains(&servers, &[first, domain_row(1, 1), last]));
}

#[test]
fn equal_domains_are_those_of_servers(rt: HostRuntime) {
    let rows = equal_domains(rt.alloc(), &servers_apart(), 7);
    let rows = rows.ok().expect(&rt, "memory");
    assert!(rt; rows.as_slice() == [domain_row(0, 7), domain_row(MAX_DOMAIN, 7)].as_slice());
}
