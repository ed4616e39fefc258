//! Settings lines.

use sm_rows::{DomainRow, GroupRow, ServerRow, ShardRow};
use sm_settings::{MAX_SETTINGS, Settings, SettingsFault};
use std::alloc::{AllocError, Global};
use std::process::Abort;
use std::test::Fail;

pub(crate) const PLAIN: &str =
    r#"{"version":1,"bounds":["","m"],"servers":[{"id":1,"domain":0,"capacity":2},{"id":2,"domain":1,"capacity":2},{"id":3,"domain":1,"capacity":2}],"groups":[{"limit":2,"down":1}],"shards":[{"group":0,"load":1,"cap":0},{"group":0,"load":1,"cap":1}],"ops":1,"kept":100,"ceiling":1000,"workers":2}"#;

/// A short line of version 2.
const SMALL: &str =
    r#"{"version":2,"bounds":[""],"servers":[{"id":1,"domain":0,"capacity":1}],"groups":[{"limit":1,"down":1}],"shards":[{"group":0,"load":1,"cap":1}],"domains":[{"domain":0,"down":1}],"ops":1,"kept":100,"ceiling":1000,"workers":1}"#;

/// The plain line with the first `old` in it changed to `new`.
fn changed(rt: &impl Abort, alloc: Global, old: &str, new: &str) -> String {
    let (front, back) = PLAIN.split_once(old).expect(rt, "not in the plain line");
    let line = format!(in alloc; "{front}{new}{back}");
    line.ok().expect(rt, "memory")
}

/// The fault of the plain line with the first `old` in it changed to `new`.
fn fault_with(rt: &impl Abort, alloc: Global, old: &str, new: &str) -> Option<SettingsFault> {
    fault_of(alloc, changed(rt, alloc, old, new).as_bytes())
}

fn fault_of(alloc: Global, line: &[u8]) -> Option<SettingsFault> {
    Settings::read(alloc, line).err()
}

/// The plain line with each first text changed to the second is refused with the third.
fn refuses(rt: &impl Abort, alloc: Global, cases: &[(&str, &str, SettingsFault)]) {
    for (old, new, fault) in cases {
        assert!(rt; fault_with(rt, alloc, old, new) == Some(*fault), "at {new}");
    }
}

// Whether it is the row of the server with this number, in this domain.
fn is_server(row: Option<&ServerRow>, id: u16, domain: u16) -> bool {
    match row {
        Some(row) => row.id.number() == id && row.domain == domain && row.capacity == 2,
        None => false,
    }
}

// Whether the rows are those of servers 1 to 3, the first of which is in a domain of its own.
fn are_plain_servers(rows: &[ServerRow]) -> bool {
    is_server(rows.get(0), 1, 0) && is_server(rows.get(1), 2, 1) && is_server(rows.get(2), 3, 1)
}

fn shard_row(cap: u8) -> ShardRow {
    ShardRow {
        group: 0,
        load: 1,
        cap,
    }
}

#[test]
fn plain_line_gives_its_values(rt: HostRuntime) -> Result<(), Fail> {
    let settings = Settings::read(rt.alloc(), PLAIN.as_bytes())?;
    assert_eq!(rt; settings.layout.count(), 2);
    assert_eq!(rt; settings.servers.len(), 3);
    assert!(rt; has_plain_rows(&settings));
    assert!(rt; settings.ops == 1 && settings.kept == 100);
    assert!(rt; settings.ceiling == 1000 && settings.workers == 2);
    Ok(())
}

fn has_plain_rows(settings: &Settings) -> bool {
    let groups = [GroupRow { limit: 2, down: 1 }];
    are_plain_servers(&settings.servers)
        && settings.groups.as_slice() == groups.as_slice()
        && settings.shards.as_slice() == [shard_row(0), shard_row(1)].as_slice()
}

#[test]
fn each_rule_has_its_fault(rt: HostRuntime) {
    let cases = [
        ("2}]", "2}", SettingsFault::BadJson),
        ("\"version\":1", "\"version\":3", SettingsFault::BadVersion),
        (
            "\"workers\":2",
            "\"workers\":2,\"domains\":[]",
            SettingsFault::BadShape,
        ),
        ("\"cap\":1", "\"cap\":true", SettingsFault::BadShape),
        ("\"\",\"m\"", "\"m\",\"\"", SettingsFault::BadLayout),
        ("\"id\":3", "\"id\":2", SettingsFault::BadServers),
        // What `server_id_4096` breaks, a `read` that takes server 4,096 as server 4,095.
        ("\"id\":3", "\"id\":4096", SettingsFault::BadServers),
        ("\"limit\":2", "\"limit\":4097", SettingsFault::BadGroups),
        ("\"group\":0", "\"group\":1", SettingsFault::BadShards),
        ("\"cap\":1", "\"cap\":2", SettingsFault::BadShards),
        ("\"ops\":1", "\"ops\":4096", SettingsFault::BadOps),
        ("\"kept\":100", "\"kept\":0", SettingsFault::BadKept),
        (
            "\"ceiling\":1000",
            "\"ceiling\":68719476736",
            SettingsFault::BadCeiling,
        ),
        ("\"workers\":2", "\"workers\":9", SettingsFault::BadWorkers),
        ("\"version\":1", "\"version\":2", SettingsFault::BadShape),
    ];
    refuses(&rt, rt.alloc(), &cases);
    assert!(rt; fault_of(rt.alloc(), b"") == Some(SettingsFault::BadJson));
}

#[test]
fn first_fault_is_told(rt: HostRuntime) {
    let cases = [
        (
            "\"version\":1,\"bounds\"",
            "\"version\":3,\"limits\"",
            SettingsFault::BadVersion,
        ),
        (
            "\"\",\"m\"],",
            "\"m\"],\"rest\":0,",
            SettingsFault::BadShape,
        ),
        (
            "\"m\"],\"servers\":[{\"id\":1",
            "\"\"],\"servers\":[{\"id\":0",
            SettingsFault::BadLayout,
        ),
        (
            "\"id\":3,\"domain\":1,\"capacity\":2}],\"groups\":[{\"limit\":2",
            "\"id\":1,\"domain\":1,\"capacity\":2}],\"groups\":[{\"limit\":5000",
            SettingsFault::BadServers,
        ),
        (
            "\"down\":1}],\"shards\":[{\"group\":0",
            "\"down\":5000}],\"shards\":[{\"group\":1",
            SettingsFault::BadGroups,
        ),
        (
            "\"cap\":1}],\"ops\":1",
            "\"cap\":2}],\"ops\":4096",
            SettingsFault::BadShards,
        ),
        (
            "\"ops\":1,\"kept\":100",
            "\"ops\":4096,\"kept\":0",
            SettingsFault::BadOps,
        ),
        (
            "\"kept\":100,\"ceiling\":1000",
            "\"kept\":0,\"ceiling\":2",
            SettingsFault::BadKept,
        ),
        (
            "\"ceiling\":1000,\"workers\":2",
            "\"ceiling\":2,\"workers\":0",
            SettingsFault::BadCeiling,
        ),
    ];
    refuses(&rt, rt.alloc(), &cases);
}

// The plain line as version 2, with these rows of domains.
fn with_domains(rt: &impl Abort, alloc: Global, domains: &str) -> String {
    let (_, rest) = PLAIN.split_once("\"version\":1").expect(rt, "a version");
    let line = format!(in alloc; "{{\"domains\":{domains},\"version\":2{rest}");
    line.ok().expect(rt, "memory")
}

// Whether the line's rows of domains are these.
fn has_domains(alloc: Global, line: &str, rows: &[DomainRow]) -> bool {
    match Settings::read(alloc, line.as_bytes()) {
        Ok(settings) => settings.domains.as_slice() == rows,
        Err(_) => false,
    }
}

#[test]
fn domains_come_with_version_2(rt: HostRuntime) {
    let alloc = rt.alloc();
    let domains = "[{\"domain\":0,\"down\":1},{\"domain\":1,\"down\":2}]";
    let line = with_domains(&rt, alloc, domains);
    assert!(rt; has_domains(alloc, &line, &[domain_row(0, 1), domain_row(1, 2)]));
    assert!(rt; has_domains(alloc, PLAIN, &[domain_row(0, 4095), domain_row(1, 4095)]));
}

fn domain_row(domain: u16, down: u16) -> DomainRow {
    DomainRow { domain, down }
}

// The fault of the plain line as version 2, with these rows of domains.
fn fault_of_domains(rt: &impl Abort, alloc: Global, domains: &str) -> Option<SettingsFault> {
    fault_of(alloc, with_domains(rt, alloc, domains).as_bytes())
}

#[test]
fn domains_keep_their_rule(rt: HostRuntime) {
    let cases = [
        ("[{\"domain\":1,\"down\":1}]", SettingsFault::BadDomains),
        (
            "[{\"domain\":0,\"down\":1},{\"domain\":1,\"down\":4096}]",
            SettingsFault::BadDomains,
        ),
        ("[{\"domain\":0}]", SettingsFault::BadShape),
    ];
    for (domains, fault) in cases {
        assert!(rt;
            fault_of_domains(&rt, rt.alloc(), domains) == Some(fault),
            "at {domains}"
        );
    }
}

#[test]
fn numbers_are_digits_alone(rt: HostRuntime) {
    let cases = [
        ("100", "1.0", SettingsFault::BadShape),
        ("100", "1e3", SettingsFault::BadShape),
        ("100", "-0", SettingsFault::BadShape),
        ("100", "18446744073709551616", SettingsFault::BadShape),
        ("100", "18446744073709551615", SettingsFault::BadKept),
        ("100", "01", SettingsFault::BadJson),
        (
            "\"version\":1",
            "\"version\":1.0",
            SettingsFault::BadVersion,
        ),
    ];
    refuses(&rt, rt.alloc(), &cases);
}

// The restarts that may go on at once, and the limit of a shard's kept requests, which the line gives; none where it is refused.
fn ops_and_kept(alloc: Global, line: &[u8]) -> Option<(u16, u32)> {
    let settings = Settings::read(alloc, line).ok()?;
    Some((settings.ops, settings.kept))
}

#[test]
fn last_of_equal_members_counts(rt: HostRuntime) {
    let line = changed(&rt, rt.alloc(), "\"ops\":1", "\"ops\":true,\"ops\":3");
    assert!(rt; ops_and_kept(rt.alloc(), line.as_bytes()) == Some((3, 100)));
    let versions = "\"version\":1,\"version\":3";
    let fault = fault_with(&rt, rt.alloc(), "\"version\":1", versions);
    assert!(rt; fault == Some(SettingsFault::BadVersion));
}

// The settings of the line, read again where memory is refused.
fn read_in_two(rt: &impl Abort, alloc: Global, line: &[u8]) -> Settings {
    match Settings::read(alloc, line) {
        Ok(settings) => settings,
        Err(fault) => {
            assert!(rt; fault == SettingsFault::NoMemory);
            Settings::read(alloc, line).ok().expect(rt, "the settings")
        }
    }
}

// With each allocation refused in turn (`tools/run-tests` does it), settings of either version.
#[test]
fn refused_memory_reads_nothing(rt: HostRuntime) {
    let alloc = rt.alloc();
    assert!(rt; has_plain_rows(&read_in_two(&rt, alloc, PLAIN.as_bytes())));
    let settings = read_in_two(&rt, alloc, SMALL.as_bytes());
    assert!(rt; settings.domains.as_slice() == [domain_row(0, 1)].as_slice());
}

// The plain line with so many bytes, of which the last ones are spaces.
fn long_line(alloc: Global, length: usize) -> Result<Vec<u8>, AllocError> {
    let mut line = Vec::from_slice(alloc, PLAIN.as_bytes())?;
    line.resize(length, b' ')?;
    Ok(line)
}

#[test]
fn longest_line_is_read(rt: HostRuntime) {
    let line = long_line(rt.alloc(), MAX_SETTINGS)
        .ok()
        .expect(&rt, "memory");
    assert!(rt; ops_and_kept(rt.alloc(), &line) == Some((1, 100)));
    let line = long_line(rt.alloc(), MAX_SETTINGS + 1)
        .ok()
        .expect(&rt, "memory");
    assert!(rt; fault_of(rt.alloc(), &line) == Some(SettingsFault::TooLong));
}
