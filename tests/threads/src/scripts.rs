//! Whole scripts on a cluster.

use crate::gate::Counting;
use sm_cluster::Open;
use sm_lines::{Dialogue, Status};
use sm_threads::run_threads;
use std::alloc::Global;
use std::test::Fail;

/// Settings of three servers with two workers each: shard 0 below `m`, shard 1 from `m` on.
const SETTINGS: &[u8] =
    b"{\"version\":1,\"bounds\":[\"\",\"m\"],\"servers\":[{\"id\":1,\"domain\":0,\"capacity\":2},{\"id\":2,\"domain\":1,\"capacity\":2},{\"id\":3,\"domain\":1,\"capacity\":2}],\"groups\":[{\"limit\":2,\"down\":1}],\"shards\":[{\"group\":0,\"load\":1,\"cap\":0},{\"group\":0,\"load\":1,\"cap\":1}],\"ops\":1,\"kept\":1000,\"ceiling\":100000,\"workers\":2}\n";

/// Settings of eight servers with eight workers each, as many as may be, cut before the servers' end.
const EIGHT: &[u8] =
    b"{\"version\":1,\"bounds\":[\"\"],\"servers\":[{\"id\":1,\"domain\":0,\"capacity\":2},{\"id\":2,\"domain\":0,\"capacity\":2},{\"id\":3,\"domain\":0,\"capacity\":2},{\"id\":4,\"domain\":0,\"capacity\":2},{\"id\":5,\"domain\":0,\"capacity\":2},{\"id\":6,\"domain\":0,\"capacity\":2},{\"id\":7,\"domain\":0,\"capacity\":2},{\"id\":8,\"domain\":0,\"capacity\":2}";

/// A ninth one, whose workers are too many.
const NINTH: &[u8] = b",{\"id\":9,\"domain\":0,\"capacity\":2}";

/// What follows the servers.
const REST: &[u8] =
    b"],\"groups\":[{\"limit\":2,\"down\":1}],\"shards\":[{\"group\":0,\"load\":1,\"cap\":0}],\"ops\":1,\"kept\":100,\"ceiling\":1000,\"workers\":8}\nlook 0\n";

/// The settings, and these lines after them.
fn script_of(alloc: Global, lines: &[u8]) -> Result<Vec<u8>, Fail> {
    let mut script = Vec::from_slice(alloc, SETTINGS)?;
    script.extend_from_slice(lines)?;
    Ok(script)
}

#[test]
fn documented_example(rt: HostRuntime) -> Result<(), Fail> {
    let alloc = rt.alloc();
    let script = script_of(alloc, b"assign 1 1\nput m hello\nget m\nlook 1\n")?;
    let mut written = Vec::new(alloc);
    let mut dialogue = Dialogue::new(alloc, script.as_slice(), &mut written)?;
    let status = run_threads(&rt, alloc, &mut dialogue, &Open)?;
    assert_eq!(rt; status, Status::Ran);
    assert_eq!(rt;
        written.as_slice(),
        b"ok\ndone @1#0\ntext 5:hello @1#1\nServing 1 0 idle 5\n".as_slice()
    );
    Ok(())
}

#[test]
fn load_calls_the_servers(rt: HostRuntime) -> Result<(), Fail> {
    let alloc = rt.alloc();
    let script = script_of(alloc, b"assign 0 1\npublish 0\nload a 4 25\nget a\n")?;
    let gate = Counting::new(alloc)?;
    let mut written = Vec::new(alloc);
    let mut dialogue = Dialogue::new(alloc, script.as_slice(), &mut written)?;
    let status = run_threads(&rt, alloc, &mut dialogue, &gate)?;
    assert_eq!(rt; status, Status::Ran);
    assert!(rt; written.starts_with(b"ok\nok\nload ok\ncount "));
    assert!(rt; gate.passed() >= 102);
    Ok(())
}

/// The settings of these servers, the last of which may be one too many, and a look.
fn crowded(alloc: Global, ninth: &[u8]) -> Result<Vec<u8>, Fail> {
    let mut script = Vec::from_slice(alloc, EIGHT)?;
    script.extend_from_slice(ninth)?;
    script.extend_from_slice(REST)?;
    Ok(script)
}

#[test]
fn too_many_workers_are_refused(rt: HostRuntime) -> Result<(), Fail> {
    let alloc = rt.alloc();
    let script = crowded(alloc, NINTH)?;
    let mut written = Vec::new(alloc);
    let mut dialogue = Dialogue::new(alloc, script.as_slice(), &mut written)?;
    let status = run_threads(&rt, alloc, &mut dialogue, &Open)?;
    assert_eq!(rt; status, Status::BadSettings);
    assert_eq!(rt; written.as_slice(), b"settings TooManyWorkers\n".as_slice());
    Ok(())
}

#[test]
fn as_many_workers_as_may_be_are_started(rt: HostRuntime) -> Result<(), Fail> {
    let alloc = rt.alloc();
    let script = crowded(alloc, b"")?;
    let mut written = Vec::new(alloc);
    let mut dialogue = Dialogue::new(alloc, script.as_slice(), &mut written)?;
    let status = run_threads(&rt, alloc, &mut dialogue, &Open)?;
    assert_eq!(rt; status, Status::Ran);
    assert_eq!(rt; written.as_slice(), b"Vacant 0 0 idle 0\n".as_slice());
    Ok(())
}
