//! The keys of the store, and their values if they were never written.
//!
//! | key | holds |
//! |---|---|
//! | `settings` | the shards and servers: the settings in force |
//! | `process` | how many processes have begun here |
//! | `leader` | the process that sends commands, under its lease if there are several processes |
//! | `server/SERVER` | the server's process, under its lease: its addresses, and its place in the records |
//! | `load/SERVER` | the loads of the server's shards as it measures them, under its lease |
//! | `ran/SERVER` | the process of the server that last executed by permits, under no lease |
//! | `ack/SHARD/SERVER` | up to this generation that process executes by no record, or is prepared for the latest |
//! | `lowest/SERVER` | the process that ran it last, and the first of the numbers by which it still has requests |
//! | `commands` | the process that sent the latest command |
//! | `state/SERVER` | how far a server's restart has come, and the process to which that applies |
//! | `drain/SERVER` | the intent that the server's shards go to others, until they have |
//! | `drained/SERVER` | that the server was drained, and gets no shard unless somebody asks for that |
//! | `home/SHARD` | the server to which the shard comes home, because it left for that server's restart |
//! | `record/SHARD` | the servers that execute the shard |
//! | `head/SHARD` | how many batches its log has, and the base that replaces the first of them |
//! | `batch/SHARD/NUMBER` | requests that were made together |
//! | `base/SHARD/NUMBER/PLACE` | a part of the base that replaces so many batches |
//! | `snapshot/SHARD` | which snapshot of a user's machine belongs to the base that the head names |
//! | `snapshot/SHARD/NUMBER/PROCESS/ATTEMPT/PLACE` | a part of a snapshot for the base of this number |
//!
//! Numbers have a fixed number of digits, so that keys are in numerical order.

use crate::ServerState;

/// The settings.
pub const SETTINGS: &[u8] = b"settings";
/// How many processes have begun here.
pub const PROCESS: &[u8] = b"process";
/// The process that sends commands.
pub const LEADER: &[u8] = b"leader";
/// The process that sent the latest command.
pub const COMMANDS: &[u8] = b"commands";
/// The prefix of all records.
pub const RECORDS: &[u8] = b"record/";
/// The prefix of the keys of servers that are there.
pub(crate) const SERVERS: &[u8] = b"server/";
/// The prefix of the keys that tell up to which generation of a shard's record processes have acked.
pub(crate) const ACKS: &[u8] = b"ack/";
/// The prefix of the keys that tell the first numbers by which processes still have requests.
pub(crate) const LOWESTS: &[u8] = b"lowest/";
/// The prefix of all states of servers.
pub(crate) const STATES: &[u8] = b"state/";
/// The prefix of the keys of servers that are to be drained.
pub const DRAINS: &[u8] = b"drain/";
/// The prefix of the keys of servers that were drained.
pub const DRAINED: &[u8] = b"drained/";
/// The prefix of the keys of servers' loads.
pub const LOADS: &[u8] = b"load/";
/// The prefix of the keys of shards that come home.
pub const HOMES: &[u8] = b"home/";

/// The record of a shard that was never changed: vacant, by no process. These are also the bytes of a server's state
/// that is up.
pub(crate) const VACANT: [u8; 17] = {
    let mut bytes = [0; 17];
    bytes[0] = 1;
    bytes
};
/// The head of a log without batches.
pub(crate) const EMPTY: [u8; 25] = {
    let mut bytes = [0; 25];
    bytes[0] = 1;
    bytes
};

/// Returns the shard's record.
pub fn record(shard: u16) -> Vec<u8> {
    format!("record/{shard:05}").into_bytes()
}

/// Returns the shard of this key, if it is a record's key.
pub(crate) fn shard_of_record(key: &[u8]) -> Option<u16> {
    number_behind(key, RECORDS)
}

/// Returns the server of this key, if it is the key of a server that is there.
pub(crate) fn server_of(key: &[u8]) -> Option<u16> {
    number_behind(key, SERVERS)
}

/// Returns the shard and the server of this key, if it is the key of an ack.
pub(crate) fn shard_and_server_of_ack(key: &[u8]) -> Option<(u16, u16)> {
    let numbers = std::str::from_utf8(key.strip_prefix(ACKS)?).ok()?;
    let (shard, server) = numbers.split_once('/')?;
    Some((shard.parse().ok()?, server.parse().ok()?))
}

/// Returns the server of this key, if it tells the first number by which the server's process still has requests.
pub(crate) fn server_of_lowest(key: &[u8]) -> Option<u16> {
    number_behind(key, LOWESTS)
}

/// Returns the server of this key, if it is the key of a state.
pub(crate) fn server_of_state(key: &[u8]) -> Option<u16> {
    number_behind(key, STATES)
}

/// Returns the server of this key, if it is the key of a server that is to be drained.
pub(crate) fn server_of_drain(key: &[u8]) -> Option<u16> {
    number_behind(key, DRAINS)
}

/// Returns the server of this key, if it is the key of a server that was drained.
pub(crate) fn server_of_drained(key: &[u8]) -> Option<u16> {
    number_behind(key, DRAINED)
}

/// Returns the shard of this key, if it is the key of a shard that comes home.
pub(crate) fn shard_of_home(key: &[u8]) -> Option<u16> {
    number_behind(key, HOMES)
}

fn number_behind(key: &[u8], prefix: &[u8]) -> Option<u16> {
    let digits = key.strip_prefix(prefix)?;
    std::str::from_utf8(digits).ok()?.parse().ok()
}

/// Returns the key of a server that is there.
pub(crate) fn server(server: u16) -> Vec<u8> {
    format!("server/{server:05}").into_bytes()
}

/// Returns the key of the server's process that last executed.
pub(crate) fn ran(server: u16) -> Vec<u8> {
    format!("ran/{server:05}").into_bytes()
}

/// Returns the bytes there for this process.
pub(crate) fn ran_by(process: u64) -> Vec<u8> {
    versioned(process)
}

/// Returns the key of a server's ack of a shard.
pub(crate) fn ack(shard: u16, server: u16) -> Vec<u8> {
    format!("ack/{shard:05}/{server:05}").into_bytes()
}

/// Returns the bytes there: a version and a generation.
pub(crate) fn ack_of(generation: u64) -> Vec<u8> {
    versioned(generation)
}

/// Returns the generation in these bytes at an ack's key.
pub(crate) fn generation_of_ack(bytes: &[u8]) -> Option<u64> {
    number_of_version(bytes)
}

/// Returns the key of the first number by which the server's process still has requests.
pub(crate) fn lowest(server: u16) -> Vec<u8> {
    format!("lowest/{server:05}").into_bytes()
}

/// Returns the key of the server's state.
pub(crate) fn state(server: u16) -> Vec<u8> {
    format!("state/{server:05}").into_bytes()
}

/// Returns the key of a server that is to be drained.
pub(crate) fn drain(server: u16) -> Vec<u8> {
    format!("drain/{server:05}").into_bytes()
}

/// Returns the key of a server that was drained.
pub(crate) fn drained(server: u16) -> Vec<u8> {
    format!("drained/{server:05}").into_bytes()
}

/// Returns the key of the loads of a server's shards.
pub(crate) fn load(server: u16) -> Vec<u8> {
    format!("load/{server:05}").into_bytes()
}

/// Returns the server of this key, if it is the key of a server's loads.
pub(crate) fn server_of_load(key: &[u8]) -> Option<u16> {
    number_behind(key, LOADS)
}

/// Returns the key of a shard that comes home.
pub(crate) fn home(shard: u16) -> Vec<u8> {
    format!("home/{shard:05}").into_bytes()
}

/// Returns the bytes at the leader's key for this process.
pub(crate) fn leader_of(process: u64) -> Vec<u8> {
    versioned(process)
}

/// Returns the process in these bytes, at the leader's key or at that of the last process to execute.
pub(crate) fn process_of(bytes: &[u8]) -> Option<u64> {
    number_of_version(bytes)
}

/// Returns bytes with a version and a number.
fn versioned(number: u64) -> Vec<u8> {
    [&[1][..], &number.to_be_bytes()].concat()
}

/// Returns the number behind the version in these bytes.
fn number_of_version(bytes: &[u8]) -> Option<u64> {
    let (version, number) = bytes.split_first()?;
    (*version == 1).then(|| number.try_into().ok().map(u64::from_be_bytes))?
}

/// Returns the state in these bytes, if this version knows its number. A state that was never written is `Up`.
pub(crate) fn state_of(state: &[u8]) -> Option<ServerState> {
    let number = state.get(1..9).and_then(|it| it.try_into().ok());
    number.map_or(Some(ServerState::Up), |it| {
        ServerState::of_number(u64::from_be_bytes(it))
    })
}

/// Returns whether requests reach a server with this state: it is neither stopped nor failed. No request reaches a
/// server whose state has a number that this version doesn't know.
pub(crate) fn is_reached(state: &[u8]) -> bool {
    state_of(state).is_some_and(ServerState::is_reached)
}

/// Returns the key of the head of the shard's log.
pub(crate) fn head(shard: u16) -> Vec<u8> {
    format!("head/{shard:05}").into_bytes()
}

/// Returns the key of a batch of the shard's log, from 1 on.
pub(crate) fn batch(shard: u16, number: u64) -> Vec<u8> {
    format!("batch/{shard:05}/{number:020}").into_bytes()
}

/// Returns the number of the batch at this key, if it is a batch's key.
pub(crate) fn number_of_batch(key: &[u8]) -> Option<u64> {
    let mut words = std::str::from_utf8(key).ok()?.split('/').skip(2);
    words.next()?.parse().ok()
}

/// Returns the keys between which the parts of the shard's bases lie.
pub(crate) fn bases(shard: u16) -> [Vec<u8>; 2] {
    // A `0` comes after a `/`.
    ["/", "0"].map(|behind| format!("base/{shard:05}{behind}").into_bytes())
}

/// Returns the key of a part of a base.
pub(crate) fn part(shard: u16, number: u64, place: u64) -> Vec<u8> {
    format!("base/{shard:05}/{number:020}/{place:05}").into_bytes()
}

/// Returns the key of the name of the shard's snapshot.
pub(crate) fn snapshot(shard: u16) -> Vec<u8> {
    format!("snapshot/{shard:05}").into_bytes()
}

/// Returns the keys between which the parts of the shard's snapshots lie.
pub(crate) fn snapshots(shard: u16) -> [Vec<u8>; 2] {
    ["/", "0"].map(|behind| format!("snapshot/{shard:05}{behind}").into_bytes())
}

/// Returns the key of a part of a snapshot for the base of this number, by this attempt of a process.
pub(crate) fn snapshot_part(
    shard: u16,
    number: u64,
    (process, attempt): (u64, u64),
    place: u64,
) -> Vec<u8> {
    let written = format!("{process:020}/{attempt:020}");
    format!("snapshot/{shard:05}/{number:020}/{written}/{place:05}").into_bytes()
}

/// Returns the number of the base to which the part of a snapshot at this key belongs.
pub(crate) fn base_of_snapshot(key: &[u8]) -> Option<u64> {
    // It stands where a batch has its number.
    number_of_batch(key)
}

/// Returns the base and the place in this key, if it is the key of a part.
pub(crate) fn base_and_place(key: &[u8]) -> Option<(u64, u64)> {
    let mut words = std::str::from_utf8(key).ok()?.split('/').skip(2);
    Some((words.next()?.parse().ok()?, words.next()?.parse().ok()?))
}

#[cfg(test)]
mod tests {
    use super::*;

    #[test]
    fn requests_reach_no_server_whose_state_is_unknown() {
        let is_reached_at = |number: u64| is_reached(&[&[1][..], &number.to_be_bytes()].concat());
        assert_eq!(
            [0, 1, 2, 3, 4, 5].map(is_reached_at),
            [true, true, true, false, false, false]
        );
        assert!(is_reached(&VACANT) && is_reached(b""));
    }
}
