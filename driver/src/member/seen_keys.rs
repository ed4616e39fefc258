use crate::lowest::Lowest;
use crate::{keys, Live, Members};
use durkenzo_store::{Reading, Revision};
use std::collections::BTreeMap;
use std::sync::Arc;

/// This is later than everything that is written.
const LATEST: Revision = Revision(u64::MAX);

/// The keys of all servers and of the leader, as they were seen.
#[derive(Default)]
pub(super) struct SeenKeys {
    pub(super) members: Arc<Members>,
    /// Up to which revision each server follows the records. Servers whose bytes can't be read are included: nothing
    /// waits for them to read.
    pub(super) followed: BTreeMap<u16, Revision>,
    /// The latest process that was seen to begin.
    pub(super) newest: u64,
    /// The first numbers by which processes still have requests, if they took others since they began.
    lowests: BTreeMap<u16, Lowest>,
    /// The first of the numbers by which any process that is there still has requests; 0 before that was seen.
    pub(super) lowest: u64,
    pub(super) leader: Option<(u64, Revision)>,
    /// The generation of each ack, by shard and server.
    pub(super) acks: BTreeMap<(u16, u16), u64>,
    /// The revision at which the leader's key last changed.
    pub(super) led: Revision,
    pub(super) changes: u64,
}

impl SeenKeys {
    /// Returns the first number by which the process that runs this server still has requests.
    pub(super) fn lowest_of(&self, server: u16, process: u64) -> u64 {
        let lowest = self.lowests.get(&server).filter(|it| it.process == process);
        lowest.map_or(process, |it| it.number)
    }

    /// Returns the first of the numbers by which this process, or any that is there, still has requests.
    pub(super) fn lowest_with(&self, server: u16, process: u64) -> u64 {
        let members = self.members.iter();
        let lowests = members.map(|(server, live)| self.lowest_of(*server, live.process));
        lowests.fold(self.lowest_of(server, process), u64::min)
    }

    /// Notes all keys with this prefix.
    pub(super) fn note_all(&mut self, prefix: &[u8], reading: &Reading) {
        match prefix {
            keys::LEADER => (self.leader, self.led) = (None, reading.revision),
            keys::LOWESTS => self.lowests = BTreeMap::new(),
            keys::ACKS => self.acks = BTreeMap::new(),
            _ => (self.members, self.followed) = (Arc::default(), BTreeMap::new()),
        }
        for pair in &reading.pairs {
            self.note(&pair.key, Some(&pair.value), pair.revision, pair.created);
        }
    }

    /// Notes the value of a key, or that it is gone.
    pub(super) fn note(
        &mut self,
        key: &[u8],
        value: Option<&[u8]>,
        revision: Revision,
        created: Revision,
    ) {
        if key == keys::LEADER {
            self.leader = value.and_then(keys::process_of).map(|it| (it, revision));
            self.led = revision;
        }
        if let Some(server) = keys::server_of_lowest(key) {
            match value.and_then(Lowest::of) {
                Some(lowest) => drop(self.lowests.insert(server, lowest)),
                None => drop(self.lowests.remove(&server)),
            }
        }
        if let Some(of) = keys::shard_and_server_of_ack(key) {
            match value.and_then(keys::generation_of_ack) {
                Some(generation) => drop(self.acks.insert(of, generation)),
                None => drop(self.acks.remove(&of)),
            }
        }
        if let Some(server) = keys::server_of(key) {
            let live = value.and_then(|it| Live::of(it, created));
            match value {
                Some(_) => {
                    let followed = live.as_ref().map_or(LATEST, |it| it.followed);
                    self.followed.insert(server, followed);
                }
                None => drop(self.followed.remove(&server)),
            }
            self.newest = self.newest.max(live.as_ref().map_or(0, |it| it.process));
            Arc::make_mut(&mut self.members).note(server, live);
        }
    }
}
