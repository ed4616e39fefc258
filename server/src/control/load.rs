use super::notice::Notice;
use super::Refusal;
use crate::cluster::Cluster;
use crate::dump::{self, DumpFault, DumpHead, Loaded};
use crate::observer::Observer;
use crate::storage::{InMemory, Opened};
use durkenzo_control::control::{Advance, ControlAnswer, FileWork};
use durkenzo_driver::ServerState;
use std::sync::mpsc::{channel, Receiver, TryRecvError};
use std::sync::Arc;
use std::time::Duration;

/// How often it checks whether the file was read.
const PAUSE: Duration = Duration::from_millis(2);
/// How often it checks whether threads have acted on a notice.
const LOOK: Duration = Duration::from_micros(100);

/// Replaces the content and the stands of all shards by those of a file. Nothing changes until the whole file was read
/// and a board was opened with it.
pub(super) struct LoadTask {
    cluster: Arc<Cluster>,
    memory: Arc<InMemory>,
    name: String,
    phase: LoadPhase,
}

enum LoadPhase {
    /// A thread reads.
    Reading(Receiver<Result<Loaded, DumpFault>>),
    /// It waits until no thread has a pass of the earlier board.
    Closing(Option<Opened>, Notice),
    /// It waits until each thread has passes of the new board.
    Opening(Notice, String),
}

impl LoadTask {
    /// Begins to read the file with this name.
    pub(super) fn new(
        cluster: Arc<Cluster>,
        memory: Arc<InMemory>,
        name: &str,
    ) -> Result<LoadTask, Refusal> {
        let (sender, receiver) = channel();
        let (file, reads) = (name.to_owned(), cluster.clone());
        let read = move || {
            let configuration = &reads.configuration;
            let head = DumpHead::new(configuration.servers, &configuration.rule);
            // The asking task may be gone.
            let _ = sender.send(dump::read(&configuration.folder, &file, &head));
        };
        let thread = std::thread::Builder::new().name("load".to_owned());
        let started = thread.spawn(read).map_err(DumpFault::File);
        started?;
        Ok(LoadTask {
            cluster,
            memory,
            name: name.to_owned(),
            phase: LoadPhase::Reading(receiver),
        })
    }

    /// Opens a board with the file's content.
    fn opened(&self, loaded: Result<Loaded, DumpFault>) -> Result<Opened, Refusal> {
        let opened = loaded.and_then(|it| self.memory.open(&it.heads, it.bodies));
        Ok(opened?)
    }

    /// Goes on once no thread has a pass of the earlier board.
    fn close(&mut self) -> Result<Advance, Refusal> {
        let LoadPhase::Closing(opened, notice) = &mut self.phase else {
            return Ok(Advance::soon());
        };
        match notice.is_seen(&self.cluster) {
            Ok(false) => return Ok(Advance::After(LOOK)),
            Ok(true) => {
                let told = opened
                    .take()
                    .map(|it| replaced(&self.cluster, &self.memory, it))
                    .transpose()?;
                let notice = Notice::of_opening(&self.cluster);
                self.phase = LoadPhase::Opening(notice, told.unwrap_or_default());
            }
            Err(refusal) => {
                Notice::of_opening(&self.cluster);
                return Err(refusal);
            }
        }
        Ok(Advance::soon())
    }
}

impl FileWork for LoadTask {
    fn advance(&mut self) -> Result<Advance, Refusal> {
        match &mut self.phase {
            LoadPhase::Reading(receiver) => match receiver.try_recv() {
                Err(TryRecvError::Empty) => return Ok(Advance::After(PAUSE)),
                Err(TryRecvError::Disconnected) => {
                    let reason = "the file wasn't read";
                    return Err(Refusal::new("BadFile", reason, "look at the log"));
                }
                Ok(loaded) => {
                    let opened = self.opened(loaded)?;
                    let notice = Notice::of_closing(&self.cluster);
                    self.phase = LoadPhase::Closing(Some(opened), notice);
                }
            },
            LoadPhase::Closing(..) => return self.close(),
            LoadPhase::Opening(notice, told) => match notice.is_seen(&self.cluster)? {
                false => return Ok(Advance::After(LOOK)),
                true => {
                    let line = format!("{told} are as in {}", self.name);
                    return Ok(Advance::Done(ControlAnswer::Line(line)));
                }
            },
        }
        Ok(Advance::soon())
    }
}

/// Puts the new board, on which all servers are up, in the place of the old one. Returns the new board's content in
/// words.
fn replaced(cluster: &Arc<Cluster>, memory: &InMemory, opened: Opened) -> Result<String, Refusal> {
    let keys = opened.keys();
    let before = Observer::new(cluster.clone())?.generations();
    memory.take(opened, &before);
    for server in 1..=cluster.presence.servers() {
        cluster.presence.set(server, ServerState::Up);
    }
    Ok(format!("{} shards with {keys} keys", cluster.shards()))
}

#[cfg(test)]
mod tests {
    use super::super::{Backend, ClusterHost, MemoryBackend};
    use super::*;
    use crate::body::new_shard;
    use crate::configuration::Configuration;
    use crate::keyspace::Rule;
    use crate::storage::Storage;
    use durkenzo_control::control::ControlHost;

    #[test]
    fn the_control_keeps_no_board_whose_place_another_one_took() {
        let configuration = Configuration::new(Rule::Hash(1));
        let memory = Arc::new(InMemory::new(&configuration).unwrap());
        let storage = Storage::Memory(memory.clone());
        let cluster = Arc::new(Cluster::new(configuration, storage));
        let mut backend = MemoryBackend::new(cluster.clone(), memory.clone()).unwrap();
        let host = ClusterHost::new(cluster.clone()).unwrap();
        let bodies = vec![new_shard().unwrap()];
        let (before, opened) = (memory.board(), memory.open(&[], bodies).unwrap());
        replaced(&cluster, &memory, opened).unwrap();
        host.note_load();
        backend.renew();
        assert!(before.into_bodies().is_ok());
    }
}
