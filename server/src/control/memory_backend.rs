use super::dump::DumpTask;
use super::load::LoadTask;
use super::notice::{Notice, NoticeWait};
use super::Refusal;
use crate::body::BoxedBody;
use crate::cluster::Cluster;
use crate::dump::DumpFault;
use crate::observer::Observer;
use crate::run::BoxError;
use crate::settings;
use crate::storage::InMemory;
use durkenzo::{
    ChangeFault, Control, Plan, PlanFault, Record, RestartFault, ServerId, ShardId, Stand,
};
use durkenzo_control::control::{Backend, BackendFault, FileWork, StateWait};
use durkenzo_driver::{CommandFault, ControlCommand, Given, Next, Planner, Refused, ServerState};
use std::fmt;
use std::sync::Arc;
use std::time::Duration;

/// How long a change waits, while another thread has the shard, before other work has its turn.
const PATIENCE: Duration = Duration::from_micros(500);

/// The control's backend for data in memory. The proved planner chooses the next command and judges commands, and the
/// proved board makes them. The board has the last word, because only it knows which thread has a shard.
pub struct MemoryBackend {
    cluster: Arc<Cluster>,
    memory: Arc<InMemory>,
    board: Control<BoxedBody>,
    /// The version of the cluster's board.
    version: u64,
    observer: Observer,
    planner: Planner,
    /// The states of the servers, from server 1 on.
    states: Vec<ServerState>,
    /// The command that the planner has allowed and the board hasn't made yet.
    judged: Option<ControlCommand>,
    /// Whether the planner must read everything again.
    is_behind: bool,
}

impl MemoryBackend {
    /// Makes the backend of this cluster, whose data lies in `memory`, and whose servers are all up.
    ///
    /// # Errors
    ///
    /// If the planner refuses such settings, or there is no pass of the board.
    pub fn new(cluster: Arc<Cluster>, memory: Arc<InMemory>) -> Result<MemoryBackend, BoxError> {
        let planner = Planner::new(&settings::line(&cluster.configuration))?;
        Ok(MemoryBackend {
            version: memory.version(),
            board: memory.board().control(),
            observer: Observer::new(cluster.clone())?,
            states: vec![ServerState::Up; cluster.presence.servers().into()],
            planner,
            judged: None,
            is_behind: true,
            cluster,
            memory,
        })
    }

    /// Tells the planner how all shards and servers stand, with no command judged.
    fn catch_up(&mut self) -> Result<(), Refused> {
        if self.version != self.memory.version() {
            self.renew();
        }
        if self.judged.take().is_none() && !self.is_behind {
            return Ok(());
        }
        let shards = 0..self.cluster.shards();
        let stands = shards.map(|it| {
            self.observer
                .record(it)
                .map_or(Stand::Vacant, |it| it.stand)
        });
        self.planner.read(stands, self.states.iter().copied())?;
        self.is_behind = false;
        Ok(())
    }

    /// Returns the planner's next command. The planner counts changes since it last read everything. Once these are as
    /// many as generations, it says to wait. Then it reads everything again, and the board says whether generations are
    /// spent.
    fn next(
        &mut self,
        ask: impl Fn(&mut Planner) -> Result<Next, Refused>,
    ) -> Result<Next, BackendFault> {
        self.catch_up()?;
        let next = ask(&mut self.planner)?;
        if next != Next::Waits || !self.planner.has_made() {
            return Ok(next);
        }
        self.is_behind = true;
        self.catch_up()?;
        Ok(ask(&mut self.planner)?)
    }

    /// Has the planner judge the command. If the planner refuses it, returns why.
    fn judge(&mut self, command: ControlCommand) -> Result<(), Refused> {
        if self.judged == Some(command) && self.version == self.memory.version() {
            return Ok(());
        }
        self.catch_up()?;
        match self.planner.judge(command) {
            Ok(()) => self.judged = Some(command),
            // The board says this itself, with the record.
            Err(Refused::Judged(CommandFault::ChangeSpent)) => {}
            Err(refused) => return Err(refused),
        }
        Ok(())
    }

    /// Makes the change at the board. If another thread has the shard, waits for a short while.
    fn change(&self, command: ControlCommand) -> Result<(), BackendFault> {
        match command.given() {
            Given::Shard(shard, change) => {
                let shard = ShardId::new(shard).map_err(|_| ChangeFault::UnknownShard)?;
                self.board.change_for(shard, change, PATIENCE)?;
            }
            Given::Server(server, step) => {
                let server = ServerId::new(server).map_err(|_| RestartFault::UnknownServer)?;
                self.board.restart(server, step)?;
            }
        }
        Ok(())
    }

    /// Notes the change that the board made.
    fn note(&mut self, command: ControlCommand) -> Result<(), Refused> {
        match self.judged.take() {
            Some(_) => self.planner.made()?,
            None => self.is_behind = true,
        }
        match command {
            ControlCommand::Ask(server) => self.set_state(server, ServerState::Asked),
            ControlCommand::Approve(server) => self.set_state(server, ServerState::Approved),
            ControlCommand::Stopped(server) => self.set_state(server, ServerState::Stopped),
            ControlCommand::Back(server) => self.set_state(server, ServerState::Up),
            ControlCommand::Fail(server) => self.set_state(server, ServerState::Failed),
            // Commands that wait for the shard may go on.
            ControlCommand::Assign(..)
            | ControlCommand::AddShard(_)
            | ControlCommand::Resume(_)
            | ControlCommand::Reassign(..) => self.cluster.note_change(),
            ControlCommand::PrepareAddShard(..)
            | ControlCommand::PrepareDropShard(_)
            | ControlCommand::DropShard(_)
            | ControlCommand::Cancel(_)
            | ControlCommand::Pause(_) => {}
        }
        Ok(())
    }

    fn set_state(&mut self, server: u16, state: ServerState) {
        let at = usize::from(server).checked_sub(1);
        if let Some(it) = at.and_then(|it| self.states.get_mut(it)) {
            *it = state;
        }
    }
}

impl Backend for MemoryBackend {
    fn servers(&self) -> u16 {
        self.cluster.presence.servers()
    }

    fn shards(&self) -> u16 {
        self.cluster.shards()
    }

    fn lasts(&self) -> bool {
        false
    }

    fn command(&mut self, command: ControlCommand) -> Result<(), BackendFault> {
        self.judge(command)?;
        match self.change(command) {
            Ok(()) => Ok(self.note(command)?),
            Err(fault) => {
                // The planner still allows the same command when it is tried again.
                self.is_behind |= !fault.is_passing();
                if self.is_behind {
                    self.judged = None;
                }
                Err(fault)
            }
        }
    }

    fn next_of_shard(&mut self, shard: u16) -> Result<Next, BackendFault> {
        self.next(|it| it.next_of_shard(shard))
    }

    fn next_of_server(&mut self, server: u16) -> Result<Next, BackendFault> {
        self.catch_up()?;
        Ok(self.planner.next_of_server(server)?)
    }

    fn next_of_drain(&mut self, server: u16) -> Result<Next, BackendFault> {
        self.next(|it| it.next_of_drain(server))
    }

    fn plan(&mut self, server: u16) -> Result<Plan, BackendFault> {
        let plan = match server {
            0 => self.board.plan_assign(),
            server => ServerId::new(server)
                .map_err(|_| PlanFault::UnknownServer)
                .and_then(|server| self.board.plan_drain(server)),
        };
        Ok(plan?)
    }

    fn record(&mut self, shard: u16) -> Result<Option<Record>, BackendFault> {
        Ok(self.observer.record(shard).ok())
    }

    fn state_of(&mut self, server: u16) -> Result<ServerState, BackendFault> {
        let at = usize::from(server).checked_sub(1);
        let state = at.and_then(|it| self.states.get(it));
        Ok(*state.ok_or(RestartFault::UnknownServer)?)
    }

    fn show_state(&mut self, _server: u16, _state: ServerState) {
        self.cluster.note_change();
    }

    fn wait_for_state(&mut self, server: u16) -> Option<Box<dyn StateWait>> {
        let (cluster, notice) = (
            self.cluster.clone(),
            Notice::of_server(&self.cluster, server),
        );
        Some(Box::new(NoticeWait { cluster, notice }))
    }

    fn dump(&mut self, name: &[u8]) -> Result<Box<dyn FileWork>, Refusal> {
        let dump = DumpTask::new(self.cluster.clone(), self.memory.clone(), file_named(name)?)?;
        Ok(Box::new(dump))
    }

    fn load(&mut self, name: &[u8]) -> Result<Box<dyn FileWork>, Refusal> {
        let load = LoadTask::new(self.cluster.clone(), self.memory.clone(), file_named(name)?)?;
        Ok(Box::new(load))
    }

    fn renew(&mut self) -> bool {
        let version = self.memory.version();
        if self.version == version {
            return false;
        }
        self.version = version;
        self.board = self.memory.board().control();
        self.observer.renew();
        self.states.fill(ServerState::Up);
        self.judged = None;
        self.is_behind = true;
        true
    }
}

/// Returns the name of a file, which must be made of letters.
fn file_named(name: &[u8]) -> Result<&str, DumpFault> {
    std::str::from_utf8(name).map_err(|_| DumpFault::BadName)
}

impl fmt::Debug for MemoryBackend {
    fn fmt(&self, f: &mut fmt::Formatter<'_>) -> fmt::Result {
        f.debug_struct("MemoryBackend").finish_non_exhaustive()
    }
}

#[cfg(test)]
mod tests {
    use super::*;
    use crate::body::new_shard;
    use crate::configuration::Configuration;
    use crate::io::Inlet;
    use crate::keyspace::Rule;
    use crate::storage::Storage;
    use durkenzo::Mode;
    use mio::Poll;

    fn backend(servers: u16, shards: u16, ceiling: u64) -> (Arc<Cluster>, MemoryBackend) {
        let configuration = Configuration {
            servers,
            ceiling,
            ..Configuration::new(Rule::Hash(shards))
        };
        let memory = Arc::new(InMemory::new(&configuration).unwrap());
        let storage = Storage::Memory(memory.clone());
        let cluster = Arc::new(Cluster::new(configuration, storage));
        let backend = MemoryBackend::new(cluster.clone(), memory).unwrap();
        (cluster, backend)
    }

    #[test]
    fn a_change_waits_for_who_has_the_shard() {
        let (cluster, mut backend) = backend(2, 2, 1_000);
        backend.command(ControlCommand::Assign(0, 1)).unwrap();
        let mut pass = cluster.board().pass(ServerId::FIRST).unwrap();
        let permit = pass.admit(ShardId::FIRST, Mode::Direct).unwrap();
        let prepare = ControlCommand::PrepareAddShard(0, 2);
        for _ in 0..2 {
            assert!(backend.command(prepare).is_err_and(|it| it.is_passing()));
            // Nobody else makes the command that was refused.
            assert_eq!(backend.next_of_shard(0).unwrap(), Next::Nothing);
        }
        // Another shard changes meanwhile.
        let vacant = backend.next_of_drain(0).unwrap();
        assert_eq!(vacant, Next::Command(ControlCommand::Assign(1, 1)));
        backend.command(ControlCommand::Assign(1, 1)).unwrap();
        assert_eq!(backend.next_of_shard(0).unwrap(), Next::Nothing);
        drop(permit);
        backend.command(prepare).unwrap();
        let next = backend.next_of_shard(0).unwrap();
        assert_eq!(next, Next::Command(ControlCommand::PrepareDropShard(0)));
    }

    #[test]
    fn each_who_waits_for_threads_is_told_of_his_own_server() {
        let (cluster, mut backend) = backend(2, 2, 1_000);
        let poll = Poll::new().unwrap();
        cluster.set_inlets([Arc::new(Inlet::new(&poll, 2).unwrap())].into());
        let waits = [1, 2].map(|server| {
            cluster.presence.set(server, ServerState::Stopped);
            backend.show_state(server, ServerState::Stopped);
            backend.wait_for_state(server).unwrap()
        });
        assert!(waits.iter().all(|it| it.is_over() == Ok(false)));
        cluster.stop();
        for (wait, server) in waits.iter().zip([1, 2]) {
            let refused = wait.is_over().unwrap_err().to_string();
            assert!(refused.contains(&format!("server {server}")), "{refused}");
        }
    }

    #[test]
    fn what_was_made_on_a_loaded_board_stays_known() {
        let (_cluster, mut backend) = backend(2, 1, 1_000);
        let bodies = vec![new_shard().unwrap()];
        let opened = backend.memory.open(&[], bodies).unwrap();
        backend.memory.take(opened, &[]);
        backend.command(ControlCommand::Fail(2)).unwrap();
        backend.renew();
        backend.command(ControlCommand::Back(2)).unwrap();
    }

    #[test]
    fn a_shard_whose_generations_are_spent_is_refused_and_not_waited_for() {
        let (_cluster, mut backend) = backend(2, 1, 3);
        backend.command(ControlCommand::Assign(0, 1)).unwrap();
        backend
            .command(ControlCommand::PrepareAddShard(0, 2))
            .unwrap();
        backend
            .command(ControlCommand::PrepareDropShard(0))
            .unwrap();
        let next = backend.next_of_shard(0).unwrap();
        assert_eq!(next, Next::Command(ControlCommand::AddShard(0)));
        let refused = backend.command(ControlCommand::AddShard(0)).unwrap_err();
        assert!(matches!(
            refused,
            BackendFault::Change(ChangeFault::Spent(_))
        ));
    }
}
