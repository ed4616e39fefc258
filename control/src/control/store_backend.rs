use super::backend::{Backend, BackendFault};
use durkenzo::{Plan, Record};
use durkenzo_driver::{
    ControlCommand, Durable, DurableControl, Intent, Next, ServerState, ShardLoad,
};
use std::fmt;
use std::sync::Arc;

/// A store that outlives the process, with the proved control over it.
pub struct StoreBackend {
    control: DurableControl,
    /// The shards of this process, if it has all servers.
    durable: Option<Arc<Durable>>,
}

impl StoreBackend {
    /// Returns a store whose servers are all in this process, which has these shards.
    pub fn alone(control: DurableControl, durable: Arc<Durable>) -> StoreBackend {
        let durable = Some(durable);
        StoreBackend { control, durable }
    }

    /// Returns a store of several processes. Each process sees itself whether requests reach a server.
    pub fn shared(control: DurableControl) -> StoreBackend {
        let durable = None;
        StoreBackend { control, durable }
    }
}

impl Backend for StoreBackend {
    fn servers(&self) -> u16 {
        self.control.servers()
    }

    fn shards(&self) -> u16 {
        self.control.shards()
    }

    fn lasts(&self) -> bool {
        true
    }

    fn command(&mut self, command: ControlCommand) -> Result<(), BackendFault> {
        Ok(self.control.command(command)?)
    }

    fn next_of_shard(&mut self, shard: u16) -> Result<Next, BackendFault> {
        Ok(self.control.next_of_shard(shard)?)
    }

    fn next_of_server(&mut self, server: u16) -> Result<Next, BackendFault> {
        Ok(self.control.next_of_server(server)?)
    }

    fn next_of_drain(&mut self, server: u16) -> Result<Next, BackendFault> {
        Ok(self.control.next_of_drain(server)?)
    }

    fn plan(&mut self, server: u16) -> Result<Plan, BackendFault> {
        Ok(self.control.plan(server)?)
    }

    fn record(&mut self, shard: u16) -> Result<Option<Record>, BackendFault> {
        Ok(self.control.record(shard)?)
    }

    fn state_of(&mut self, server: u16) -> Result<ServerState, BackendFault> {
        Ok(self.control.state_of(server)?)
    }

    fn is_restarted_by(&mut self, server: u16, process: u64) -> Result<bool, BackendFault> {
        Ok(self.control.run_of(server)?.is_restarted_by(process))
    }

    fn settings(&mut self) -> Result<(String, u64), BackendFault> {
        let (line, number) = self.control.settings()?;
        Ok((line.to_owned(), number.0))
    }

    fn resettle(&mut self, line: &str) -> Result<(), BackendFault> {
        Ok(self.control.resettle(line)?)
    }

    fn show_state(&mut self, server: u16, state: ServerState) {
        if let Some(durable) = &self.durable {
            durable.set_away(server, !state.is_reached());
        }
    }

    fn left_paused(&mut self) -> Result<Vec<u16>, BackendFault> {
        Ok(self.control.left_paused()?)
    }

    fn fallen(&mut self) -> Result<Option<u16>, BackendFault> {
        Ok(self.control.fallen()?)
    }

    fn loads(&mut self) -> Result<Vec<(u16, u16, ShardLoad)>, BackendFault> {
        Ok(self.control.loads()?)
    }

    fn intents(&mut self) -> Result<Vec<Intent>, BackendFault> {
        Ok(self.control.intents()?)
    }

    fn intend(&mut self, intents: &[Intent]) -> Result<(), BackendFault> {
        Ok(self.control.intend(intents)?)
    }

    fn withdraw(&mut self, intents: &[Intent]) -> Result<(), BackendFault> {
        Ok(self.control.withdraw(intents)?)
    }
}

impl fmt::Debug for StoreBackend {
    fn fmt(&self, f: &mut fmt::Formatter<'_>) -> fmt::Result {
        f.debug_struct("StoreBackend").finish_non_exhaustive()
    }
}
