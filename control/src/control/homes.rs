//! Shards that come home to the servers that they left for a restart, or because these failed. Their list is an intent
//! of the control. So is that of the servers that were drained.
use super::controller::Controller;
use super::task::Task;
use super::Refusal;
use durkenzo::Stand;
use durkenzo_driver::{Intent, ServerState};
use std::collections::BTreeSet;

/// The most shards whose return is written at once.
const MOST_AT_ONCE: usize = 64;

impl Controller {
    /// Goes on with the intents of the former leader: with drains and a spread, unless they are under way already, and
    /// with shards that come home.
    pub(super) fn go_on_with_intents(&mut self) -> Result<(), Refusal> {
        let known: BTreeSet<u16> = self.tasks.iter().filter_map(Task::drains).collect();
        for intent in self.note_homes()? {
            match intent {
                Intent::Drain(server) if !known.contains(&server) => {
                    self.tasks.push(Task::drain(server));
                }
                Intent::Spread if !self.tasks.iter().any(Task::spreads) => {
                    self.tasks.push(Task::spread());
                }
                Intent::Drain(_) | Intent::Spread | Intent::Home(..) | Intent::Drained(_) => {}
            }
        }
        let servers: BTreeSet<u16> = self.homes.values().copied().collect();
        self.tasks.extend(servers.into_iter().map(Task::returning));
        Ok(())
    }

    /// Notes the homes that are intended, and the servers that are or were drained. Returns the other intents: drains,
    /// and a spread. Intents about servers that were removed are withdrawn.
    pub(super) fn note_homes(&mut self) -> Result<Vec<Intent>, Refusal> {
        let (mut others, mut gone) = (Vec::new(), Vec::new());
        let servers = self.backend.servers();
        for intent in self.backend.intents()? {
            match intent {
                Intent::Drain(server) | Intent::Home(_, server) | Intent::Drained(server)
                    if server > servers =>
                {
                    gone.push(intent);
                }
                Intent::Drain(server) => {
                    self.drained.insert(server);
                    others.push(intent);
                }
                Intent::Spread => others.push(intent),
                Intent::Home(shard, server) => drop(self.homes.insert(shard, server)),
                Intent::Drained(server) => {
                    self.kept_empty.insert(server);
                    self.tell_end(server);
                }
            }
        }
        self.withdraw_of_gone(&gone);
        Ok(others)
    }

    /// Withdraws the intents about servers that were removed. If the store doesn't take that now, the next leader does
    /// it.
    fn withdraw_of_gone(&mut self, intents: &[Intent]) {
        if intents.is_empty() {
            return;
        }
        if let Err(fault) = self.backend.withdraw(intents) {
            tracing::info!(%fault, "what was intended of servers that are gone stays");
        }
    }

    /// Makes the shard, and others that only this server executes, come home to it after its restart; none if the
    /// server is drained for good.
    pub(super) fn have_come_home(&mut self, shard: u16, server: u16) -> Result<(), Refusal> {
        if self.surely_comes_home(shard) || self.drained.contains(&server) {
            return Ok(());
        }
        let (mut homes, shards) = (Vec::new(), 0..self.backend.shards());
        for it in [shard].into_iter().chain(shards.filter(|it| *it != shard)) {
            let stand = self.backend.record(it)?.map(|it| it.stand);
            let is_of_server = stand == Some(Stand::Serving(server));
            if is_of_server && !self.surely_comes_home(it) && homes.len() < MOST_AT_ONCE {
                homes.push((it, server));
            }
        }
        let intents: Vec<_> = homes.iter().map(|it| Intent::Home(it.0, it.1)).collect();
        let intended = self.backend.intend(&intents);
        for (shard, server) in homes {
            match &intended {
                Ok(()) => drop(self.unsure_homes.remove(&shard)),
                // It is withdrawn together with the others.
                Err(fault) if fault.is_unknown() => drop(self.unsure_homes.insert(shard)),
                Err(_) => continue,
            }
            self.homes.insert(shard, server);
        }
        Ok(intended?)
    }

    /// Makes the shards of failed servers come home once these are back. If the store doesn't keep that now, the shards
    /// get other owners anyway.
    pub(super) fn have_fallen_come_home(&mut self) -> Result<(), Refusal> {
        let failed = self.failed()?;
        for shard in 0..self.backend.shards() {
            let stand = self.backend.record(shard)?.map(|it| it.stand);
            let Some(Stand::Serving(owner)) = stand.filter(|_| !self.surely_comes_home(shard))
            else {
                continue;
            };
            if !failed.contains(&owner) {
                continue;
            }
            if let Err(refusal) = self.have_come_home(shard, owner) {
                tracing::info!(%refusal, "shards of server {owner} won't come home");
                return Ok(());
            }
        }
        Ok(())
    }

    /// Begins to bring shards home to servers that are up, unless that is under way.
    pub(super) fn begin_to_come_home(&mut self) -> Result<(), Refusal> {
        self.forget_homes_of_gone();
        let servers: BTreeSet<u16> = self.homes.values().copied().collect();
        for server in servers {
            let is_under_way = self.tasks.iter().any(|it| it.restarts() == Some(server));
            if !is_under_way && self.backend.state_of(server)? == ServerState::Up {
                self.tasks.push(Task::returning(server));
            }
        }
        Ok(())
    }

    /// Returns whether it is surely kept that the shard comes home.
    fn surely_comes_home(&self, shard: u16) -> bool {
        self.homes.contains_key(&shard) && !self.unsure_homes.contains(&shard)
    }

    /// Returns the shards whose home the server is. Some may be there already, because another server's drain moved
    /// them.
    pub(super) fn shards_of_home(&self, server: u16) -> Vec<u16> {
        let own = self.homes.iter().filter(|it| *it.1 == server);
        own.map(|it| *it.0).collect()
    }

    /// Makes no shard come home to the server any more.
    pub(super) fn forget_homes(&mut self, server: u16) -> Result<(), Refusal> {
        let own = self.homes.iter().filter(|it| *it.1 == server);
        let intents: Vec<Intent> = own.map(|it| Intent::Home(*it.0, *it.1)).collect();
        self.backend.withdraw(&intents)?;
        self.homes.retain(|_, home| *home != server);
        let homes = &self.homes;
        self.unsure_homes.retain(|it| homes.contains_key(it));
        Ok(())
    }

    /// Puts these settings in force, and notes the states of their servers.
    pub(super) fn resettle(&mut self, line: &str) -> Result<(), Refusal> {
        let made = self.backend.resettle(line).map_err(Refusal::from);
        self.is_lost |= made.as_ref().is_err_and(Refusal::is_of_leader);
        made?;
        self.forget_homes_of_gone();
        self.forget_drained_of_gone();
        for server in 1..=self.backend.servers() {
            // The settings are in force. A server's state is also noted at its next step.
            if let Err(refusal) = self.note_state(server) {
                tracing::info!(%refusal, server, "it isn't known yet how the server stands");
            }
        }
        Ok(())
    }

    /// Makes no shard come home to a server that was removed.
    fn forget_homes_of_gone(&mut self) {
        let servers = self.backend.servers();
        let is_gone = |it: &(&u16, &u16)| *it.1 > servers;
        let gone = self.homes.iter().filter(is_gone);
        let gone: Vec<Intent> = gone.map(|it| Intent::Home(*it.0, *it.1)).collect();
        self.withdraw_of_gone(&gone);
        self.homes.retain(|_, home| *home <= servers);
    }

    /// Keeps that the server was drained, if that outlives the process.
    pub(super) fn keep_empty(&mut self, server: u16) -> Result<(), Refusal> {
        if self.backend.lasts() && !self.kept_empty.contains(&server) {
            self.backend.intend(&[Intent::Drained(server)])?;
            self.kept_empty.insert(server);
        }
        Ok(())
    }

    /// Makes all servers get shards like others that were drained before. That leaves out those whose drain isn't over,
    /// or began during a spread that isn't over.
    pub(super) fn undrain_all(&mut self) -> Result<(), Refusal> {
        let drained = self.kept_empty.difference(&self.drained);
        drained
            .copied()
            .collect::<Vec<_>>()
            .into_iter()
            .try_for_each(|it| self.undrain(it))
    }

    /// Makes the server get shards like others, if it was drained.
    pub(super) fn undrain(&mut self, server: u16) -> Result<(), Refusal> {
        if self.kept_empty.contains(&server) {
            self.backend.withdraw(&[Intent::Drained(server)])?;
            self.kept_empty.remove(&server);
            let is_under_way = |it: &Task| it.work.server() == Some(server);
            if !self.tasks.iter().any(is_under_way) {
                self.tell_end(server);
            }
        }
        Ok(())
    }

    /// Forgets that servers were drained that were removed.
    fn forget_drained_of_gone(&mut self) {
        let servers = self.backend.servers();
        let gone = self.kept_empty.iter().filter(|it| **it > servers);
        let gone: Vec<Intent> = gone.copied().map(Intent::Drained).collect();
        self.withdraw_of_gone(&gone);
        self.kept_empty.retain(|it| *it <= servers);
    }

    /// Makes these shards stay at the servers to which somebody moves them.
    pub(super) fn forget_homes_of(
        &mut self,
        shards: impl Iterator<Item = u16>,
    ) -> Result<(), Refusal> {
        let homes: Vec<_> = shards
            .filter_map(|it| Some((it, *self.homes.get(&it)?)))
            .collect();
        let intents: Vec<_> = homes.iter().map(|it| Intent::Home(it.0, it.1)).collect();
        if intents.is_empty() {
            return Ok(());
        }
        self.backend.withdraw(&intents)?;
        for (shard, _) in homes {
            self.homes.remove(&shard);
            self.unsure_homes.remove(&shard);
        }
        Ok(())
    }
}

#[cfg(test)]
mod tests {
    use super::super::plain_backend::PlainBackend;
    use super::*;
    use durkenzo_store::WriteError;

    #[test]
    fn homes_that_the_store_may_have_kept_are_withdrawn_with_others() {
        let backend = PlainBackend::of(2, Stand::Serving(1));
        let mut control = backend.control();
        let unkept = [
            WriteError::Full("full".to_owned()),
            WriteError::Unknown("cut".to_owned()),
        ];
        backend.plain().unkept.extend(unkept);
        control.have_come_home(0, 1).unwrap_err();
        assert!(control.shards_of_home(1).is_empty());
        // The intent may be there, so it is withdrawn. No shard leaves before it is surely there.
        control.have_come_home(0, 1).unwrap_err();
        assert_eq!(control.shards_of_home(1), [0, 1]);
        assert!(!control.surely_comes_home(0));
        control.have_come_home(0, 1).unwrap();
        assert!(control.surely_comes_home(0) && control.surely_comes_home(1));
        control.forget_homes(1).unwrap();
        assert!(control.shards_of_home(1).is_empty());
    }
}
