//! The settings in force, which are read together with records and states, and their replacement.
use super::{election, DurableControl, WrittenRevisions, TRIES};
use crate::proved::Director;
use crate::{keys, split_settings, CoreFault, Refused};
use durkenzo::SettingsFault;
use durkenzo_store::{Outcome, Pair, Reading, Revision, Transaction, WriteError};
use durkenzo_store_sys::{Code, SettingsRefusal};
use std::collections::{BTreeMap, BTreeSet};

impl DurableControl {
    /// Returns the settings in force, as a line, and their number: the revision at which they were written. Both are as
    /// of the last complete reading.
    ///
    /// # Errors
    ///
    /// As [`Refused`] says.
    pub fn settings(&mut self) -> Result<(&str, Revision), Refused> {
        self.catch_up()?;
        Ok((&self.line, self.settled))
    }

    /// Puts these settings in force from now on, or returns why it can't. The number and the bounds of shards must
    /// stay, and so must the ceiling. A server can be removed only once it has stopped or failed and no shard names it.
    /// The present state must keep everything that the new settings limit. Servers must be numbered from 1 without
    /// gaps, because the hosts of a control count them so. Line feeds in the text become spaces.
    ///
    /// # Errors
    ///
    /// As [`Refused`] says. If the error isn't about an unknown outcome in the store, nothing has changed.
    pub fn resettle(&mut self, line: &str) -> Result<(), Refused> {
        self.outdate()?;
        // A text in JSON never contains a line feed as it is.
        let made = self.resettled(line.replace(['\r', '\n'], " ").trim());
        // If the store doesn't take that now, it will before the control goes on.
        made.inspect_err(|_| drop(self.outdate()))
    }

    /// Puts the settings in force. Tries again each time another command came before, or the outcome isn't known.
    fn resettled(&mut self, line: &str) -> Result<(), Refused> {
        for _ in 0..TRIES {
            self.read_again()?;
            if *self.line == *line {
                self.has_stray = false;
                return Ok(());
            }
            let Some(transaction) = self.transaction_to(line)? else {
                continue;
            };
            self.is_behind = true;
            match self.durable.store().make(transaction) {
                Ok(Outcome::Made(_)) => {
                    self.has_stray = false;
                    // It adopts them at once if the store returns them, and otherwise before it does anything more.
                    drop(self.read_again());
                    return Ok(());
                }
                Ok(Outcome::Lost(_)) => self.look_at_leader()?,
                Err(WriteError::Unknown(_)) => self.has_stray = true,
                Err(error) => return Err(error.into()),
            }
        }
        Err(Refused::in_vain())
    }

    /// Returns the transaction that puts these settings in force, as the proved control compares and writes it. Returns
    /// nothing if others are in force by now: then everything must be read again.
    fn transaction_to(&mut self, line: &str) -> Result<Option<Transaction>, Refused> {
        let mut other = self.director_of(line)?;
        if other.shards() != self.director.shards() {
            return Err(Refused::OtherShards);
        }
        if (1..).zip(other.servers()).any(|(number, it)| number != *it) {
            return Err(Refused::BadSettings(SettingsFault::BadServers));
        }
        let both: BTreeSet<u16> = [&self.director, &other]
            .into_iter()
            .flat_map(|it| it.servers().iter().copied())
            .collect();
        let reading = self.read_of(&both)?;
        self.is_behind = true;
        if self.other_line(&reading)?.is_some() {
            return Ok(None);
        }
        self.director.lost().map_err(Refused::of)?;
        self.give(&reading).map_err(Refused::of)?;
        given(&mut other, &reading).map_err(Refused::of_new_settings)?;
        let sent = self.director.resettle(&mut other);
        let sent = sent.map_err(Refused::of_resettling)?;
        let transaction = Transaction::new()
            .compare(keys::LEADER, Revision(sent.elected))
            .compare(keys::COMMANDS, Revision(sent.placed))
            .put(keys::SETTINGS, [host_of(&reading)?, line].concat())
            .put(keys::COMMANDS, sent.commands)
            .with_kept_room();
        Ok(Some(transaction))
    }

    /// Returns the control with these settings, which has read nothing.
    fn director_of(&self, line: &str) -> Result<Director, Refused> {
        let made = election::proved(&self.durable, line, self.elected);
        made.map_err(Refused::of_new_settings)
    }

    /// Reads settings, records and states at one moment, with the settings in force at that moment.
    pub(super) fn read_in_force(&mut self) -> Result<Reading, Refused> {
        for _ in 0..TRIES {
            let servers = self.director.servers().iter().copied().collect();
            let reading = self.read_of(&servers)?;
            if reading.get(keys::SETTINGS).is_none() && self.durable.member().is_some() {
                self.write_first()?;
                continue;
            }
            match self.other_line(&reading)? {
                None => return Ok(reading),
                Some(line) => self.go_by(line)?,
            }
        }
        Err(Refused::in_vain())
    }

    /// Writes the settings of this control, because there are none and never were.
    fn write_first(&self) -> Result<(), Refused> {
        let first = Transaction::new()
            .compare(keys::SETTINGS, Revision::NEVER)
            .put(keys::SETTINGS, self.line.as_bytes())
            .with_kept_room();
        self.durable.store().make(first)?;
        Ok(())
    }

    /// Adopts these settings, which have replaced the earlier ones.
    fn go_by(&mut self, line: Box<str>) -> Result<(), Refused> {
        self.director = election::director(&self.durable, &line, self.elected)?;
        self.line = line;
        self.has_shards()
    }

    /// Fails if the settings have other shards than this process.
    pub(super) fn has_shards(&self) -> Result<(), Refused> {
        match self.director.shards() == usize::from(self.durable.shards()) {
            true => Ok(()),
            false => Err(Refused::OtherSettings),
        }
    }

    /// Returns the settings that were read, if they differ from this control's. If this process has all servers and
    /// there are no settings, it keeps its own: nobody else could have other ones.
    fn other_line(&mut self, reading: &Reading) -> Result<Option<Box<str>>, Refused> {
        let Some(pair) = reading.get(keys::SETTINGS) else {
            return Ok(None);
        };
        self.settled = pair.revision;
        let stored = std::str::from_utf8(&pair.value).map_err(|_| Refused::OtherSettings)?;
        let line = split_settings(stored).1;
        Ok((line != &*self.line).then(|| line.into()))
    }

    /// Reads the settings, the key of commands, all records, and the states of these servers, at one moment.
    fn read_of(&self, servers: &BTreeSet<u16>) -> Result<Reading, Refused> {
        let shards = (0..self.durable.shards()).map(keys::record);
        let states = servers.iter().copied().map(keys::state);
        let keys: Vec<_> = [keys::SETTINGS.to_vec(), keys::COMMANDS.to_vec()]
            .into_iter()
            .chain(shards)
            .chain(states)
            .collect();
        let slices: Vec<&[u8]> = keys.iter().map(Vec::as_slice).collect();
        Ok(self.durable.store().read(&slices)?)
    }

    /// Gives the reading to the director.
    pub(super) fn give(&mut self, reading: &Reading) -> Result<(), CoreFault> {
        self.written = given(&mut self.director, reading)?;
        Ok(())
    }
}

/// Returns the text that the control's host wrote before the line of settings, with its line feed.
fn host_of(reading: &Reading) -> Result<&str, Refused> {
    let stored = reading.get(keys::SETTINGS).map_or(&[][..], |it| &it.value);
    let stored = std::str::from_utf8(stored).map_err(|_| Refused::OtherSettings)?;
    Ok(&stored[..stored.len() - split_settings(stored).1.len()])
}

/// Gives the reading to a director, and returns when records and states were written.
fn given(director: &mut Director, reading: &Reading) -> Result<WrittenRevisions, CoreFault> {
    let pairs: BTreeMap<&[u8], &Pair> = reading.pairs.iter().map(|it| (&*it.key, it)).collect();
    let revision = |it: Option<&&Pair>| it.map_or(Revision::NEVER, |it| it.revision);
    let mut written = WrittenRevisions::default();
    // Settings have no more shards than this type can count.
    for shard in 0..director.shards() as u16 {
        let pair = pairs.get(&*keys::record(shard));
        let stood = revision(pair);
        director.record(pair.map_or(&keys::VACANT, |it| &it.value), stood)?;
        written.records.push(stood);
    }
    for server in director.servers().to_vec() {
        let pair = pairs.get(&*keys::state(server));
        director.state(pair.map_or(&keys::VACANT, |it| &it.value))?;
        written.states.insert(server, revision(pair));
    }
    director.read(revision(pairs.get(keys::COMMANDS)))?;
    Ok(written)
}

impl Refused {
    /// Returns why new settings can't describe the present state.
    fn of_new_settings(fault: CoreFault) -> Refused {
        match fault.0 {
            code if code.is_of_settings() => Refused::BadSettings(SettingsFault::of_code(code.0)),
            Code::DIRECTOR_UNREACHED | Code::DIRECTOR_DIFFERENT => Refused::Unkept,
            _ => Refused::of(fault),
        }
    }

    /// Returns why new settings can't replace those in force.
    fn of_resettling(refusal: SettingsRefusal) -> Refused {
        match refusal.code {
            Code::DIRECTOR_OTHER_SHARDS => Refused::OtherShards,
            Code::DIRECTOR_OTHER_CEILING => Refused::OtherCeiling,
            Code::DIRECTOR_IN_USE => Refused::InUse(refusal.in_use),
            code => Refused::of(CoreFault(code)),
        }
    }
}
