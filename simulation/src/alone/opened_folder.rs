use crate::folder::MountedDisk;
use crate::time::Time;
use durkenzo_driver::{Chores, Clock, Durable, DurableControl};
use durkenzo_server::configuration::Configuration;
use durkenzo_server::control::StoreBackend;
use durkenzo_server::run::BoxError;
use durkenzo_server::settings;
use durkenzo_store::{Embedded, Sync};
use std::sync::Arc;

/// The shards in a folder of a process, and the store below them. The schedule does the work of their threads.
pub struct OpenedFolder {
    pub durable: Arc<Durable>,
    store: Arc<Embedded>,
    chores: Chores,
    /// The readings of which the shards aren't told yet.
    read: Vec<Box<dyn FnOnce() + Send>>,
}

impl OpenedFolder {
    /// Opens the shards in the folder of this disk, as a server does.
    ///
    /// # Errors
    ///
    /// If the folder can't be read or written.
    pub fn open(
        (disk, sync): (&MountedDisk, Sync),
        configuration: &Configuration,
        (time, clock): (Time, Clock),
    ) -> Result<OpenedFolder, BoxError> {
        let store = Embedded::stepped(disk, &disk.folder(), sync, move || time.now())?;
        let store = Arc::new(store);
        settings::agree(&*store, "the folder", "name another folder", configuration)?;
        let (shards, options) = (configuration.rule.shards(), configuration.shard_options());
        let opened = Durable::open_all_without_threads(store.clone(), shards, options, clock);
        let (durable, chores) = opened?;
        Ok(OpenedFolder {
            durable: Arc::new(durable),
            store,
            chores,
            read: Vec::new(),
        })
    }

    /// Makes this process the control of its shards.
    ///
    /// # Errors
    ///
    /// If the store can't be read or written.
    pub fn backend(&self, configuration: &Configuration) -> Result<StoreBackend, BoxError> {
        let (durable, line) = (self.durable.clone(), settings::line(configuration));
        let control = DurableControl::lead(durable.clone(), &line)?;
        Ok(StoreBackend::alone(control, durable))
    }

    /// Lets the store do all that was sent.
    pub fn step(&self) {
        self.store.step();
    }

    /// Returns whether the store goes on.
    pub fn goes_on(&self) -> bool {
        self.store.goes_on() && self.durable.ended().is_none()
    }

    /// Does the due reading at this place. If it is late, the shards are told of it later.
    pub fn read(&mut self, place: usize, is_late: bool) {
        let count = self.chores.readings().max(1);
        match self.chores.read(place % count) {
            Some(tell) if is_late => self.read.push(tell),
            Some(tell) => tell(),
            None => {}
        }
    }

    /// Tells the shards of a late reading, the one at this place.
    pub fn tell_read(&mut self, place: usize) {
        if !self.read.is_empty() {
            let place = place % self.read.len();
            self.read.swap_remove(place)();
        }
    }

    /// Has shards refuse work that has waited in vain, and begin the bases that are due.
    pub fn tick(&self) {
        self.chores.tick();
    }

    /// Does all work that is due.
    pub fn do_all(&mut self) {
        self.step();
        self.read.drain(..).for_each(|tell| tell());
        while let Some(tell) = self.chores.read(0) {
            tell();
        }
        self.chores.tick();
        self.chores.keep_number();
    }
}
