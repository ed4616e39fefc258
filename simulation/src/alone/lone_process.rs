use super::opened_folder::OpenedFolder;
use crate::law::Broken;
use crate::mail::Sender;
use crate::server::{ServingThread, WokenInlet};
use durkenzo_driver::Clock;
use durkenzo_server::cluster::Cluster;
use durkenzo_server::control::{Asked, Backend, ClusterHost, Controller, MOST_ASKED};
use durkenzo_server::run::BoxError;
use std::sync::mpsc::{sync_channel, Receiver};
use std::sync::Arc;
use std::time::Instant;

/// How many rounds each thread gets until the process has ended.
const LAST_ROUNDS: usize = 100;

/// A server of one process: the threads that own connections, the control, and the shards in a folder if there is one.
pub struct LoneProcess {
    pub sender: Sender,
    cluster: Arc<Cluster>,
    pub threads: Vec<ServingThread>,
    controller: Controller,
    asked: Receiver<Asked>,
    /// The time of the control's next turn, if nobody asks sooner and it has work.
    due: Option<Instant>,
    pub folder: Option<OpenedFolder>,
}

impl LoneProcess {
    /// Begins the process of this life with this clock, as a server begins: the control gives each shard an owner.
    ///
    /// # Errors
    ///
    /// If there is no memory, or the store can't be read or written.
    pub fn begin(
        (life, clock): (u64, Clock),
        (cluster, inlets): (Arc<Cluster>, Vec<WokenInlet>),
        backend: Box<dyn Backend>,
        folder: Option<OpenedFolder>,
    ) -> Result<LoneProcess, BoxError> {
        let (control, asked) = sync_channel(MOST_ASKED);
        let host = Arc::new(ClusterHost::new(cluster.clone())?);
        let mut controller = Controller::new(host, backend, clock);
        controller.begin(true)?;
        let inlets = inlets.into_iter();
        let threads = inlets.map(|it| ServingThread::begin(&cluster, it, control.clone()));
        Ok(LoneProcess {
            sender: Sender { place: 0, life },
            threads: threads.collect(),
            cluster,
            controller,
            asked,
            due: None,
            folder,
        })
    }

    /// Gives the control a turn, if it has requests or if its turn is due. Returns whether it was given one.
    pub fn control(&mut self) -> bool {
        let asked = self.asked.try_recv().ok();
        let is_due = self.due.is_some_and(|it| it <= self.cluster.now());
        if asked.is_none() && !is_due {
            return false;
        }
        self.controller.turn(asked);
        self.due = self.controller.wait().map(|it| self.cluster.now() + it);
        true
    }

    /// Lets everything go on that would. Returns whether anything did.
    pub fn go_on(&mut self) -> bool {
        if let Some(folder) = &mut self.folder {
            folder.do_all();
        }
        let mut has_moved = self.control();
        for thread in self.threads.iter_mut().filter(|it| it.is_due()) {
            thread.round(true);
            has_moved = true;
        }
        has_moved
    }

    /// Makes the threads answer what came, and then end.
    pub fn stop(&self) {
        self.cluster.stop();
    }

    /// Returns whether the threads must end.
    pub fn is_stopping(&self) -> bool {
        self.cluster.is_stopping()
    }

    /// Lets a process that stops do its last work.
    pub fn end(&mut self) {
        for _ in 0..LAST_ROUNDS {
            if self.threads.iter().all(ServingThread::is_over) {
                return;
            }
            self.go_on();
            self.threads.iter_mut().for_each(|it| it.round(true));
        }
    }

    /// Cuts the lines of all clients, because the process is gone.
    pub fn reset_lines(&self) {
        self.threads.iter().for_each(ServingThread::reset_lines);
    }

    /// Checks that no more is held for clients than may be.
    ///
    /// # Errors
    ///
    /// If more is held.
    pub fn judge_held(&self) -> Result<(), Broken> {
        self.threads.iter().try_for_each(ServingThread::judge_held)
    }

    /// Returns how many connections it holds, how many it counts, and how many turns are due.
    pub fn left(&self) -> [usize; 3] {
        let held: Vec<_> = self.threads.iter().map(ServingThread::held).collect();
        let counted = self.threads.iter().map(|it| it.counted() as usize);
        [
            held.iter().map(|it| it.connections).sum(),
            counted.sum(),
            held.iter().map(|it| it.queued + it.half_closed).sum(),
        ]
    }
}
