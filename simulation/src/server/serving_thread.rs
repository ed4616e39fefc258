use super::client_line::SharedLine;
use crate::law::Broken;
use durkenzo_control::control::Asked;
use durkenzo_server::admission::Admission;
use durkenzo_server::cluster::Cluster;
use durkenzo_server::command::Executor;
use durkenzo_server::io::{Clients, HeldForClients, Inlet, Patience};
use durkenzo_server::keyspace::Keyspace;
use std::net::{Ipv4Addr, SocketAddr};
use std::sync::atomic::{AtomicBool, Ordering};
use std::sync::mpsc::SyncSender;
use std::sync::Arc;
use std::time::{Duration, Instant};

/// How often a thread with waiting commands looks at them.
const TICK: Duration = Duration::from_millis(5);

/// The most bytes of answers that a process holds for one client: what it may write before it stops, and the answers to
/// the last command.
const MOST_UNSENT: usize = (1 << 20) + (80 << 10);

/// The inlet of a thread that owns connections, and whether the thread was woken.
pub struct WokenInlet {
    pub inlet: Arc<Inlet>,
    woken: Arc<AtomicBool>,
}

impl WokenInlet {
    /// Makes the inlet of a thread in a cluster of so many servers.
    pub fn new(servers: u16) -> WokenInlet {
        let woken = Arc::new(AtomicBool::new(false));
        let wakes = woken.clone();
        let wake = Box::new(move || wakes.store(true, Ordering::Relaxed));
        let inlet = Arc::new(Inlet::by(wake, servers));
        WokenInlet { inlet, woken }
    }
}

/// A thread that owns connections of clients. It goes on in rounds, as the schedule lets it.
pub struct ServingThread {
    cluster: Arc<Cluster>,
    inlet: WokenInlet,
    /// The connections, until the thread ends.
    clients: Option<Clients>,
    /// The lines of its clients.
    lines: Vec<SharedLine>,
    /// When the thread looks again although there is no event, if it does.
    due: Option<Instant>,
}

impl ServingThread {
    /// Begins the thread of this cluster that has this inlet. The cluster must have the inlets of all its threads.
    pub fn begin(
        cluster: &Arc<Cluster>,
        inlet: WokenInlet,
        control: SyncSender<Asked>,
    ) -> ServingThread {
        let admission = Admission::new(cluster.clone(), inlet.inlet.stats().clone());
        let admission = admission.expect("there is memory for passes");
        let keyspace = Keyspace::new(&cluster.configuration.rule).expect("the bounds rise");
        let executor = Executor::new(cluster.clone(), admission, keyspace);
        let clients = Clients::simulated(cluster.clone(), inlet.inlet.clone(), executor, control);
        ServingThread {
            cluster: cluster.clone(),
            inlet,
            clients: Some(clients),
            lines: Vec::new(),
            due: None,
        }
    }

    /// Takes a client's connection by this line.
    pub fn accept(&mut self, line: SharedLine) {
        let from = SocketAddr::from((Ipv4Addr::LOCALHOST, 1));
        let now = self.cluster.now();
        self.inlet
            .inlet
            .bring_simulated(line.server_end(), from, now);
        self.lines.push(line);
    }

    /// Returns whether the thread would go on: it was woken, there is an event, or work is due.
    pub fn is_due(&self) -> bool {
        let has_event = || self.lines.iter().any(|it| it.line().has_event());
        let is_due = self.due.is_some_and(|it| it <= self.cluster.now());
        let has_work = is_due || self.inlet.woken.load(Ordering::Relaxed) || has_event();
        self.clients.is_some() && has_work
    }

    /// Gives the thread a round. All its events are there before any is noted. `is_woken_first` says whether that of
    /// the inlet comes before the others. The thread ends if the process stops and every request is answered.
    pub fn round(&mut self, is_woken_first: bool) {
        let Some(clients) = &mut self.clients else {
            return;
        };
        clients.begin_round();
        let is_woken = self.inlet.woken.swap(false, Ordering::Relaxed);
        let events = self.lines.iter().filter_map(|it| it.line().take_event());
        let events: Vec<_> = events.collect();
        let is_calm = !is_woken && events.is_empty();
        if is_woken && is_woken_first {
            clients.take_brought();
        }
        for (place, ready) in events {
            clients.note(place, ready);
        }
        if is_woken && !is_woken_first {
            clients.take_brought();
        }
        if clients.are_over(is_calm) {
            self.clients = None;
            return;
        }
        clients.end_round().expect("there is memory for passes");
        let wait = match clients.patience() {
            Patience::Turns | Patience::Races => Some(Duration::ZERO),
            Patience::Tick => Some(TICK),
            Patience::Idle => clients.timeout(),
        };
        self.due = wait.map(|it| self.cluster.now() + it);
        self.lines.retain(|it| !it.line().has_server_ended());
    }

    /// Returns whether the thread has ended.
    pub fn is_over(&self) -> bool {
        self.clients.is_none()
    }

    /// Returns what is held for clients.
    pub fn held(&self) -> HeldForClients {
        let clients = self.clients.as_ref();
        clients.map_or_else(HeldForClients::default, Clients::held)
    }

    /// Checks that no more is held for clients than may be.
    ///
    /// # Errors
    ///
    /// If more is held.
    pub fn judge_held(&self) -> Result<(), Broken> {
        let held = self.held();
        match held.most_unsent > MOST_UNSENT || held.connections as u64 > self.counted() {
            true => Err(Broken {
                law: "no more is held for clients than may be",
                by: format!("{held:?}"),
            }),
            false => Ok(()),
        }
    }

    /// Returns how many connections are counted as open.
    pub fn counted(&self) -> u64 {
        self.inlet.inlet.stats().open.get()
    }

    /// Resets the lines of all its clients, because the process is gone.
    pub fn reset_lines(&self) {
        self.lines.iter().for_each(|it| it.line().reset());
    }
}
