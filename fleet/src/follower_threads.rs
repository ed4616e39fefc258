//! The threads that keep the known facts of shards up to date, and do the work that records ask for.
use crate::fleet_inner::FleetInner;
use crate::threads::{block_on, spawn};
use crate::{JoinError, Service};
use std::sync::mpsc::{sync_channel, Receiver, Sender, SyncSender};
use std::sync::{mpsc, Arc, Mutex, PoisonError, Weak};
use std::thread;
use std::time::Duration;

/// How often the keeper looks whether the lease was kept.
const KEPT: Duration = Duration::from_millis(10);
/// How often the follower looks for changes, even if nobody told it of any.
const TICK: Duration = Duration::from_millis(20);
/// The number of threads that do the work that records ask for, besides those that fetch bodies.
const SETTLERS: u16 = 4;

/// Tells the follower that something has changed.
pub(crate) struct Notices(SyncSender<()>);

impl Notices {
    pub(crate) fn new() -> (Notices, Receiver<()>) {
        let (tell, told) = sync_channel(1);
        (Notices(tell), told)
    }

    /// Returns the function to call when something has changed. If a notice is waiting already, that one is enough.
    pub(crate) fn teller(&self) -> Box<dyn Fn() + Send + Sync> {
        let tell = self.0.clone();
        Box::new(move || {
            let _ = tell.try_send(());
        })
    }
}

/// Begins the threads. They end when the fleet does.
pub(crate) fn begin<S: Service>(
    fleet: &Arc<FleetInner<S>>,
    noticed: Receiver<()>,
) -> Result<(), JoinError> {
    let (jobs, handed) = mpsc::channel();
    let handed = Arc::new(Mutex::new(handed));
    for number in 0..SETTLERS + fleet.options.moves {
        let (fleet, handed) = (Arc::downgrade(fleet), handed.clone());
        spawn(format!("settler-{number}"), move || {
            settle_all(&fleet, &handed)
        })?;
    }
    let keeping = Arc::downgrade(fleet);
    spawn("keeper".to_owned(), move || keep_all(&keeping))?;
    let following = Arc::downgrade(fleet);
    spawn("follower".to_owned(), move || {
        follow_all(&following, &noticed, &jobs)
    })
}

/// Returns the fleet, unless it is ending.
fn running<S: Service>(fleet: &Weak<FleetInner<S>>) -> Option<Arc<FleetInner<S>>> {
    fleet.upgrade().filter(|it| !it.is_stopping())
}

fn keep_all<S: Service>(fleet: &Weak<FleetInner<S>>) {
    while let Some(fleet) = running(fleet) {
        fleet.keep();
        drop(fleet);
        thread::sleep(KEPT);
    }
}

fn follow_all<S: Service>(fleet: &Weak<FleetInner<S>>, noticed: &Receiver<()>, jobs: &Sender<u16>) {
    while let Some(fleet) = running(fleet) {
        fleet.follow();
        // The settlers end only with the fleet.
        fleet.hand_out(|it| jobs.send(it).is_ok());
        drop(fleet);
        // The follower looks in either case, whether it got a notice or the time has passed.
        let _ = noticed.recv_timeout(TICK);
    }
}

fn settle_all<S: Service>(fleet: &Weak<FleetInner<S>>, handed: &Mutex<Receiver<u16>>) {
    loop {
        let next = handed.lock().unwrap_or_else(PoisonError::into_inner).recv();
        match (next, running(fleet)) {
            (Ok(shard), Some(fleet)) => block_on(fleet.settle(shard)),
            _ => return,
        }
    }
}
