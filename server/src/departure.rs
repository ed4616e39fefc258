//! How a process of a cluster gives its shards away before it ends.
use crate::cluster::Cluster;
use crate::control::Asked;
use crate::storage::Storage;
use durkenzo_control::control::{ControlAnswer, Refusal, ReplyTo, Words};
use durkenzo_driver::Durable;
use std::sync::mpsc::SyncSender;
use std::time::Duration;
use tokio::sync::oneshot::error::TryRecvError;
use tokio::sync::oneshot::{channel, Receiver, Sender};
use tokio::time::{sleep, Instant};

/// How often it checks whether the shards have gone.
const LOOK: Duration = Duration::from_millis(10);
/// How long it waits to ask again after the control refused, for instance because another server's restart is under
/// way.
const ASK_AGAIN: Duration = Duration::from_millis(200);

/// A process that is about to end.
pub(crate) struct Departure {
    control: SyncSender<Asked>,
}

impl Departure {
    /// Makes the departure of a process whose control gets its commands there.
    pub(crate) fn new(control: SyncSender<Asked>) -> Departure {
        Departure { control }
    }

    /// Asks for a restart of this process's server, so that its shards go to others now and come home later. Waits
    /// until they have gone, but no longer than the grace period. A process that has all servers gives nothing away.
    pub(crate) async fn give_shards_away(self, cluster: &Cluster) {
        let Storage::Etcd(etcd) = &cluster.storage else {
            return;
        };
        cluster.leave();
        tracing::info!("giving shards away");
        let (durable, server) = (etcd.durable(), etcd.peers().member().server());
        let (mut told, mut again) = (None, Instant::now());
        let end = again + cluster.configuration.grace;
        while !has_given(durable, server) && Instant::now() < end {
            if told.is_none() && Instant::now() >= again {
                told = self.ask(server);
            }
            if told.as_mut().is_some_and(is_over) {
                (told, again) = (None, Instant::now() + ASK_AGAIN);
            }
            sleep(LOOK).await;
        }
    }

    /// Asks for the restart, and returns the receiver of a refusal; or nothing if the control takes no commands for
    /// now.
    fn ask(&self, server: u16) -> Option<Receiver<String>> {
        let (tell, told) = channel();
        let words = Words::of(["SM", "RESTART", &server.to_string()]);
        let reply_to = Box::new(RefusalNote(tell));
        let asked = self.control.try_send(Asked { words, reply_to });
        asked.ok().map(|()| told)
    }
}

/// Returns whether an answer came, or none will come. If it is a refusal, it is logged. Then the departure asks again,
/// because it may.
fn is_over(told: &mut Receiver<String>) -> bool {
    match told.try_recv() {
        Ok(refusal) => tracing::info!(refusal, "the control doesn't let this server go yet"),
        Err(TryRecvError::Closed) => {}
        Err(TryRecvError::Empty) => return false,
    }
    true
}

/// Returns whether requests no longer reach the server, and none of its shards must still go. A paused shard waits for
/// the server's return.
fn has_given(durable: &Durable, server: u16) -> bool {
    let mut shards = 0..durable.shards();
    durable.is_away(server) && !shards.any(|it| durable.executes(server, it))
}

/// The address of a refusal. Other answers aren't told.
#[derive(Debug)]
struct RefusalNote(Sender<String>);

impl RefusalNote {
    fn note(self, refusal: String) {
        // The process may have ended meanwhile.
        let _ = self.0.send(refusal);
    }
}

impl ReplyTo for RefusalNote {
    fn send(self: Box<Self>, answer: Result<ControlAnswer, Refusal>) {
        if let Err(refusal) = answer {
            self.note(refusal.to_string());
        }
    }

    fn pass_on(self: Box<Self>, answer: Vec<u8>) {
        if let Some(refusal) = answer.strip_prefix(b"-") {
            self.note(String::from_utf8_lossy(refusal).trim_end().to_owned());
        }
    }
}
