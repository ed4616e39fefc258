use super::forwarded_step::refuse_spelled;
use super::host::ServerHost;
use super::remote_work::RemoteWork;
use super::WireReason;
use crate::cluster::Cluster;
use crate::command::{check_memory_of, is_of_all, step_of_spelled};
use crate::control::asked;
use crate::io::ReplyAddress;
use crate::keyspace::Keyspace;
use crate::memory::CEILING;
use crate::resp::{OwnedCommand, Replies};
use durkenzo_control::links::{
    Identity, PeerSession, Reason, ReceivedRequests, ReplySender, WireFault,
};
use durkenzo_driver::{NotDone, WorkStep};
use std::io;
use std::sync::Arc;

/// The session of one process that has connected.
pub struct WorkSession {
    host: ServerHost,
    keyspace: Keyspace,
    /// The process's identity.
    peer: Identity,
}

impl WorkSession {
    /// Makes the session of this process.
    pub(super) fn new(host: ServerHost, peer: Identity) -> io::Result<WorkSession> {
        let cluster = host.cluster.upgrade();
        let cluster = cluster.ok_or_else(|| io::Error::other(NotDone::Stopped))?;
        let keyspace = Keyspace::new(&cluster.configuration.rule).map_err(io::Error::other)?;
        Ok(WorkSession {
            host,
            keyspace,
            peer,
        })
    }

    /// Returns the step of the work with these bytes. A work that isn't known here, because a process of a later
    /// version sent it, is refused on its own.
    fn step(
        &self,
        (spelled, reply): (&[u8], ReplySender<WireReason>),
        shard: u16,
        cluster: &Arc<Cluster>,
    ) -> Option<WorkStep> {
        CEILING.note_came(spelled.len());
        if let Err(fault) = check_memory_of(spelled) {
            let mut refused = Replies::default();
            refused.error(fault);
            reply.answer(&refused.into_bytes());
            return None;
        }
        let answering = reply.clone();
        let reply_to = ReplyAddress::process(move |bytes| answering.answer(&bytes));
        match step_of_spelled(spelled, shard, &self.keyspace, cluster, reply_to) {
            Some(step) => Some(RemoteWork::step(step, reply)),
            None => {
                refuse_spelled(spelled, self.host.server, reply);
                None
            }
        }
    }
}

impl PeerSession for WorkSession {
    type Reason = WireReason;

    fn execute(&mut self, received: ReceivedRequests<'_, WireReason>) {
        let (shard, requests) = (received.shard, received.requests.into_iter());
        let host = &self.host;
        let (Some(durable), Some(cluster)) = (host.durable.upgrade(), host.cluster.upgrade())
        else {
            return requests.for_each(|it| it.1.refuse(WireReason::stopped()));
        };
        let steps = requests.filter_map(|it| self.step(it, shard, &cluster));
        durable.submit_from(shard, steps.collect(), received.came, received.since);
    }

    fn ask_control(
        &mut self,
        command: &[u8],
        reply: ReplySender<WireReason>,
    ) -> Result<(), WireFault> {
        let command = OwnedCommand::spelled(command).ok_or(WireFault::Words)?;
        let answering = reply.clone();
        let mut reply_to = ReplyAddress::asking_process(move |answer| match answer {
            Some(answer) => answering.answer(&answer),
            None => answering.refuse(WireReason::stopped()),
        });
        if !is_of_all(command.command()) {
            let (shown, server) = (command.shown(), self.peer.server);
            tracing::info!(asked = shown, server, "another process asks the control");
            reply_to = reply_to.logged(shown);
        }
        let control = self.host.control.get();
        let asked = asked(command.command(), reply_to);
        let is_asked = control.is_some_and(|it| it.try_send(asked).is_ok());
        if !is_asked {
            reply.refuse(WireReason::stopped());
        }
        Ok(())
    }
}
