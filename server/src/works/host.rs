use super::forwarded_step::ForwardedStep;
use super::peer_command::PeerCommand;
use super::session::WorkSession;
use super::step_destination::StepDestination;
use super::WireReason;
use crate::cluster::Cluster;
use crate::control::Asked;
use durkenzo_control::links::{Host, Identity, ReturnedRequests};
use durkenzo_driver::Durable;
use std::io;
use std::sync::mpsc::SyncSender;
use std::sync::{Arc, Mutex, MutexGuard, PoisonError, Weak};

/// This server, as the links to other processes see it.
#[derive(Clone)]
pub struct ServerHost {
    /// This process's server.
    pub(super) server: u16,
    pub(super) durable: Weak<Durable>,
    pub(super) cluster: Weak<Cluster>,
    pub(super) control: ControlInlet,
}

/// The place for other processes' commands to the control of this process, until it takes no more.
#[derive(Clone, Default)]
pub(super) struct ControlInlet(Arc<Mutex<Option<SyncSender<Asked>>>>);

impl ControlInlet {
    /// Sends commands to this control from now on, or to none.
    pub(super) fn set(&self, control: Option<SyncSender<Asked>>) {
        *self.state() = control;
    }

    /// Returns the control, as long as it takes commands.
    pub(super) fn get(&self) -> Option<SyncSender<Asked>> {
        self.state().clone()
    }

    fn state(&self) -> MutexGuard<'_, Option<SyncSender<Asked>>> {
        self.0.lock().unwrap_or_else(PoisonError::into_inner)
    }
}

impl Host for ServerHost {
    type Reason = WireReason;
    type Destination = StepDestination;
    type Request = ForwardedStep;
    type Command = PeerCommand;
    type Session = WorkSession;

    fn session(&self, peer: Identity) -> io::Result<WorkSession> {
        WorkSession::new(self.clone(), peer)
    }

    fn resume(
        &self,
        returned: ReturnedRequests<ServerHost>,
    ) -> Result<(), ReturnedRequests<ServerHost>> {
        let Some(durable) = self.durable.upgrade() else {
            return Err(returned);
        };
        let steps = returned.requests.into_iter().map(|it| it.0).collect();
        durable.submit_again(returned.destination.0, steps, returned.revision);
        Ok(())
    }
}
