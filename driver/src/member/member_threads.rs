//! The thread of a process's server. Only here does the server wait, for the store or for time to pass.
use super::joining_member::{JoinStep, JoiningMember};
use super::member_inner::MemberInner;
use super::notifier::Notifier;
use super::Member;
use crate::{JoinFault, OpenFault};
use std::sync::{Arc, PoisonError};
use std::thread;
use std::time::Duration;

/// How often in a lease's length the thread checks whether the lease must be kept.
const LOOKS: u32 = 30;

impl Notifier {
    /// Waits until somebody notifies it, at most for so long.
    fn wait(&self, most: Duration) {
        let is_notified = self.is_notified();
        let waited = self
            .wakes
            .wait_timeout_while(is_notified, most, |it| !*it)
            .unwrap_or_else(PoisonError::into_inner);
        let mut is_notified = waited.0;
        *is_notified = false;
    }
}

impl JoiningMember {
    /// Waits until the server is there.
    ///
    /// # Errors
    ///
    /// As [`Member::join`] says.
    pub fn wait(mut self) -> Result<Member, JoinFault> {
        loop {
            match self.turn() {
                JoinStep::Joined(member) => return Ok(member),
                JoinStep::Failed(fault) => return Err(fault),
                JoinStep::Waits(joining, most) => {
                    joining.notifier().wait(most);
                    self = joining;
                }
            }
        }
    }
}

/// Starts a thread that keeps the lease, until the end.
pub(super) fn begin(inner: &Arc<MemberInner>) -> Result<(), OpenFault> {
    let keeping = inner.clone();
    let keeps = move || {
        // The thread waits by a clock that stops while the machine is suspended. So it looks at the lease's clock
        // often: if that clock has jumped, the lease is kept at once.
        let look = keeping.length / LOOKS;
        while let Some(most) = keeping.turn() {
            keeping.notifier.wait(most.min(look));
        }
    };
    let thread = thread::Builder::new().name("member".to_owned());
    thread.spawn(keeps).map(drop).map_err(OpenFault::Thread)
}
