use super::calls::{send, wait_until, SharedCalls};
use crate::time::Time;
use durkenzo_store::{Environment, Later, MemberAnswer, MemberCall, NoAnswer};
use std::time::Instant;

/// The environment of a client: the time of the schedule, and members that answer when the schedule says so.
pub struct ClientEnvironment {
    pub calls: SharedCalls,
    pub time: Time,
    /// The place of the client.
    pub place: usize,
    /// The members that the client knows, in the order in which it counts them.
    pub members: Vec<usize>,
}

impl Environment for ClientEnvironment {
    fn call(&self, call: MemberCall) -> Later<'static, Result<MemberAnswer, NoAnswer>> {
        let member = self.members[call.member];
        send(&self.calls, self.place, (call, member), self.time.passed())
    }

    fn now(&self) -> Instant {
        self.time.now()
    }

    fn wait_until(&self, moment: Instant) -> Later<'static, ()> {
        let time = self.time.clone();
        wait_until(&self.calls, moment, move || time.now())
    }
}
