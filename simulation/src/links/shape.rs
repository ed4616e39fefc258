use super::step::TABLE;
use super::{Inbox, LinkedDestination, LinkedHost, LinkedStep, Parcels};
use crate::bug::Bug;
use crate::ledger::SharedLedger;
use crate::machine_clock::MachineClock;
use crate::mail::Sender;
use crate::time::Time;
use durkenzo_control::links::{Admission, Identity, Links, Secret, Terms, FIRST_TABLE};
use durkenzo_driver::{Clock, Durable, HandOver, Member};
use std::sync::Arc;
use std::time::Duration;

/// The checksum of the settings that all processes have, and the secret that each of them knows.
const SETTINGS: u64 = 7;
const SECRET: &[u8] = b"a secret";

/// The shape of a process's links.
pub struct LinkShape {
    pub parcels: Parcels,
    pub ledger: SharedLedger,
    pub time: Time,
    pub bug: Option<Bug>,
    /// How long a request waits.
    pub wait: Duration,
    /// Whether the process is of the version before.
    pub is_older: bool,
}

impl LinkShape {
    /// Returns the links of this member's process.
    pub fn links(&self, member: &Arc<Member>, clock: &MachineClock) -> Links<LinkedHost> {
        let identity = Identity {
            server: member.server(),
            settings: SETTINGS,
            process: member.process(),
            table: if self.is_older { FIRST_TABLE } else { TABLE },
        };
        let terms = Terms {
            identity,
            secret: Secret::of(SECRET),
            tls: None,
            admits: Admission::Processes,
        };
        let clock = clock.clone();
        let clock = Clock::new(move || clock.now());
        Links::without_threads(terms, member.clone(), self.wait, clock)
    }

    /// Returns a function that sends steps to other processes by these links.
    pub fn hand_over(&self, links: &Links<LinkedHost>, sender: Sender) -> HandOver {
        let (links, bug) = (links.clone(), self.bug);
        let (ledger, time) = (self.ledger.clone(), self.time.clone());
        Box::new(move |elsewhere, steps| {
            let steps = steps.into_iter();
            let steps = steps.map(|it| LinkedStep::new(it, sender.life, (&ledger, &time), bug));
            links.forward(&LinkedDestination(elsewhere), steps.collect());
        })
    }

    /// Begins the links. They answer the steps of other processes by these shards, and pass commands on to this
    /// control.
    pub fn begin(
        &self,
        links: &Links<LinkedHost>,
        servers: u16,
        durable: &Arc<Durable>,
        inbox: &Inbox,
    ) {
        let host = LinkedHost {
            durable: Arc::downgrade(durable),
            inbox: inbox.clone(),
            parcels: self.parcels.clone(),
            bug: self.bug,
            lost: Default::default(),
        };
        links.begin_without_threads(servers, host);
    }
}
