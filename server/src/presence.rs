//! The servers, and whether requests reach them.
use crate::membership::Membership;
use durkenzo::MAX_SERVER;
use durkenzo_driver::ServerState;
use std::sync::atomic::{AtomicBool, AtomicU64, AtomicU8, Ordering};
use std::sync::{PoisonError, RwLock, RwLockReadGuard};

/// The state of each server. Only the control changes it, after the library made the step.
#[derive(Debug)]
pub struct Presence {
    membership: RwLock<Membership>,
    /// The states of all servers that there can ever be, because new settings may add servers.
    states: Box<[AtomicU8]>,
    /// Whether requests reach no server for now.
    is_closed: AtomicBool,
    version: AtomicU64,
}

impl Presence {
    /// Makes the presence of these servers, all up.
    pub fn new(membership: Membership) -> Presence {
        let up = || AtomicU8::new(ServerState::Up.number());
        Presence {
            membership: RwLock::new(membership),
            states: (0..MAX_SERVER).map(|_| up()).collect(),
            is_closed: AtomicBool::new(false),
            version: AtomicU64::new(0),
        }
    }

    /// Stops requests from reaching any server. Returns the new version.
    pub fn close(&self) -> u64 {
        self.is_closed.store(true, Ordering::Release);
        self.changed()
    }

    /// Lets requests reach servers again. Returns the new version.
    pub fn open(&self) -> u64 {
        self.is_closed.store(false, Ordering::Release);
        self.changed()
    }

    /// Returns whether requests reach no server for now.
    pub fn is_closed(&self) -> bool {
        self.is_closed.load(Ordering::Acquire)
    }

    fn changed(&self) -> u64 {
        self.version.fetch_add(1, Ordering::AcqRel) + 1
    }

    /// Returns the number of servers.
    pub fn servers(&self) -> u16 {
        self.membership().servers
    }

    /// Returns how many servers may be away for a restart at once.
    pub fn restarts(&self) -> u16 {
        self.membership().restarts
    }

    /// Returns the server's domain.
    pub fn domain_of(&self, server: u16) -> u16 {
        self.membership().domains.domain_of(server)
    }

    /// Adopts these servers from now on. Returns the new version.
    pub fn go_by(&self, membership: Membership) -> u64 {
        let held = self.membership.write();
        *held.unwrap_or_else(PoisonError::into_inner) = membership;
        self.changed()
    }

    fn membership(&self) -> RwLockReadGuard<'_, Membership> {
        self.membership
            .read()
            .unwrap_or_else(PoisonError::into_inner)
    }

    /// Returns the server's state, if there is such a server.
    pub fn state(&self, server: u16) -> Option<ServerState> {
        let index = usize::from(server).checked_sub(1)?;
        let is_there = server <= self.servers();
        let state = self.states.get(index).filter(|_| is_there)?;
        let number = state.load(Ordering::Acquire);
        ServerState::of_number(number)
    }

    /// Returns whether there is such a server, and requests reach it.
    pub fn is_reached(&self, server: u16) -> bool {
        !self.is_closed() && self.state(server).is_some_and(ServerState::is_reached)
    }

    /// Sets the state of a server, and returns the new version.
    pub fn set(&self, server: u16, state: ServerState) -> u64 {
        self.states[usize::from(server) - 1].store(state.number(), Ordering::Release);
        self.changed()
    }

    /// Returns how many changes there were.
    pub fn version(&self) -> u64 {
        self.version.load(Ordering::Acquire)
    }
}
