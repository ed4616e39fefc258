use super::TlsConnection;
use std::sync::{Mutex, MutexGuard, PoisonError};

/// The state that both halves of a connection share. The lock is held while bytes are sealed or opened, and never
/// during a wait for a socket. So neither half waits for the peer because of the other one.
#[derive(Debug)]
pub(super) struct SharedConnection(Mutex<TlsConnection>);

impl SharedConnection {
    pub(super) fn new(connection: TlsConnection) -> SharedConnection {
        SharedConnection(Mutex::new(connection))
    }

    pub(super) fn lock(&self) -> MutexGuard<'_, TlsConnection> {
        self.0.lock().unwrap_or_else(PoisonError::into_inner)
    }
}
