use super::cursors::OwnCursors;
use super::role::Role;
use super::split::KeysDone;
use super::transaction::MultiTransaction;
use super::Fault;
use crate::guesses::{ClientOrigin, Guesses};
use crate::resp::{Command, Replies};
use crate::safety::Safety;
use std::net::{Ipv4Addr, SocketAddr};
use std::time::{Duration, Instant};

/// The most bytes that a client without a password may have in a command, and the most unsent bytes of its answers
/// before no further command is done.
pub const MOST_OF_A_STRANGER: usize = 16 << 10;

/// The state of a connection that its earlier commands leave for its later ones.
#[derive(Debug)]
pub struct Session {
    /// A number that only this connection has.
    pub id: u64,
    /// The address from which the client connects.
    pub address: SocketAddr,
    /// The name that the client gave itself.
    pub name: Option<Box<[u8]>>,
    /// Whether the client gave the password, or needs none.
    pub is_known: bool,
    /// The client's role.
    pub role: Role,
    /// Whether the client may change shards.
    pub may_control: bool,
    /// How many wrong passwords the client gave.
    wrong_guesses: u32,
    /// Whether its next password is checked, whatever was given before.
    pub may_guess: bool,
    /// The transaction that was begun.
    pub(super) transaction: Option<Box<MultiTransaction>>,
    /// How far the next command has come, if it waits between its keys.
    pub(super) progress: KeysDone,
    /// The cursors that it was given last. Most connections are given none, and have no room for them.
    cursors: Option<OwnCursors>,
}

impl Session {
    /// Makes the session of a new connection from this address, to a server with these passwords.
    pub fn of(id: u64, address: SocketAddr, safety: &Safety) -> Session {
        Session {
            address,
            may_control: Role::Default.may_control(safety),
            ..Session::new(id, safety.password.is_none())
        }
    }

    /// Returns a session as when the connection was new, except for the wrong passwords that it gave.
    pub fn renewed(&self, safety: &Safety) -> Session {
        Session {
            wrong_guesses: self.wrong_guesses,
            ..Session::of(self.id, self.address, safety)
        }
    }

    /// Makes the session of a connection that may do everything once it is known.
    pub fn new(id: u64, is_known: bool) -> Session {
        Session {
            id,
            address: (Ipv4Addr::UNSPECIFIED, 0).into(),
            name: None,
            is_known,
            role: Role::Default,
            may_control: true,
            wrong_guesses: 0,
            may_guess: false,
            transaction: None,
            progress: KeysDone::default(),
            cursors: None,
        }
    }

    /// Returns how many bytes may be unsent before no further command is done. A known client may have `of_known`.
    #[inline]
    pub fn most_unsent(&self, of_known: usize) -> usize {
        match self.is_known {
            true => of_known,
            false => MOST_OF_A_STRANGER.min(of_known),
        }
    }

    /// Returns for how long its next password isn't checked.
    pub(super) fn wait_of_guess(&self, guesses: &Guesses, now: Instant) -> Duration {
        let origin = ClientOrigin::from(self.address.ip());
        guesses.wait(origin, self.wrong_guesses, now)
    }

    /// Notes that it gave a wrong password.
    pub(super) fn note_wrong_guess(&mut self, guesses: &Guesses, now: Instant) {
        self.wrong_guesses = self.wrong_guesses.saturating_add(1);
        guesses.note_wrong(self.address.ip().into(), now);
    }

    /// Returns the cursors that it was given last.
    pub(super) fn cursors(&mut self) -> &OwnCursors {
        self.cursors.get_or_insert_default()
    }

    /// Answers a command that is refused. An open transaction then executes nothing, unless the refused command is a
    /// second MULTI.
    pub(super) fn refuse(&mut self, fault: Fault, replies: &mut Replies) {
        if matches!(fault, Fault::ExecArity | Fault::ExecMaxMemory) {
            self.transaction = None;
        }
        let transaction = self.transaction.as_mut();
        if let Some(transaction) = transaction.filter(|_| fault != Fault::NestedMulti) {
            transaction.abort();
        }
        fault.answer(replies);
    }

    /// Queues a command of the open transaction, with keys of this shard, and answers it.
    pub(super) fn queue(
        &mut self,
        command: Command<'_>,
        shard: Option<u16>,
        replies: &mut Replies,
    ) -> Result<(), Fault> {
        let transaction = self.transaction.as_mut().ok_or(Fault::NotQueued)?;
        transaction.push(command, shard)?;
        replies.simple("QUEUED");
        Ok(())
    }
}
