use crate::admission::Admission;
use crate::board::Shared;
use crate::entry::Entry;
use crate::fault::{AdmitFault, NoteFault, UnknownShard};
use crate::note::Note;
use crate::parked;
use crate::permit::Permit;
use crate::raw::{self, Handle};
use crate::record::Record;
use crate::seat::Seat;
use crate::server_id::ServerId;
use crate::shard_id::ShardId;
use std::fmt;
use std::sync::Arc;
use std::time::Duration;

/// How a request came to a server.
#[derive(Clone, Copy, Debug, PartialEq, Eq)]
pub enum Mode {
    /// From a client.
    Direct,
    /// From this server, as one that it forwarded.
    Forwarded(ServerId),
}

/// A thread's access to a board. It acts as one server for as long as it lives, and has one permit at a time. A thread
/// that needs two shards at once makes two passes, and takes the lower shard first, as `examples/transfer.rs` does.
pub struct Pass<T> {
    // This field is before `shared`, because a body must not be dropped before the admission ends.
    pub(crate) seat: Seat,
    server: ServerId,
    pub(crate) shared: Arc<Shared<T>>,
}

impl<T> Pass<T> {
    pub(crate) fn new(shared: Arc<Shared<T>>, handle: Handle, server: ServerId) -> Pass<T> {
        let waiters = shared.waiters.clone();
        let seat = Seat { handle, waiters };
        Pass {
            seat,
            server,
            shared,
        }
    }

    /// Returns the server as which the pass acts.
    #[must_use]
    pub fn server(&self) -> ServerId {
        self.server
    }

    /// Returns the shard's record, as the pass now sees it.
    ///
    /// # Errors
    ///
    /// `UnknownShard` if there is no such shard.
    pub fn look(&mut self, shard: ShardId) -> Result<Record, UnknownShard> {
        // SAFETY: this pass is borrowed exclusively and owns the handle.
        match unsafe { raw::durkenzo_look_word(&mut self.seat.handle, shard.get()) } {
            raw::NO_WORD => Err(UnknownShard),
            word => Ok(Record::of_word(word)),
        }
    }

    /// Makes a note of all that the pass has seen.
    ///
    /// # Errors
    ///
    /// `Holding` if a permit of this pass was forgotten and still holds its shard, or `NoMemory`.
    pub fn note(&mut self) -> Result<Note<T>, NoteFault> {
        let mut handle = Handle::empty();
        // SAFETY: this pass is borrowed exclusively and owns one handle, and only this call uses the other.
        match unsafe { raw::durkenzo_split(&mut self.seat.handle, &mut handle) } {
            0 => Ok(Note {
                handle,
                shared: self.shared.clone(),
            }),
            code => Err(NoteFault::of(code)),
        }
    }

    /// Tells the pass all that the note's maker had seen.
    ///
    /// # Errors
    ///
    /// `OtherBoard` if the note is of another board, or `Holding` if a permit of this pass was forgotten.
    pub fn meet(&mut self, mut note: Note<T>) -> Result<(), NoteFault> {
        if !Arc::ptr_eq(&self.shared, &note.shared) {
            return Err(NoteFault::OtherBoard);
        }
        // SAFETY: this call borrows both handles exclusively, and they are of one board.
        match unsafe { raw::durkenzo_meet(&mut self.seat.handle, &mut note.handle) } {
            0 => Ok(()),
            code => Err(NoteFault::of(code)),
        }
    }

    /// Admits the pass's server to the shard, for a request that came in this mode. It never waits.
    ///
    /// # Errors
    ///
    /// `UnknownShard` or `BadServer` if there is no such shard or server, `Holding` if a permit of this pass was
    /// forgotten. All other faults depend on the record that was read.
    // When this is inlined, an admitted caller doesn't wait for a permit to be written to memory, and the compiler
    // builds only the parts of a fault that the caller reads.
    #[inline(always)]
    pub fn admit(&mut self, shard: ShardId, mode: Mode) -> Result<Permit<'_, T>, AdmitFault> {
        match self.enter(shard, mode) {
            Ok(number) => Ok(Permit::of(self, shard, number)),
            Err((code, word)) => Err(AdmitFault::of(code, Record::of_word(word))),
        }
    }

    /// Admits the pass as [`Pass::admit`] does. While another thread has the shard, this thread is parked. If that
    /// admission never ends, the call never returns: for example, because the calling thread holds the permit by
    /// another pass. [`Pass::admit_for`] waits for a limited time.
    ///
    /// # Errors
    ///
    /// Those of [`Pass::admit`], except for `Admitted` and `Raced`.
    pub fn admit_blocking(
        &mut self,
        shard: ShardId,
        mode: Mode,
    ) -> Result<Permit<'_, T>, AdmitFault> {
        self.admit_until(shard, mode, None)
    }

    /// Admits the pass as [`Pass::admit_blocking`] does, and waits at most for this time.
    ///
    /// # Errors
    ///
    /// Those of [`Pass::admit`]. `Admitted` or `Raced` comes after the time.
    ///
    /// ```
    /// # use durkenzo::{AdmitFault, Board, Mode, ServerId, ShardId};
    /// # use std::time::Duration;
    /// let board = Board::builder().build(vec![0u64])?;
    /// let (shard, server) = (ShardId::new(0)?, ServerId::new(1)?);
    /// board.control().assign(shard, server)?;
    /// let (mut pass, mut other) = (board.pass(server)?, board.pass(server)?);
    /// let held = pass.admit(shard, Mode::Direct)?;
    /// let refused = other.admit_for(shard, Mode::Direct, Duration::from_millis(1));
    /// assert!(matches!(refused, Err(AdmitFault::Admitted(_))));
    /// # drop(refused);
    /// # drop(held);
    /// # Ok::<(), Box<dyn std::error::Error>>(())
    /// ```
    pub fn admit_for(
        &mut self,
        shard: ShardId,
        mode: Mode,
        time: Duration,
    ) -> Result<Permit<'_, T>, AdmitFault> {
        self.admit_until(shard, mode, Some(time))
    }

    /// Admits the pass as [`Pass::admit_blocking`] does, for a task of any async runtime. The task waits without a
    /// thread, in the shard's queue with all others who wait.
    ///
    /// The future gives up if it is dropped, so `tokio::time::timeout` limits its time. Drop or poll it until its end:
    /// a future that was woken and isn't polled again lets others wait for it.
    ///
    /// # Errors
    ///
    /// Those of [`Pass::admit_blocking`].
    ///
    /// ```
    /// use durkenzo::{AdmitFault, Mode, Pass, ShardId};
    ///
    /// async fn count(pass: &mut Pass<u64>, shard: ShardId) -> Result<u64, AdmitFault> {
    ///     let mut count = pass.admit_async(shard, Mode::Direct).await?;
    ///     *count += 1;
    ///     Ok(*count)
    /// }
    /// ```
    pub fn admit_async(&mut self, shard: ShardId, mode: Mode) -> Admission<'_, T> {
        Admission::new(self, shard, mode)
    }

    /// Admits the pass as [`Pass::admit_blocking`] does, and runs the closure on the body.
    ///
    /// # Errors
    ///
    /// Those of [`Pass::admit_blocking`].
    pub fn with<R>(
        &mut self,
        shard: ShardId,
        mode: Mode,
        work: impl FnOnce(&mut Permit<'_, T>) -> R,
    ) -> Result<R, AdmitFault> {
        match self.enter(shard, mode) {
            Ok(number) => Ok(work(&mut Permit::of(self, shard, number))),
            Err((code, word)) => Ok(work(&mut self.wait_after(
                shard,
                mode,
                (code, word),
                None,
            )?)),
        }
    }

    /// Admits the pass as [`Pass::admit`] does, without waiting, and runs the closure on the body.
    ///
    /// # Errors
    ///
    /// Those of [`Pass::admit`].
    pub fn try_with<R>(
        &mut self,
        shard: ShardId,
        mode: Mode,
        work: impl FnOnce(&mut Permit<'_, T>) -> R,
    ) -> Result<R, AdmitFault> {
        Ok(work(&mut self.admit(shard, mode)?))
    }

    /// Admits the pass as [`Pass::admit_for`] does, and runs the closure on the body.
    ///
    /// # Errors
    ///
    /// Those of [`Pass::admit_for`].
    pub fn with_for<R>(
        &mut self,
        shard: ShardId,
        mode: Mode,
        time: Duration,
        work: impl FnOnce(&mut Permit<'_, T>) -> R,
    ) -> Result<R, AdmitFault> {
        Ok(work(&mut self.admit_for(shard, mode, time)?))
    }

    fn admit_until(
        &mut self,
        shard: ShardId,
        mode: Mode,
        time: Option<Duration>,
    ) -> Result<Permit<'_, T>, AdmitFault> {
        match self.enter(shard, mode) {
            Ok(number) => Ok(Permit::of(self, shard, number)),
            Err(refused) => self.wait_after(shard, mode, refused, time),
        }
    }

    /// Waits after this refusal if another thread had the shard or was first. Otherwise returns why the pass isn't
    /// admitted.
    // Kept apart, so that a caller who is admitted at once saves no registers for it.
    #[cold]
    #[inline(never)]
    fn wait_after(
        &mut self,
        shard: ShardId,
        mode: Mode,
        (code, word): (u32, u64),
        time: Option<Duration>,
    ) -> Result<Permit<'_, T>, AdmitFault> {
        let fault = AdmitFault::of(code, Record::of_word(word));
        if !fault.is_transient() {
            return Err(fault);
        }
        let until = time.and_then(parked::end_of);
        if let Some(number) = parked::spin(|| self.enter(shard, mode).ok()) {
            return Ok(Permit::of(self, shard, number));
        }
        let number = match parked::wait_for(Entry::new(self, shard, mode), until) {
            Some(entered) => entered?,
            None => return self.admit(shard, mode),
        };
        Ok(Permit::of(self, shard, number))
    }

    /// Returns the number of the shard's body if the pass is now admitted to it. Otherwise returns the code of the
    /// refusal, with the word of the record that was read, or 0.
    #[inline(always)]
    pub(crate) fn enter(&mut self, shard: ShardId, mode: Mode) -> Result<u64, (u32, u64)> {
        let from = match mode {
            Mode::Direct => 0,
            Mode::Forwarded(server) => server.get(),
        };
        raw::admit(&mut self.seat.handle, shard.get(), from)
    }
}

impl<T> fmt::Debug for Pass<T> {
    fn fmt(&self, f: &mut fmt::Formatter<'_>) -> fmt::Result {
        f.debug_struct("Pass").finish_non_exhaustive()
    }
}
