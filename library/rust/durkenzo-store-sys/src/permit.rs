use crate::calls::{self, ViewNumbers};
use crate::Code;

pub use crate::calls::{HandOverNumbers as HandOver, ReadingNumbers as ShardReading};

/// A server process's knowledge of a shard. From it proved code decides whether the process may execute.
///
/// ```
/// use durkenzo_store_sys::{HandOver, ShardReading, ShardView};
///
/// // Server 1 forwards to server 2, by the record of generation 3. Server 2 waits until it is handed the shard.
/// let word = 3 << 61 | 1 << 48 | 2 << 36 | 3;
/// let reading = ShardReading { revision: 9, word, owner_joined: 5, ..Default::default() };
/// let next = ShardView::new(2, 6, 100)?.read(&reading)?;
/// assert!(!next.may_execute(1, 50)?);
/// let next = next.handed(&HandOver { server: 1, joined: 5, generation: 3 })?;
/// assert!(next.may_execute(1, 50)?);
/// // Not once its lease may have ended.
/// assert!(!next.may_execute(1, 100)?);
/// # Ok::<(), durkenzo_store_sys::Code>(())
/// ```
#[derive(Clone, Copy, Debug, PartialEq, Eq)]
pub struct ShardView(ViewNumbers);

// SAFETY, of all calls below: each pointer is to a value that lives as long as the call, and only the call writes to
// it.
impl ShardView {
    /// Returns the view of a process that put its server's key at the revision `joined`. Its lease lasts until this
    /// time of its clock. The process executes nothing until it has read the shard.
    ///
    /// # Errors
    ///
    /// [`Code::BAD_ARGUMENT`] if the number is no server's.
    pub fn new(server: u16, joined: u64, until: u64) -> Result<ShardView, Code> {
        let mut view = ViewNumbers::default();
        Code::judged(unsafe { calls::durkenzo_permit_new(server, joined, until, &mut view) })?;
        Ok(ShardView(view))
    }

    /// Returns whether the process may execute a request at this time of its clock. The request came directly (`from`
    /// is 0) or from the server `from`.
    ///
    /// # Errors
    ///
    /// [`Code::BAD_ARGUMENT`] if the number `from` is no server's.
    pub fn may_execute(&self, from: u16, time: u64) -> Result<bool, Code> {
        let mut may = false;
        Code::judged(unsafe { calls::durkenzo_permit_may_execute(&self.0, from, time, &mut may) })?;
        Ok(may)
    }

    /// Returns whether the process may ack its record.
    ///
    /// # Errors
    ///
    /// A view of this type never causes an error.
    pub fn may_ack(&self) -> Result<bool, Code> {
        let mut may = false;
        Code::judged(unsafe { calls::durkenzo_permit_may_ack(&self.0, &mut may) })?;
        Ok(may)
    }

    /// Returns the view after a keep-alive of the lease was answered. The lease then lasts until this time.
    ///
    /// # Errors
    ///
    /// A view of this type never causes an error.
    pub fn kept(self, until: u64) -> Result<ShardView, Code> {
        self.changed(|view| unsafe { calls::durkenzo_permit_kept(view, until) })
    }

    /// Returns the view after the process has read the shard.
    ///
    /// # Errors
    ///
    /// [`Code::PERMIT_BAD_WORD`] if no record has the word.
    pub fn read(self, reading: &ShardReading) -> Result<ShardView, Code> {
        self.changed(|view| unsafe { calls::durkenzo_permit_read(view, reading) })
    }

    /// Returns the view after the process has read that the server acked up to this generation.
    ///
    /// # Errors
    ///
    /// [`Code::BAD_ARGUMENT`] if the number is no server's.
    pub fn acked(self, server: u16, generation: u64) -> Result<ShardView, Code> {
        self.changed(|view| unsafe { calls::durkenzo_permit_acked(view, server, generation) })
    }

    /// Returns the view after the process has received these handed-over bytes.
    ///
    /// # Errors
    ///
    /// [`Code::BAD_ARGUMENT`] if the number is no server's.
    pub fn handed(self, hand: &HandOver) -> Result<ShardView, Code> {
        self.changed(|view| unsafe { calls::durkenzo_permit_handed(view, hand) })
    }

    /// Returns the view after the process lets go of its record. It executes nothing more by that record.
    ///
    /// # Errors
    ///
    /// A view of this type never causes an error.
    pub fn let_go(self) -> Result<ShardView, Code> {
        self.changed(|view| unsafe { calls::durkenzo_permit_let_go(view) })
    }

    /// Returns the last reading.
    pub fn reading(&self) -> ShardReading {
        self.0.reading
    }

    /// Returns whether the owner that forwards by the record has let go, or has failed.
    pub fn is_freed(&self) -> bool {
        self.0.freed
    }

    /// Returns the revision at which the process put its server's key.
    pub fn joined(&self) -> u64 {
        self.0.joined
    }

    /// Returns the time of the process's clock until which its lease lasts.
    pub fn until(&self) -> u64 {
        self.0.until
    }

    /// Returns the view that the call makes from this one.
    fn changed(mut self, call: impl FnOnce(*mut ViewNumbers) -> u32) -> Result<ShardView, Code> {
        Code::judged(call(&mut self.0))?;
        Ok(self)
    }
}
