use crate::control::Control;
use crate::fault::{BuildFault, PassFault};
use crate::layout::Layout;
use crate::limits::MAX_GENERATION;
use crate::pass::Pass;
use crate::raw::{self, Handle};
use crate::server_id::ServerId;
use crate::settings_fault::SettingsFault;
use crate::shard_id::ShardId;
use crate::waiters::Waiters;
use std::cell::UnsafeCell;
use std::fmt;
use std::panic::{RefUnwindSafe, UnwindSafe};
use std::sync::atomic::{AtomicBool, Ordering};
use std::sync::{Arc, Mutex, MutexGuard, PoisonError};

/// The state that all handles of a board share.
pub(crate) struct Shared<T> {
    chief: Mutex<Handle>,
    /// The callers that wait for shards.
    pub(crate) waiters: Waiters,
    /// Whether a thread panicked during an admission to each shard.
    poisoned: Box<[AtomicBool]>,
    /// Reached only through a permit, until the last owner takes the bodies out.
    bodies: Box<[UnsafeCell<T>]>,
}

// SAFETY: a body is reached only through a permit, and a shard has at most one permit at a time. So the board sends
// bodies between threads, and never shares one.
unsafe impl<T: Send> Sync for Shared<T> {}

// A panic poisons the shard, and each later permit tells so. `std::sync::Mutex` is safe for the same reason.
impl<T> UnwindSafe for Shared<T> {}
impl<T> RefUnwindSafe for Shared<T> {}

impl<T> Shared<T> {
    /// Returns the shared state of a board whose bodies the library keeps itself.
    pub(crate) fn without_bodies(chief: Handle, shards: usize) -> Shared<T> {
        Shared {
            chief: Mutex::new(chief),
            waiters: Waiters::new(shards),
            poisoned: Box::default(),
            bodies: Box::default(),
        }
    }

    /// Returns the control's handle. Poison can be ignored, because no holder can panic in the middle of a change.
    pub(crate) fn chief(&self) -> MutexGuard<'_, Handle> {
        self.chief.lock().unwrap_or_else(PoisonError::into_inner)
    }

    /// Returns the place of the body with this number.
    pub(crate) fn body(&self, number: u64) -> *mut T {
        self.bodies[number as usize].get()
    }

    // Only whoever is admitted to the shard reads and writes this, and admissions are ordered.
    pub(crate) fn is_poisoned(&self, shard: ShardId) -> bool {
        self.poisoned[shard.index()].load(Ordering::Relaxed)
    }

    pub(crate) fn set_poisoned(&self, shard: ShardId, is_poisoned: bool) {
        self.poisoned[shard.index()].store(is_poisoned, Ordering::Relaxed);
    }
}

/// A board: a body for each shard, and the rules of who may use it. A clone is a handle to the same board.
pub struct Board<T> {
    shared: Arc<Shared<T>>,
}

/// The sizes of a board that is to be built.
#[derive(Clone, Debug)]
#[must_use = "there is no board before `build`"]
pub struct Builder {
    servers: u16,
    restarts: u16,
    ceiling: u64,
    after: u64,
}

impl Builder {
    /// Sets the number of servers, at most 4,095. They are numbered from 1. The default is 1.
    pub fn servers(mut self, servers: u16) -> Builder {
        self.servers = servers;
        self
    }

    /// Sets how many servers may be away for a restart at once. The default is 1.
    pub fn restarts(mut self, restarts: u16) -> Builder {
        self.restarts = restarts;
        self
    }

    /// Sets the greatest generation of a shard, from 3 to 2^36 - 1. The default is 2^36 - 1.
    pub fn ceiling(mut self, ceiling: u64) -> Builder {
        self.ceiling = ceiling;
        self
    }

    /// Sets the number after which the board's [fencing tokens](crate::Permit::token) begin. The default is 0. Each
    /// token is greater than this number, and at most `after + MAX_GENERATION`. At each start, raise a number in your
    /// store by [`MAX_GENERATION`] in one transaction, and pass its old value here. Then each token is above all tokens
    /// of earlier boards, even if an earlier board is still writing (`examples/fenced.rs`).
    pub fn after(mut self, token: u64) -> Builder {
        self.after = token;
        self
    }

    /// Builds a board with these bodies, 1 to 4,096: one for each shard, in order. At first nobody owns a shard.
    ///
    /// # Errors
    ///
    /// `NoShard` or `TooMany` if the number of bodies is wrong, `BadServers` or `BadCeiling` if a size is wrong,
    /// `BadAfter` if tokens would have more than 63 bits, or `NoMemory`.
    pub fn build<T>(self, bodies: impl IntoIterator<Item = T>) -> Result<Board<T>, BuildFault> {
        if self.servers == 0 {
            return Err(BuildFault::BadServers);
        }
        let (bodies, numbers) = numbered(bodies);
        let mut chief = Handle::empty();
        // SAFETY: only this call uses the handle, and the slice lasts as long as the call.
        let code = unsafe {
            raw::durkenzo_open_after(
                &mut chief,
                numbers.as_ptr(),
                numbers.len(),
                self.servers,
                self.restarts,
                self.ceiling,
                self.after,
            )
        };
        match code {
            0 => Ok(Board::of(chief, bodies)),
            code => Err(BuildFault::of(code)),
        }
    }
}

/// Returns the bodies in their places, and the number of each.
fn numbered<T>(bodies: impl IntoIterator<Item = T>) -> (Box<[UnsafeCell<T>]>, Vec<u64>) {
    let bodies: Box<[_]> = bodies.into_iter().map(UnsafeCell::new).collect();
    let numbers = (0..bodies.len() as u64).collect();
    (bodies, numbers)
}

impl Board<()> {
    /// Returns the sizes of a new board. Its `build` takes the bodies.
    pub fn builder() -> Builder {
        Builder {
            servers: 1,
            restarts: 1,
            ceiling: MAX_GENERATION,
            after: 0,
        }
    }
}

impl<T> Board<T> {
    fn of(chief: Handle, bodies: Box<[UnsafeCell<T>]>) -> Board<T> {
        Board {
            shared: Arc::new(Shared {
                chief: Mutex::new(chief),
                waiters: Waiters::new(bodies.len()),
                poisoned: bodies.iter().map(|_| AtomicBool::default()).collect(),
                bodies,
            }),
        }
    }

    /// Makes a board with these bodies, from the line of settings that begins a script, and returns it with its layout.
    /// The line's servers with their capacities, groups, domains and limits all hold here. Its workers and its limit of
    /// kept requests don't: they are for other engines. There must be as many bodies as the line has shards. At first
    /// nobody owns a shard.
    ///
    /// # Errors
    ///
    /// The first rule that the line breaks, `BadCount` if there are not as many bodies as shards, or `NoMemory`.
    ///
    /// ```
    /// use durkenzo::{Board, ServerId, ShardId};
    ///
    /// let line = r#"{"version": 1, "bounds": ["", "m"], "servers": [{"id": 1, "domain": 0, "capacity": 1},
    ///     {"id": 2, "domain": 1, "capacity": 2}], "groups": [{"limit": 2, "down": 1}],
    ///     "shards": [{"group": 0, "load": 1, "cap": 1}, {"group": 0, "load": 1, "cap": 1}],
    ///     "ops": 1, "kept": 1, "ceiling": 1000, "workers": 1}"#;
    /// let (board, layout) = Board::by_settings(line, [Vec::<u8>::new(), Vec::new()])?;
    /// assert_eq!((board.count(), layout.shard_of("salt").get()), (2, 1));
    /// let server = ServerId::new(1)?;
    /// board.control().assign(ShardId::new(0)?, server)?;
    /// // Server 1 has room for one shard.
    /// assert!(board.control().assign(ShardId::new(1)?, server).is_err());
    /// # Ok::<(), Box<dyn std::error::Error>>(())
    /// ```
    pub fn by_settings(
        line: impl AsRef<[u8]>,
        bodies: impl IntoIterator<Item = T>,
    ) -> Result<(Board<T>, Layout), SettingsFault> {
        Board::by_settings_after(line, bodies, 0)
    }

    /// Makes the same board. Its [fencing tokens](crate::Permit::token) begin after this number, as described at
    /// [`Builder::after`].
    ///
    /// # Errors
    ///
    /// Those of [`Board::by_settings`], and `BadAfter` if tokens would have more than 63 bits.
    pub fn by_settings_after(
        line: impl AsRef<[u8]>,
        bodies: impl IntoIterator<Item = T>,
        after: u64,
    ) -> Result<(Board<T>, Layout), SettingsFault> {
        let (bodies, numbers) = numbered(bodies);
        let (mut chief, mut layout) = (Handle::empty(), Handle::empty());
        let line = line.as_ref();
        // SAFETY: only this call uses the handles, and the slices last as long as the call.
        let code = unsafe {
            raw::durkenzo_open_bodies_after(
                &mut chief,
                &mut layout,
                line.as_ptr(),
                line.len(),
                numbers.as_ptr(),
                numbers.len(),
                after,
            )
        };
        match code {
            0 => Ok((Board::of(chief, bodies), Layout::of(layout, numbers.len()))),
            code => Err(SettingsFault::of(code)),
        }
    }

    /// Returns the number of shards.
    pub fn count(&self) -> usize {
        self.shared.bodies.len()
    }

    /// Returns the board's shards, in order.
    pub fn shards(&self) -> impl ExactSizeIterator<Item = ShardId> + Clone {
        ShardId::all(self.count())
    }

    /// Makes a pass, which acts as this server.
    ///
    /// # Errors
    ///
    /// `BadServer` if the board has no such server, or `NoMemory`.
    pub fn pass(&self, server: ServerId) -> Result<Pass<T>, PassFault> {
        let mut handle = Handle::empty();
        // SAFETY: the control's handle is locked, and only this call uses the other.
        match unsafe { raw::durkenzo_pass(&mut *self.shared.chief(), &mut handle, server.get()) } {
            0 => Ok(Pass::new(self.shared.clone(), handle, server)),
            code => Err(PassFault::of(code)),
        }
    }

    /// Returns the control of this board.
    pub fn control(&self) -> Control<T> {
        Control::new(self.shared.clone())
    }

    /// Returns the bodies, if this is the board's only handle: there must be no clone, no pass and no control.
    ///
    /// # Errors
    ///
    /// Returns the board again if it has another handle.
    pub fn into_bodies(self) -> Result<Vec<T>, Board<T>> {
        let shared = Arc::try_unwrap(self.shared).map_err(|shared| Board { shared })?;
        Ok(shared
            .bodies
            .into_vec()
            .into_iter()
            .map(UnsafeCell::into_inner)
            .collect())
    }
}

impl<T> Clone for Board<T> {
    fn clone(&self) -> Board<T> {
        Board {
            shared: self.shared.clone(),
        }
    }
}

impl<T> fmt::Debug for Board<T> {
    fn fmt(&self, f: &mut fmt::Formatter<'_>) -> fmt::Result {
        f.debug_struct("Board")
            .field("count", &self.count())
            .finish_non_exhaustive()
    }
}
