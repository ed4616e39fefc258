//! A board of the sample service. The library itself executes its requests.
//!
//! ```
//! use durkenzo::{Layout, Reply, Request, Served, ServerId, Service, ShardId, Value};
//!
//! let service = Service::builder(Layout::new(["", "n"])?).servers(2).build()?;
//! let control = service.control();
//! let (one, two) = (ServerId::new(1)?, ServerId::new(2)?);
//! control.assign(ShardId::new(0)?, one)?;
//! control.assign(ShardId::new(1)?, two)?;
//! let (mut client, mut server) = (service.pass(one)?, service.pass(two)?);
//! let sent = client.envelope(7, &Request::Add(b"visits", 3))?;
//! let Served::Answered(answer) = server.serve(sent)? else {
//!     panic!("the owner forwards nothing");
//! };
//! assert_eq!((answer.number(), answer.server(), answer.place()), (7, two, 0));
//! assert_eq!(answer.reply(), &Reply::Value(Value::Count(3)));
//! client.hear(answer)?;
//! # Ok::<(), Box<dyn std::error::Error>>(())
//! ```
use crate::board::Shared;
use crate::control::Control;
use crate::fault::{BuildFault, PassFault};
use crate::layout::Layout;
use crate::limits::MAX_GENERATION;
use crate::raw::{self, Handle};
use crate::server_id::ServerId;
use crate::service_pass::ServicePass;
use crate::settings_fault::SettingsFault;
use std::fmt;
use std::sync::Arc;

/// The type of bodies if the library keeps them itself.
#[derive(Debug)]
pub enum Texts {}

/// A board of the sample service, with the layout of its keys. A clone is a handle to the same board.
#[derive(Clone)]
pub struct Service {
    shared: Arc<Shared<Texts>>,
    layout: Arc<Layout>,
}

/// The sizes of a board of the sample service that is to be built.
#[derive(Debug)]
#[must_use = "there is no board before `build`"]
pub struct ServiceBuilder {
    layout: Layout,
    kept: usize,
    servers: u16,
    restarts: u16,
    ceiling: u64,
}

impl ServiceBuilder {
    /// Sets how many requests a shard keeps at most between checkpoints. By default there is no limit.
    pub fn kept(mut self, kept: usize) -> ServiceBuilder {
        self.kept = kept;
        self
    }

    /// Sets the number of servers, at most 4,095. They are numbered from 1. The default is 1.
    pub fn servers(mut self, servers: u16) -> ServiceBuilder {
        self.servers = servers;
        self
    }

    /// Sets how many servers may be away for a restart at once. The default is 1.
    pub fn restarts(mut self, restarts: u16) -> ServiceBuilder {
        self.restarts = restarts;
        self
    }

    /// Sets the greatest generation of a shard, from 3 to 2^36 - 1. The default is 2^36 - 1.
    pub fn ceiling(mut self, ceiling: u64) -> ServiceBuilder {
        self.ceiling = ceiling;
        self
    }

    /// Builds a board with as many shards as the layout has. At first no key holds a value, and nobody owns a shard.
    ///
    /// # Errors
    ///
    /// `BadServers` or `BadCeiling` if a size is wrong, or `NoMemory`.
    pub fn build(self) -> Result<Service, BuildFault> {
        if self.servers == 0 {
            return Err(BuildFault::BadServers);
        }
        let mut chief = Handle::empty();
        // SAFETY: only this call uses the handle.
        let code = unsafe {
            raw::durkenzo_open_service(
                &mut chief,
                self.layout.count(),
                self.kept,
                self.servers,
                self.restarts,
                self.ceiling,
            )
        };
        match code {
            0 => Ok(Service {
                shared: Arc::new(Shared::without_bodies(chief, self.layout.count())),
                layout: Arc::new(self.layout),
            }),
            code => Err(BuildFault::of(code)),
        }
    }
}

impl Service {
    /// Returns the sizes of a new board with this layout.
    pub fn builder(layout: Layout) -> ServiceBuilder {
        ServiceBuilder {
            layout,
            kept: usize::MAX,
            servers: 1,
            restarts: 1,
            ceiling: MAX_GENERATION,
        }
    }

    /// Makes a board from the line of settings that begins a script: it has the line's layout, servers, groups, domains
    /// and limits, but not its workers. At first nobody owns a shard.
    ///
    /// # Errors
    ///
    /// The first rule that the line breaks, or `NoMemory`.
    pub fn by_settings(line: impl AsRef<[u8]>) -> Result<Service, SettingsFault> {
        let (mut chief, mut layout, mut count) = (Handle::empty(), Handle::empty(), 0);
        let line = line.as_ref();
        // SAFETY: only this call uses the handles, and the slice lasts as long as the call.
        let code = unsafe {
            raw::durkenzo_open_settings(
                &mut chief,
                &mut layout,
                line.as_ptr(),
                line.len(),
                &mut count,
            )
        };
        match code {
            0 => Ok(Service {
                shared: Arc::new(Shared::without_bodies(chief, count)),
                layout: Arc::new(Layout::of(layout, count)),
            }),
            code => Err(SettingsFault::of(code)),
        }
    }

    /// Returns the layout, by which each key belongs to a shard.
    pub fn layout(&self) -> &Layout {
        &self.layout
    }

    /// Makes a pass, which serves as this server and makes envelopes.
    ///
    /// # Errors
    ///
    /// `BadServer` if the board has no such server, or `NoMemory`.
    pub fn pass(&self, server: ServerId) -> Result<ServicePass, PassFault> {
        let mut handle = Handle::empty();
        // SAFETY: the control's handle is locked, and only this call uses the other.
        match unsafe { raw::durkenzo_pass(&mut *self.shared.chief(), &mut handle, server.get()) } {
            0 => Ok(ServicePass::new(
                handle,
                self.shared.clone(),
                self.layout.clone(),
                server,
            )),
            code => Err(PassFault::of(code)),
        }
    }

    /// Returns the control of this board.
    pub fn control(&self) -> Control<Texts> {
        Control::new(self.shared.clone())
    }
}

impl fmt::Debug for Service {
    fn fmt(&self, f: &mut fmt::Formatter<'_>) -> fmt::Result {
        f.debug_struct("Service")
            .field("layout", &self.layout)
            .finish_non_exhaustive()
    }
}
