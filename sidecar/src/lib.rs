//! A sidecar: a process of a [fleet](durkenzo_fleet) whose service is an application in any language, beside it on the
//! same machine.
//!
//! The application answers five requests of HTTP, and needs no library. Clients call any sidecar by HTTP. The sidecar
//! gives each call to the fleet, and the process that the fleet lets execute it calls its own application. So this
//! crate decides nothing about who executes. See `sidecar/README.md` for the requests.
#![forbid(unsafe_code)]
#![deny(missing_docs)]

mod application;
mod application_fault;
mod application_url;
mod bounded_body;
mod call_head;
mod drain;
mod envelope;
mod error_name;
mod gateway;
mod handed_head;
mod handler;
mod http_connection;
mod http_listener;
mod metrics;
mod outcome;
mod refusal;
mod route_list;
mod sidecar;
mod sidecar_error;
mod sidecar_options;
mod sidecar_service;
mod target;

pub use application_url::{ApplicationUrl, UrlFault};
pub use drain::{drain, DrainError};
pub use error_name::ErrorName;
pub use sidecar::Sidecar;
pub use sidecar_error::SidecarError;
pub use sidecar_options::SidecarOptions;

/// The version, which ends with `+unproved` if the library below isn't proved.
pub const VERSION: &str = if durkenzo::IS_PROVED {
    env!("CARGO_PKG_VERSION")
} else {
    concat!(env!("CARGO_PKG_VERSION"), "+unproved")
};

/// The most bytes of a call's request, and of its answer.
pub const MOST: usize = 1_000_000;
