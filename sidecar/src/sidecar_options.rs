use crate::application_url::ApplicationUrl;
use clap::Parser;
use durkenzo_fleet::Options;
use std::time::Duration;

/// The options of a sidecar. Each option is a flag or a variable `DURKENZO_*`.
#[derive(Clone, Debug, Parser)]
pub struct SidecarOptions {
    /// The options of a process of a fleet; clients of HTTP come to --clients
    #[command(flatten)]
    pub fleet: Options,

    /// Address at which the application answers HTTP
    #[arg(
        long,
        env = "DURKENZO_APPLICATION",
        value_name = "URL",
        default_value = "http://127.0.0.1:9000"
    )]
    pub application: ApplicationUrl,

    /// Address at which clients reach this sidecar, if it is another one than --clients
    #[arg(long, env = "DURKENZO_CLIENTS_ADVERTISE", value_name = "ADDRESS:PORT")]
    pub clients_advertise: Option<String>,

    /// Longest time until the application first takes connections
    #[arg(
        long,
        env = "DURKENZO_APPLICATION_START",
        value_name = "SECONDS",
        default_value_t = 60
    )]
    pub application_start: u64,

    /// Longest time for a call; a client may give less by Durkenzo-Budget
    #[arg(
        long,
        env = "DURKENZO_CALL_TIME",
        value_name = "MILLISECONDS",
        default_value_t = 10_000,
        value_parser = clap::value_parser!(u64).range(1..=600_000)
    )]
    pub call_time: u64,

    /// Longest time that the application may take to add a shard, to drop it, or to prepare for that
    #[arg(
        long,
        env = "DURKENZO_HANDLER_TIME",
        value_name = "MILLISECONDS",
        default_value_t = 10_000,
        value_parser = clap::value_parser!(u64).range(1..=600_000)
    )]
    pub handler_time: u64,

    /// Most calls of clients that are under way here at once
    #[arg(
        long,
        env = "DURKENZO_CALLS",
        value_name = "COUNT",
        default_value_t = 512
    )]
    pub calls: u16,
}

impl SidecarOptions {
    /// Returns the longest time for a call.
    pub(crate) fn longest_call(&self) -> Duration {
        Duration::from_millis(self.call_time)
    }

    /// Returns the longest time for one request to a handler.
    pub(crate) fn longest_handler(&self) -> Duration {
        Duration::from_millis(self.handler_time)
    }
}
