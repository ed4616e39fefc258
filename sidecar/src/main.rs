//! The program `durkenzo-sidecar`: it serves beside an application, or makes such a process leave.
use clap::{Parser, Subcommand};
use durkenzo_sidecar::{drain, Sidecar, SidecarError, SidecarOptions, VERSION};
use std::io::{self, IsTerminal, Write};
use std::process::ExitCode;
use std::time::Duration;
use tracing_subscriber::EnvFilter;

/// Runs an application, in any language, as a process of a fleet. The application answers HTTP at --application.
#[derive(Parser)]
#[command(
    name = "durkenzo-sidecar",
    version = VERSION,
    args_conflicts_with_subcommands = true
)]
struct Arguments {
    #[command(subcommand)]
    command: Option<Command>,

    #[command(flatten)]
    options: SidecarOptions,
}

#[derive(Subcommand)]
enum Command {
    /// Makes the sidecar on this machine move its shards to others and end, and waits for that
    Drain {
        /// Address at which the sidecar serves clients, as its --clients
        #[arg(
            long,
            env = "DURKENZO_CLIENTS",
            value_name = "ADDRESS:PORT",
            default_value = "127.0.0.1:7480"
        )]
        clients: String,

        /// Longest time to wait; the sidecar goes on leaving after that
        #[arg(long, value_name = "SECONDS", default_value_t = 90)]
        timeout: u64,
    },
}

fn main() -> ExitCode {
    let filter = EnvFilter::try_from_default_env().unwrap_or_else(|_| EnvFilter::new("warn"));
    tracing_subscriber::fmt()
        .with_env_filter(filter)
        .with_writer(io::stderr)
        .with_ansi(io::stderr().is_terminal())
        .init();
    let arguments = Arguments::parse();
    let done = match arguments.command {
        Some(Command::Drain { clients, timeout }) => {
            drain(&clients, Duration::from_secs(timeout)).map_err(|it| it.to_string())
        }
        None => serve(arguments.options).map_err(|it| it.to_string()),
    };
    match done {
        Ok(()) => ExitCode::SUCCESS,
        Err(why) => {
            eprintln!("durkenzo-sidecar: {why}");
            ExitCode::FAILURE
        }
    }
}

/// Serves until the process has left the fleet.
fn serve(options: SidecarOptions) -> Result<(), SidecarError> {
    let sidecar = Sidecar::begin(options)?;
    // If nobody reads it, the process serves all the same.
    let _ = writeln!(
        io::stdout(),
        "server {} serves clients at {}",
        sidecar.server(),
        sidecar.clients()
    );
    sidecar.serve()
}
