use crate::{MeetError, SettingsError};
use durkenzo::LayoutFault;
use durkenzo_control::links::SecretFault;
use durkenzo_control::tls::{TlsFault, PEER_NAME};
use durkenzo_driver::{JoinFault, OpenFault};
use durkenzo_store::{ReadError, StartError, WriteError};
use std::fmt;
use std::io;
use std::path::PathBuf;
use thiserror::Error;

/// Why a process can't join a fleet, or a client can't read its map. If `main` returns it, it is printed as a sentence.
#[derive(Error)]
#[non_exhaustive]
pub enum JoinError {
    /// An option is out of bounds, or there is no fleet in the store that a client reads.
    #[error("{0}")]
    Options(String),
    /// Other machines can reach this process, and would need no proof.
    #[error(
        "--listen {0} is reached from other machines, and whoever reaches it may hand over bodies: give \
         --secret-file, or --tls-ca, --tls-cert and --tls-key, or say --open in a private network"
    )]
    Open(std::net::SocketAddr),
    /// The secret can't be read, is empty or is too long.
    #[error(transparent)]
    Secret(#[from] SecretFault),
    /// The files for TLS can't be used.
    #[error(transparent)]
    Tls(#[from] TlsFault),
    /// The certificate of the process is one for clients.
    #[error(
        "--tls-cert hasn't the name DNS:{PEER_NAME}, by which a process is told from a client"
    )]
    NoProcess,
    /// No other server of the fleet accepts this process. Or the last server that a client asked can't be reached, or
    /// refuses it. Names the server, and the reason.
    #[error("{0} isn't met: {1}")]
    NotMet(String, MeetError),
    /// The store has a fleet with other shards, or with another ceiling. The text names the first differences of the
    /// settings.
    #[error(
        "OTHERSETTINGS the store has a fleet whose shards or ceiling are others, which never change: {0}: start with \
         those, or name another etcd"
    )]
    OtherSettings(String),
    /// The settings in force have no row for this server.
    #[error(
        "--name {0}: the settings in force have no such server: give the fleet the command RESIZE {0}, by \
         Router::command, and start this process again"
    )]
    NotNamed(u16),
    /// No settings are in force, and those of this process have no row for its server.
    #[error("--name {server} of {servers} servers: the first process of a fleet says by --servers how many there are")]
    NotFirst {
        /// The server that the process runs as.
        server: u16,
        /// The number of servers in its settings.
        servers: u16,
    },
    /// The file can't be read.
    #[error("{}: {}", .0.display(), .1)]
    Unreadable(PathBuf, io::Error),
    /// The settings in the file break a rule. The text gives the name that the rule has in docs/SETTINGS.md.
    #[error("{}: {}", .0.display(), .1)]
    Settings(PathBuf, SettingsError),
    /// The bounds don't make a layout.
    #[error("the bounds of shards: {0}")]
    Layout(#[from] LayoutFault),
    /// Another process runs with this server's name, or the store can't register this process.
    #[error("{0}{}", asked_about(.0.is_unanswered()))]
    Join(#[from] JoinFault),
    /// The records can't be followed.
    #[error("{0}{}", asked_about(.0.is_unanswered()))]
    Follow(#[from] OpenFault),
    /// The access to etcd can't be set up, because an address or a file can't be used or the system gives no thread.
    #[error(transparent)]
    Start(#[from] StartError),
    /// The store can't be read.
    #[error("{0}{}", asked_about(.0.is_unanswered()))]
    Read(#[from] ReadError),
    /// The store can't be written.
    #[error("{0}{}", asked_about(.0.is_unanswered()))]
    Write(#[from] WriteError),
    /// An address can't be bound, or the server at an address was reached and didn't tell its map.
    #[error("{0}: {1}")]
    Address(String, io::Error),
}

/// Returns a hint for the user, if the store doesn't answer.
fn asked_about(is_unanswered: bool) -> &'static str {
    match is_unanswered {
        true => "; is etcd running there, with most of its members? --etcd, or DURKENZO_ETCD, names them",
        false => "",
    }
}

impl fmt::Debug for JoinError {
    /// Writes the sentence here too, because Rust prints an error that `main` returns in this form.
    fn fmt(&self, f: &mut fmt::Formatter<'_>) -> fmt::Result {
        fmt::Display::fmt(self, f)
    }
}

#[cfg(test)]
mod tests {
    use crate::{Call, Came, Fault, Fleet, Options, Router, Service, Shard};
    use clap::Parser;

    struct Nothing;

    impl Service for Nothing {
        type Body = ();

        fn add(&self, _: Shard, _: Came<'_>) -> Result<(), Fault> {
            Ok(())
        }

        fn answer(&self, (): &mut (), _: Call<'_>) -> Vec<u8> {
            Vec::new()
        }

        fn hand_over(&self, (): &mut ()) -> Vec<u8> {
            Vec::new()
        }
    }

    #[test]
    fn who_names_no_etcd_is_told_where_it_was_looked_for_and_what_to_do() {
        // Nobody listens at these two ports.
        let words = ["fleet", "--etcd", "http://127.0.0.1:1,http://127.0.0.1:2"];
        let options = Options::parse_from(words);
        let store = options.store().unwrap();
        let joined = Fleet::join(Nothing, options).map(drop).unwrap_err();
        let watched = Router::watch(&*store).map(drop).unwrap_err();
        for told in [joined, watched].map(|it| format!("{it:?}")) {
            for part in ["http://127.0.0.1:", "refused", "is etcd running", "--etcd"] {
                assert!(told.contains(part), "{part}: {told}");
            }
        }
    }
}
