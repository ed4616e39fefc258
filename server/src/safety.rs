//! Who may connect to the server, and what they may do.
use crate::run::BoxError;
use clap::Args;
use durkenzo_control::links::Secret;
use durkenzo_control::tls::{ClientsTls, PeersTls};
use std::net::SocketAddr;
use std::path::PathBuf;
use std::time::Duration;

const SAFETY: &str = "Safety";

/// The default time in which clients must log in, in milliseconds.
const USUAL_LOGIN_TIME: u64 = 10_000;

/// The options about safety.
#[derive(Args, Clone, Debug)]
pub struct SafetyOptions {
    /// File whose first line is the password that clients must give [default: DURKENZO_PASSWORD, else none]
    #[arg(long, value_name = "FILE", help_heading = SAFETY)]
    pub password_file: Option<PathBuf>,

    /// The same for the role control, without which SM changes nothing [default: DURKENZO_CONTROL_PASSWORD, else none]
    #[arg(long, value_name = "FILE", help_heading = SAFETY)]
    pub control_password_file: Option<PathBuf>,

    /// How long a client may take to log in, by TLS and a password if they are required
    #[arg(
        long,
        value_name = "MILLISECONDS",
        default_value_t = USUAL_LOGIN_TIME,
        value_parser = clap::value_parser!(u64).range(1..),
        help_heading = SAFETY
    )]
    pub login_time: u64,

    /// PEM file with the server's certificate; clients and the page then speak only TLS [default: none]
    #[arg(long, value_name = "FILE", requires = "tls_key", help_heading = SAFETY)]
    pub tls_cert: Option<PathBuf>,

    /// PEM file with its key
    #[arg(long, value_name = "FILE", requires = "tls_cert", help_heading = SAFETY)]
    pub tls_key: Option<PathBuf>,

    /// PEM file with authorities; clients then need a certificate of one of them [default: they need none]
    #[arg(long, value_name = "FILE", requires = "tls_cert", help_heading = SAFETY)]
    pub tls_ca: Option<PathBuf>,

    /// PEM file with the authority of the cluster's processes, which then speak TLS to each other [default: none]
    #[arg(long, value_name = "FILE", requires_all = ["peer_cert", "peer_key"], help_heading = SAFETY)]
    pub peer_ca: Option<PathBuf>,

    /// PEM file with this process' certificate from that authority, for the name peer.durkenzo
    #[arg(long, value_name = "FILE", requires = "peer_ca", help_heading = SAFETY)]
    pub peer_cert: Option<PathBuf>,

    /// PEM file with its key
    #[arg(long, value_name = "FILE", requires = "peer_ca", help_heading = SAFETY)]
    pub peer_key: Option<PathBuf>,

    /// File whose first line the cluster's processes show each other [default: DURKENZO_PEER_SECRET, else none]
    #[arg(long, value_name = "FILE", help_heading = SAFETY)]
    pub peer_secret_file: Option<PathBuf>,
}

/// Who may connect to the server, and what they may do. By default everybody may do everything.
#[derive(Clone, Debug)]
pub struct Safety {
    /// The password that clients must give first.
    pub password: Option<Secret>,
    /// The password that they must give for the role that may change shards.
    pub control_password: Option<Secret>,
    /// How long they may take to log in.
    pub login_time: Duration,
    /// The TLS configuration for clients.
    pub tls: Option<ClientsTls>,
    /// The TLS configuration for other processes of the cluster.
    pub peer_tls: Option<PeersTls>,
    /// The secret that these show each other.
    pub peer_secret: Option<Secret>,
}

impl Safety {
    /// Reads the options, with the files and environment variables that they name.
    ///
    /// # Errors
    ///
    /// If a file can't be read, or lacks what it should have. The fault names it.
    pub fn of(options: &SafetyOptions) -> Result<Safety, BoxError> {
        let secret = |file: &Option<PathBuf>, variable| Secret::given(file.as_deref(), variable);
        let peer_file = options.peer_secret_file.as_deref();
        let tls = match (&options.tls_cert, &options.tls_key) {
            (Some(chain), Some(key)) => {
                Some(ClientsTls::new(chain, key, options.tls_ca.as_deref())?)
            }
            _ => None,
        };
        let peer_tls = match (&options.peer_ca, &options.peer_cert, &options.peer_key) {
            (Some(authority), Some(chain), Some(key)) => {
                Some(PeersTls::new(authority, chain, key)?)
            }
            _ => None,
        };
        Ok(Safety {
            password: secret(&options.password_file, "DURKENZO_PASSWORD")?,
            control_password: secret(&options.control_password_file, "DURKENZO_CONTROL_PASSWORD")?,
            login_time: Duration::from_millis(options.login_time),
            tls,
            peer_tls,
            peer_secret: Secret::given_for_greetings(peer_file, "DURKENZO_PEER_SECRET")?,
        })
    }

    /// Warns if other machines can reach a server that gives something away.
    pub fn warn(&self, address: SocketAddr) {
        if self.is_open() {
            tracing::warn!(
                "anybody who reaches {address} may read, write and move shards: --password-file"
            );
        }
        if self.tls.is_none() {
            tracing::warn!(
                "whoever reads the network reads what goes to and from {address}: --tls-cert"
            );
        }
    }

    /// Checks that other processes may connect at this address. Without a secret or TLS, only those on this machine
    /// may.
    ///
    /// # Errors
    ///
    /// If processes without the secret could connect.
    pub fn may_listen(&self, address: SocketAddr) -> Result<(), String> {
        let is_guarded = self.peer_secret.is_some() || self.peer_tls.is_some();
        match address.ip().is_loopback() || is_guarded {
            true => Ok(()),
            false => Err(format!(
                "NOSECRET whoever reaches {address} could take the place of a process: --peer-secret-file names a \
                 file whose first line is the same for all of them, or --peer-ca, --peer-cert and --peer-key have them \
                 speak TLS"
            )),
        }
    }

    /// Returns whether everybody who can connect to the server may do what its clients do.
    pub fn is_open(&self) -> bool {
        self.password.is_none() && !self.asks_certificates()
    }

    /// Returns whether clients log in with only a password.
    pub fn is_by_password_alone(&self) -> bool {
        self.password.is_some() && !self.asks_certificates()
    }

    fn asks_certificates(&self) -> bool {
        self.tls.as_ref().is_some_and(ClientsTls::asks_clients)
    }

    /// Returns whether a new client must do something before it is answered.
    pub fn is_guarded(&self) -> bool {
        self.password.is_some() || self.tls.is_some()
    }
}

impl Default for Safety {
    fn default() -> Safety {
        Safety {
            password: None,
            control_password: None,
            login_time: Duration::from_millis(USUAL_LOGIN_TIME),
            tls: None,
            peer_tls: None,
            peer_secret: None,
        }
    }
}

#[cfg(test)]
mod tests {
    use super::*;

    #[test]
    fn who_has_no_secret_listens_on_this_machine_alone() {
        let safety = |secret: Option<&[u8]>| Safety {
            peer_secret: secret.and_then(Secret::of),
            ..Safety::default()
        };
        let (near, far) = ("127.0.0.1:7", "10.0.0.1:7");
        assert!(safety(None).may_listen(near.parse().unwrap()).is_ok());
        let told = safety(None).may_listen(far.parse().unwrap()).unwrap_err();
        assert!(told.starts_with("NOSECRET"), "{told}");
        assert!(safety(Some(b"x")).may_listen(far.parse().unwrap()).is_ok());
        assert!(!format!("{:?}", safety(Some(b"open"))).contains("open"));
    }
}
