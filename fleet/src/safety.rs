use crate::JoinError;
use clap::Args;
use durkenzo_control::links::{Secret, SecretFault, MAX_SECRET};
use durkenzo_control::tls::FleetTls;
use std::env;
use std::path::{Path, PathBuf};

/// The variable of the environment that has the secret, if no file has it.
const SECRET: &str = "DURKENZO_SECRET";

/// The proof that the processes and clients of a fleet give each other. Each option is a flag or a variable
/// `DURKENZO_*`.
#[derive(Args, Clone, Debug, Default)]
pub struct SafetyOptions {
    /// File whose first line is the secret of all processes and clients of the fleet [default: DURKENZO_SECRET, else
    /// none]
    #[arg(
        long,
        alias = "secret",
        env = "DURKENZO_SECRET_FILE",
        value_name = "FILE"
    )]
    pub secret_file: Option<PathBuf>,

    /// File in PEM with the authority of processes and clients, which then speak only TLS [default: none]
    #[arg(
        long,
        env = "DURKENZO_TLS_CA",
        value_name = "FILE",
        requires_all = ["tls_cert", "tls_key"]
    )]
    pub tls_ca: Option<PathBuf>,

    /// File in PEM with a certificate of that authority; that of a process must have the name peer.durkenzo
    #[arg(
        long,
        env = "DURKENZO_TLS_CERT",
        value_name = "FILE",
        requires = "tls_ca"
    )]
    pub tls_cert: Option<PathBuf>,

    /// File in PEM with the certificate's key
    #[arg(
        long,
        env = "DURKENZO_TLS_KEY",
        value_name = "FILE",
        requires = "tls_ca"
    )]
    pub tls_key: Option<PathBuf>,
}

impl SafetyOptions {
    /// Reads only the environment, such as `DURKENZO_TLS_CA`. This is for a client that has flags of its own.
    pub fn given() -> SafetyOptions {
        let file = |it: &str| env::var_os(it).map(PathBuf::from);
        SafetyOptions {
            secret_file: file("DURKENZO_SECRET_FILE"),
            tls_ca: file("DURKENZO_TLS_CA"),
            tls_cert: file("DURKENZO_TLS_CERT"),
            tls_key: file("DURKENZO_TLS_KEY"),
        }
    }
}

/// The proof that a process or a client of a fleet gives to others, and asks of them: a secret, TLS, both or neither.
/// By default there is none.
#[derive(Clone, Debug, Default)]
pub struct Safety {
    pub(crate) secret: Option<Secret>,
    pub(crate) tls: Option<FleetTls>,
}

impl Safety {
    /// Reads the files that these options name, and the variable of the environment with the secret.
    ///
    /// # Errors
    ///
    /// [`JoinError::Secret`] or [`JoinError::Tls`] if a file can't be read or doesn't have the right content.
    pub fn of(options: &SafetyOptions) -> Result<Safety, JoinError> {
        let secret = Secret::given_for_greetings(options.secret_file.as_deref(), SECRET)?;
        let safety = Safety { secret, tls: None };
        match (&options.tls_ca, &options.tls_cert, &options.tls_key) {
            (Some(authority), Some(chain), Some(key)) => safety.with_tls(authority, chain, key),
            _ => Ok(safety),
        }
    }

    /// Uses this secret, which is sent to each process that is reached. Without TLS, anybody who reads the network can
    /// read it.
    ///
    /// # Errors
    ///
    /// [`JoinError::Secret`] if the secret is longer than 256 bytes. If it is empty, there is no secret.
    pub fn with_secret(self, secret: &[u8]) -> Result<Safety, JoinError> {
        if secret.len() > MAX_SECRET {
            return Err(SecretFault::TooLong("the secret".to_owned()).into());
        }
        let secret = Secret::of(secret);
        Ok(Safety { secret, ..self })
    }

    /// Speaks TLS with these files in PEM: the fleet's authority, a certificate of that authority, and its key. Each
    /// side checks the certificate of the other. The certificate of a process must have the name `peer.durkenzo`.
    ///
    /// # Errors
    ///
    /// [`JoinError::Tls`] if a file can't be read or doesn't have the right content, or if the key doesn't belong to
    /// the certificate.
    pub fn with_tls(self, authority: &Path, chain: &Path, key: &Path) -> Result<Safety, JoinError> {
        let tls = Some(FleetTls::new(authority, chain, key)?);
        Ok(Safety { tls, ..self })
    }

    /// Returns whether others must give a proof.
    pub fn is_guarded(&self) -> bool {
        self.secret.is_some() || self.tls.is_some()
    }
}
