use super::tls::Tls;
use super::EtcdProtocol;
use hyper::http::uri::Scheme;
use hyper::Uri;
use openssl::error::ErrorStack;
use std::fmt;
use std::io;
use std::path::PathBuf;
use std::time::Duration;
use thiserror::Error;

/// The access to etcd.
#[derive(Clone)]
pub struct Access {
    /// The members' addresses, for instance `http://10.0.0.1:2379` or `https://etcd.example:2379`.
    pub endpoints: Vec<String>,
    /// The user's name and password, if etcd asks for them.
    pub user: Option<(String, String)>,
    /// A file in PEM with the authorities of members' certificates. If none is named, the system's are used.
    pub roots: Option<PathBuf>,
    /// The files in PEM with this client's certificates and its key, if etcd asks for them.
    pub identity: Option<(PathBuf, PathBuf)>,
    /// How long to wait for an answer.
    pub patience: Duration,
    /// The protocol of calls.
    pub protocol: EtcdProtocol,
}

impl Access {
    /// Makes the access to these members in JSON, without a user, and with five seconds for an answer.
    pub fn new<E: Into<String>>(endpoints: impl IntoIterator<Item = E>) -> Access {
        Access {
            endpoints: endpoints.into_iter().map(Into::into).collect(),
            user: None,
            roots: None,
            identity: None,
            patience: Duration::from_secs(5),
            protocol: EtcdProtocol::default(),
        }
    }

    /// Returns the members' addresses, each without the part behind its port.
    pub(super) fn members(&self) -> Result<Vec<String>, StartError> {
        let found: Result<Vec<_>, _> = self.endpoints.iter().map(|it| member(it)).collect();
        match found? {
            none if none.is_empty() => Err(StartError::NoEndpoint),
            some => Ok(some),
        }
    }

    /// Returns the TLS configuration, if a member's address asks for it. Otherwise no file is read.
    pub(super) fn tls(&self) -> Result<Option<Tls>, StartError> {
        let is_asked = self.members()?.iter().any(|it| it.starts_with("https:"));
        let roots = self.roots.as_deref();
        let tls = is_asked.then(|| Tls::new(roots, self.identity.as_ref(), self.protocol));
        tls.transpose()
    }
}

impl fmt::Debug for Access {
    /// Shows everything except the password.
    fn fmt(&self, f: &mut fmt::Formatter<'_>) -> fmt::Result {
        let user = self.user.as_ref().map(|(name, _)| name);
        f.debug_struct("Access")
            .field("endpoints", &self.endpoints)
            .field("user", &user)
            .finish_non_exhaustive()
    }
}

fn member(endpoint: &str) -> Result<String, StartError> {
    let bad = || StartError::BadEndpoint(endpoint.to_owned());
    let uri: Uri = endpoint.parse().map_err(|_| bad())?;
    let (Some(scheme), Some(authority), "" | "/") = (uri.scheme(), uri.authority(), uri.path())
    else {
        return Err(bad());
    };
    let is_spoken = *scheme == Scheme::HTTP || *scheme == Scheme::HTTPS;
    match is_spoken && !authority.host().is_empty() {
        true => Ok(format!("{scheme}://{authority}")),
        false => Err(bad()),
    }
}

/// Why a store in etcd can't begin.
#[derive(Debug, Error)]
pub enum StartError {
    /// No member is named.
    #[error("name a member of etcd, as http://10.0.0.1:2379")]
    NoEndpoint,
    /// An address is malformed.
    #[error("{0} is no address of a member, as http://10.0.0.1:2379 is")]
    BadEndpoint(String),
    /// A file of certificates or of a key can't be used.
    #[error("the file {0} can't be used: {1}")]
    BadFile(PathBuf, String),
    /// OpenSSL can't be set up.
    #[error("OpenSSL gives no TLS: {0}")]
    Tls(#[from] ErrorStack),
    /// The system refuses a thread.
    #[error("the system gives no thread: {0}")]
    Thread(#[from] io::Error),
}
