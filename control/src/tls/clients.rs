use super::pem::{certificates, not_taken, TlsIdentity};
use super::{context, TlsConnection, TlsFault};
use openssl::error::ErrorStack;
use openssl::ssl::{Ssl, SslContext, SslMethod};
use std::fmt;
use std::path::Path;

/// The TLS configuration for clients.
#[derive(Clone)]
pub struct ClientsTls {
    context: SslContext,
    asks_clients: bool,
}

impl ClientsTls {
    /// Makes the configuration with this certificate and its key. If there is an authority, clients must show a
    /// certificate from it.
    ///
    /// # Errors
    ///
    /// If a file can't be read or lacks what it should have, or if the key doesn't belong to the certificate.
    pub fn new(chain: &Path, key: &Path, authority: Option<&Path>) -> Result<ClientsTls, TlsFault> {
        let identity = TlsIdentity::read(chain, key)?;
        let mut builder =
            context::builder(SslMethod::tls_server(), &identity).map_err(not_taken(key))?;
        if let Some(file) = authority {
            context::ask(&mut builder, &certificates(file)?).map_err(not_taken(file))?;
        }
        Ok(ClientsTls {
            context: builder.build(),
            asks_clients: authority.is_some(),
        })
    }

    /// Returns whether clients must show a certificate.
    pub fn asks_clients(&self) -> bool {
        self.asks_clients
    }

    /// Returns a connection before its first byte.
    pub fn connection(&self) -> Result<TlsConnection, ErrorStack> {
        TlsConnection::accepting(&self.context)
    }

    /// Returns a connection to the page, before its first byte.
    pub fn page(&self) -> Result<Ssl, ErrorStack> {
        Ssl::new(&self.context)
    }
}

impl fmt::Debug for ClientsTls {
    fn fmt(&self, f: &mut fmt::Formatter<'_>) -> fmt::Result {
        f.debug_struct("ClientsTls").finish_non_exhaustive()
    }
}
