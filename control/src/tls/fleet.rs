use super::peers::{is_peer, met, named, side};
use super::pem::{certificates, not_taken, TlsIdentity};
use super::{Caller, ReadHalf, TlsConnection, TlsFault, WriteHalf, PEER_NAME};
use openssl::ssl::{SslContext, SslMethod};
use std::fmt;
use std::io;
use std::net::TcpStream;
use std::path::Path;
use std::time::Duration;

/// The TLS configuration of a fleet's processes and its clients, at one port: either side shows a certificate from the
/// fleet's authority. A process's certificate has the name of peers, which the caller checks.
#[derive(Clone)]
pub struct FleetTls {
    as_client: SslContext,
    as_server: SslContext,
    is_process: bool,
}

impl FleetTls {
    /// Makes the configuration with this authority, and this certificate from it with its key.
    ///
    /// # Errors
    ///
    /// If a file can't be read or lacks what it should have, or if the key doesn't belong to the certificate.
    pub fn new(authority: &Path, chain: &Path, key: &Path) -> Result<FleetTls, TlsFault> {
        let identity = TlsIdentity::read(chain, key)?;
        let trusted = certificates(authority)?;
        let side = |method| side(method, &identity, &trusted).map_err(not_taken(key));
        let as_client = named(side(SslMethod::tls_client())?).map_err(not_taken(key))?;
        Ok(FleetTls {
            as_client: as_client.build(),
            as_server: side(SslMethod::tls_server())?.build(),
            is_process: is_peer(identity.leaf()),
        })
    }

    /// Returns whether its certificate is a process's, by the name of peers.
    pub fn is_process(&self) -> bool {
        self.is_process
    }

    /// Returns a connection to a process, before its first byte.
    ///
    /// # Errors
    ///
    /// If OpenSSL has no memory for it.
    pub fn connection(&self) -> io::Result<TlsConnection> {
        TlsConnection::connecting(&self.as_client, PEER_NAME).map_err(io::Error::other)
    }

    /// Does the handshake with the process to which it connected, within this time in all. Returns the reader and the
    /// writer.
    ///
    /// # Errors
    ///
    /// `TimedOut` or `WouldBlock` if it takes longer, `InvalidData` if the other side isn't a process of the fleet or
    /// doesn't take this certificate, and those of the socket.
    pub fn connect(
        &self,
        socket: TcpStream,
        within: Duration,
    ) -> io::Result<(ReadHalf, WriteHalf)> {
        let (caller, halves) = met(self.connection()?, socket, within)?;
        caller.as_process().map(|()| halves)
    }

    /// Does the handshake with whoever was accepted; otherwise as [`connect`](FleetTls::connect). Returns who it is,
    /// too.
    ///
    /// # Errors
    ///
    /// The same.
    pub fn accept(
        &self,
        socket: TcpStream,
        within: Duration,
    ) -> io::Result<(Caller, (ReadHalf, WriteHalf))> {
        let connection = TlsConnection::accepting(&self.as_server);
        met(connection.map_err(io::Error::other)?, socket, within)
    }
}

impl fmt::Debug for FleetTls {
    fn fmt(&self, f: &mut fmt::Formatter<'_>) -> fmt::Result {
        f.debug_struct("FleetTls").finish_non_exhaustive()
    }
}
