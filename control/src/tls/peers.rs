use super::handshake::shake;
use super::pem::{certificates, not_taken, TlsIdentity};
use super::shared_connection::SharedConnection;
use super::{context, Caller, ReadHalf, TlsConnection, TlsFault, WriteHalf};
use openssl::error::ErrorStack;
use openssl::ssl::{SslContext, SslContextBuilder, SslMethod};
use openssl::x509::verify::X509CheckFlags;
use openssl::x509::{X509Ref, X509};
use std::fmt;
use std::io::{self, ErrorKind};
use std::net::TcpStream;
use std::path::Path;
use std::sync::Arc;
use std::time::Duration;

/// The name in each peer's certificate, on any machine. It distinguishes a peer from a client whose certificate is from
/// the same authority.
pub const PEER_NAME: &str = "peer.durkenzo";

/// The TLS configuration of the processes of a cluster: either side shows a certificate from the cluster's authority,
/// which has the name of peers.
#[derive(Clone)]
pub struct PeersTls {
    as_client: SslContext,
    as_server: SslContext,
}

impl PeersTls {
    /// Makes the configuration with this authority, and this certificate from it with its key.
    ///
    /// # Errors
    ///
    /// If a file can't be read or lacks what it should have, if the certificate doesn't have the name of peers, or if
    /// the key doesn't belong to it.
    pub fn new(authority: &Path, chain: &Path, key: &Path) -> Result<PeersTls, TlsFault> {
        let identity = TlsIdentity::read(chain, key)?;
        if !is_peer(identity.leaf()) {
            let why = format!("the certificate hasn't the name DNS:{PEER_NAME}, as peers' have");
            return Err(TlsFault::NotTaken(chain.to_owned(), why));
        }
        let trusted = certificates(authority)?;
        let side = |method| {
            let side = side(method, &identity, &trusted).and_then(named);
            side.map(SslContextBuilder::build).map_err(not_taken(key))
        };
        Ok(PeersTls {
            as_client: side(SslMethod::tls_client())?,
            as_server: side(SslMethod::tls_server())?,
        })
    }

    /// Does the handshake with the peer to which it connected, within this time in all. Returns the reader and the
    /// writer.
    ///
    /// # Errors
    ///
    /// `TimedOut` or `WouldBlock` if it takes longer, `InvalidData` if the other side isn't a peer; and the socket's
    /// errors.
    pub fn connect(
        &self,
        socket: TcpStream,
        within: Duration,
    ) -> io::Result<(ReadHalf, WriteHalf)> {
        let connection = TlsConnection::connecting(&self.as_client, PEER_NAME);
        peer(connection.map_err(io::Error::other)?, socket, within)
    }

    /// Does the handshake with a peer that was accepted; otherwise as [`connect`](PeersTls::connect).
    ///
    /// # Errors
    ///
    /// The same.
    pub fn accept(&self, socket: TcpStream, within: Duration) -> io::Result<(ReadHalf, WriteHalf)> {
        let connection = TlsConnection::accepting(&self.as_server);
        peer(connection.map_err(io::Error::other)?, socket, within)
    }
}

/// Returns the settings of one side. The other side must show a certificate from a trusted authority.
pub(super) fn side(
    method: SslMethod,
    identity: &TlsIdentity,
    trusted: &[X509],
) -> Result<SslContextBuilder, ErrorStack> {
    let mut builder = context::builder(method, identity)?;
    context::ask(&mut builder, trusted)?;
    Ok(builder)
}

/// Requires the name of peers in the other side's certificate.
pub(super) fn named(mut builder: SslContextBuilder) -> Result<SslContextBuilder, ErrorStack> {
    let asked = builder.verify_param_mut();
    asked.set_hostflags(X509CheckFlags::NO_WILDCARDS | X509CheckFlags::NEVER_CHECK_SUBJECT);
    asked.set_host(PEER_NAME)?;
    Ok(builder)
}

/// Returns whether the certificate has the name of peers.
pub(super) fn is_peer(certificate: &X509Ref) -> bool {
    let names = certificate.subject_alt_names();
    let mut names = names.iter().flatten().filter_map(|it| it.dnsname());
    names.any(|it| it.eq_ignore_ascii_case(PEER_NAME))
}

type Halves = (ReadHalf, WriteHalf);

/// Does the handshake with a peer.
fn peer(connection: TlsConnection, socket: TcpStream, within: Duration) -> io::Result<Halves> {
    let (caller, halves) = met(connection, socket, within)?;
    // OpenSSL has checked the name already. We check it again because only the name tells a peer from a client.
    caller.as_process().map(|()| halves)
}

/// Does the handshake with the other side, which shows a certificate. Returns who it is by that.
pub(super) fn met(
    mut connection: TlsConnection,
    socket: TcpStream,
    within: Duration,
) -> io::Result<(Caller, Halves)> {
    socket.set_nodelay(true)?;
    shake(&mut connection, &socket, within)?;
    let caller = connection.caller();
    let (other, shared) = (
        socket.try_clone()?,
        Arc::new(SharedConnection::new(connection)),
    );
    let reader = ReadHalf::new(other, shared.clone());
    Ok((caller, (reader, WriteHalf::new(socket, shared))))
}

impl TlsConnection {
    /// Returns who the other side is, by its certificate, once the handshake is over.
    pub fn caller(&self) -> Caller {
        match self.shown().is_some_and(|it| is_peer(&it)) {
            true => Caller::Process,
            false => Caller::Client,
        }
    }
}

impl Caller {
    /// Fails if it isn't a process.
    ///
    /// # Errors
    ///
    /// `InvalidData` for a client.
    pub fn as_process(self) -> io::Result<()> {
        match self {
            Caller::Process => Ok(()),
            Caller::Client => {
                let why = format!("the other side's certificate hasn't the name {PEER_NAME}");
                Err(io::Error::new(ErrorKind::InvalidData, why))
            }
        }
    }
}

impl fmt::Debug for PeersTls {
    fn fmt(&self, f: &mut fmt::Formatter<'_>) -> fmt::Result {
        f.debug_struct("PeersTls").finish_non_exhaustive()
    }
}
