use super::member_connection::MemberConnection;
use super::tls::Tls;
use hyper::client::HttpConnector;
use hyper::http::uri::Scheme;
use hyper::service::Service;
use hyper::Uri;
use std::error::Error;
use std::future::Future;
use std::pin::Pin;
use std::task::{Context, Poll};
use std::time::Duration;
use tokio::net::TcpStream;
use tokio::time::timeout;
use tokio_openssl::SslStream;

/// Why a member can't be reached.
pub(super) type Unreached = Box<dyn Error + Send + Sync>;

/// Makes connections to members, with TLS if their addresses say so.
#[derive(Clone)]
pub(super) struct Connector {
    plain: HttpConnector,
    /// The TLS configuration, if an address asks for it.
    tls: Option<Tls>,
    /// How long the handshake may take.
    patience: Duration,
}

impl Connector {
    /// Makes a connector that waits this long for a connection, and as long again for the handshake.
    pub(super) fn new(tls: Option<Tls>, patience: Duration) -> Connector {
        let mut plain = HttpConnector::new();
        plain.enforce_http(false);
        plain.set_nodelay(true);
        plain.set_keepalive(Some(Duration::from_secs(5)));
        plain.set_connect_timeout(Some(patience));
        Connector {
            plain,
            tls,
            patience,
        }
    }
}

impl Service<Uri> for Connector {
    type Response = MemberConnection;
    type Error = Unreached;
    type Future = Pin<Box<dyn Future<Output = Result<MemberConnection, Unreached>> + Send>>;

    fn poll_ready(&mut self, context: &mut Context<'_>) -> Poll<Result<(), Unreached>> {
        self.plain.poll_ready(context).map_err(Into::into)
    }

    fn call(&mut self, member: Uri) -> Self::Future {
        let (tls, patience) = (self.tls.clone(), self.patience);
        let reaching = self.plain.call(member.clone());
        Box::pin(async move {
            let socket = reaching.await?;
            if member.scheme() != Some(&Scheme::HTTPS) {
                return Ok(MemberConnection::Plain(socket));
            }
            let tls = tls.ok_or("no TLS is spoken here")?;
            let host = member.host().unwrap_or_default();
            timeout(patience, met(&tls, host, socket)).await?
        })
    }
}

/// Does the handshake with the member that has this name or address.
async fn met(tls: &Tls, host: &str, socket: TcpStream) -> Result<MemberConnection, Unreached> {
    let mut stream = SslStream::new(tls.session(host)?, socket)?;
    Pin::new(&mut stream).connect().await?;
    if !tls.is_spoken(stream.ssl()) {
        return Err("it speaks no HTTP/2".into());
    }
    Ok(MemberConnection::Tls(Box::new(stream)))
}
