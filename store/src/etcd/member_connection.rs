use hyper::client::connect::{Connected, Connection};
use std::io;
use std::pin::Pin;
use std::task::{Context, Poll};
use tokio::io::{AsyncRead, AsyncWrite, ReadBuf};
use tokio::net::TcpStream;
use tokio_openssl::SslStream;

/// A connection to a member.
pub(super) enum MemberConnection {
    Plain(TcpStream),
    Tls(Box<SslStream<TcpStream>>),
}

impl Connection for MemberConnection {
    fn connected(&self) -> Connected {
        Connected::new()
    }
}

impl AsyncRead for MemberConnection {
    fn poll_read(
        self: Pin<&mut Self>,
        context: &mut Context<'_>,
        room: &mut ReadBuf<'_>,
    ) -> Poll<io::Result<()>> {
        match self.get_mut() {
            MemberConnection::Plain(socket) => Pin::new(socket).poll_read(context, room),
            MemberConnection::Tls(stream) => Pin::new(stream).poll_read(context, room),
        }
    }
}

impl AsyncWrite for MemberConnection {
    fn poll_write(
        self: Pin<&mut Self>,
        context: &mut Context<'_>,
        bytes: &[u8],
    ) -> Poll<io::Result<usize>> {
        match self.get_mut() {
            MemberConnection::Plain(socket) => Pin::new(socket).poll_write(context, bytes),
            MemberConnection::Tls(stream) => Pin::new(stream).poll_write(context, bytes),
        }
    }

    fn poll_flush(self: Pin<&mut Self>, context: &mut Context<'_>) -> Poll<io::Result<()>> {
        match self.get_mut() {
            MemberConnection::Plain(socket) => Pin::new(socket).poll_flush(context),
            MemberConnection::Tls(stream) => Pin::new(stream).poll_flush(context),
        }
    }

    fn poll_shutdown(self: Pin<&mut Self>, context: &mut Context<'_>) -> Poll<io::Result<()>> {
        match self.get_mut() {
            MemberConnection::Plain(socket) => Pin::new(socket).poll_shutdown(context),
            MemberConnection::Tls(stream) => Pin::new(stream).poll_shutdown(context),
        }
    }
}
