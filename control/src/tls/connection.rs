use super::memory_stream::MemoryStream;
use openssl::error::ErrorStack;
use openssl::ssl::{self, ErrorCode, Ssl, SslContext, SslStream};
use openssl::x509::X509;
use std::fmt;
use std::io::{self, ErrorKind};

/// The most bytes that one record of TLS holds.
const RECORD: usize = 16 << 10;

/// One side of a TLS connection. It works on bytes in memory, and its owner moves them between it and a socket. So no
/// call waits, and each call ends when the bytes that came are used up.
pub struct TlsConnection {
    stream: SslStream<MemoryStream>,
    /// Whether records without any data came before the last bytes that were opened.
    was_in_vain: bool,
    /// Whether nothing more can be read, because the other side has announced its end or a record was malformed.
    is_over: bool,
}

impl TlsConnection {
    /// Returns the side that accepts.
    pub(super) fn accepting(context: &SslContext) -> Result<TlsConnection, ErrorStack> {
        let mut ssl = Ssl::new(context)?;
        ssl.set_accept_state();
        TlsConnection::new(ssl)
    }

    /// Returns the side that connects, to a server of this name.
    pub(super) fn connecting(
        context: &SslContext,
        name: &str,
    ) -> Result<TlsConnection, ErrorStack> {
        let mut ssl = Ssl::new(context)?;
        ssl.set_connect_state();
        ssl.set_hostname(name)?;
        TlsConnection::new(ssl)
    }

    fn new(ssl: Ssl) -> Result<TlsConnection, ErrorStack> {
        Ok(TlsConnection {
            stream: SslStream::new(ssl, MemoryStream::new())?,
            was_in_vain: false,
            is_over: false,
        })
    }

    /// Takes bytes that came.
    pub fn feed(&mut self, bytes: &[u8]) {
        self.stream.get_mut().feed(bytes);
    }

    /// Notes that no more come.
    pub fn note_end(&mut self) {
        self.stream.get_mut().end();
    }

    /// Continues the handshake with the bytes that came, and returns whether it is over. Its answer is then among the
    /// bytes to send. If it fails, the answer is an alert, which tells the other side why.
    ///
    /// # Errors
    ///
    /// `InvalidData` if the handshake fails or the other side sends too much, and `UnexpectedEof` if that side has
    /// ended.
    pub fn shake(&mut self) -> io::Result<bool> {
        let shaken = self.stream.do_handshake();
        forget_errors();
        match shaken {
            Ok(()) => {
                self.stream.get_mut().note_use();
                Ok(true)
            }
            Err(error) if is_for_want(&error) => Ok(false),
            Err(error) => Err(self.fault(error)),
        }
    }

    /// Returns the certificate that the other side has shown, if any.
    pub(super) fn shown(&self) -> Option<X509> {
        self.stream.ssl().peer_certificate()
    }

    /// Opens the data of at most one record, and returns how many bytes it has. 0 is the end that the other side
    /// announced.
    ///
    /// # Errors
    ///
    /// `WouldBlock` if more must come first, `UnexpectedEof` if the end was not announced, and `InvalidData` if a
    /// record is malformed or too many records have no data.
    pub fn open(&mut self, room: &mut [u8]) -> io::Result<usize> {
        if self.is_over {
            return Ok(0);
        }
        if !self.has_input() {
            return Err(ErrorKind::WouldBlock.into());
        }
        match self.stream.ssl_read(room) {
            Ok(count) => {
                self.was_in_vain = self.stream.get_mut().note_use();
                Ok(count)
            }
            Err(error) if is_for_want(&error) => Err(ErrorKind::WouldBlock.into()),
            Err(error) => {
                self.is_over = true;
                forget_errors();
                match error.code() == ErrorCode::ZERO_RETURN {
                    true => Ok(0),
                    false => Err(self.fault(error)),
                }
            }
        }
    }

    /// Returns whether there is something to open, perhaps less than a record, or the end.
    pub fn has_input(&self) -> bool {
        self.is_over || self.stream.get_ref().has_input() || self.stream.ssl().pending() > 0
    }

    /// Returns whether records without any data came before the last bytes that were opened.
    pub fn was_in_vain(&self) -> bool {
        self.was_in_vain
    }

    /// Seals the first of these bytes, in at most one record. Returns how many.
    ///
    /// # Errors
    ///
    /// `InvalidData` if nothing can be sent any more.
    pub fn seal(&mut self, bytes: &[u8]) -> io::Result<usize> {
        let sealed = self.stream.ssl_write(&bytes[..bytes.len().min(RECORD)]);
        sealed.map_err(|error| self.fault(error))
    }

    /// Announces that nothing more comes from this side.
    pub fn close(&mut self) {
        // If the handshake isn't over or has failed, nothing can be announced.
        let _ = self.stream.shutdown();
        forget_errors();
    }

    /// Returns the bytes to send.
    pub fn unsent(&self) -> &[u8] {
        self.stream.get_ref().unsent()
    }

    /// Notes that so many more bytes were sent.
    pub fn note_sent(&mut self, count: usize) {
        self.stream.get_mut().note_sent(count);
    }

    fn fault(&self, error: ssl::Error) -> io::Error {
        match self.stream.get_ref().is_short() {
            true => ErrorKind::UnexpectedEof.into(),
            false => io::Error::new(ErrorKind::InvalidData, error),
        }
    }
}

/// Empties OpenSSL's error queue of this thread, because OpenSSL uses it to judge the next call, on any connection. A
/// `ssl_read` or `ssl_write` that succeeds or wants more leaves nothing there.
fn forget_errors() {
    drop(ErrorStack::get());
}

/// Returns whether more must come first.
fn is_for_want(error: &ssl::Error) -> bool {
    matches!(error.code(), ErrorCode::WANT_READ | ErrorCode::WANT_WRITE)
}

impl fmt::Debug for TlsConnection {
    fn fmt(&self, f: &mut fmt::Formatter<'_>) -> fmt::Result {
        f.debug_struct("Connection").finish_non_exhaustive()
    }
}
