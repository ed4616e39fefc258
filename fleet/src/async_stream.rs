//! Connections of tasks to servers of a fleet. Their bytes are the same as those of connections of threads.
use crate::frame::LONGEST;
use crate::idle_connections::Quiet;
use crate::introduction::Introduction;
use crate::stream::is_quiet;
use crate::MeetError;
use durkenzo_control::links::{Greeter, WireFault, NO_SERVER, VERSION};
use durkenzo_control::tls::TlsConnection;
use std::io::{self, ErrorKind, Read, Write};
use std::net::TcpStream;
use tokio::io::unix::AsyncFd;

/// The number of bytes that are taken from the socket at once.
const ROOM: usize = 16 << 10;
/// The number of bytes of a frame's length. The length doesn't count them.
const LENGTH: usize = 4;

/// A connection whose sides know each other.
pub(crate) struct AsyncStream {
    socket: AsyncFd<TcpStream>,
    tls: Option<TlsConnection>,
    room: Box<[u8]>,
}

impl AsyncStream {
    /// Connects to the server at this address. The caller must bound the time.
    pub(crate) async fn connect(
        address: &str,
        introduction: &Introduction,
    ) -> Result<AsyncStream, MeetError> {
        let socket = tokio::net::TcpStream::connect(address).await?;
        socket.set_nodelay(true)?;
        let tls = introduction.tls.as_ref().map(|it| it.connection());
        let mut stream = AsyncStream {
            socket: AsyncFd::new(socket.into_std()?)?,
            tls: tls.transpose()?,
            room: vec![0; ROOM].into(),
        };
        stream.shake().await.map_err(MeetError::of_tls)?;
        let is_by_tls = stream.tls.is_some();
        let greeted = stream.greet(introduction).await;
        greeted.map_err(|error| MeetError::of_greeting(error, is_by_tls))?;
        Ok(stream)
    }

    /// Does the handshake, if there is TLS.
    async fn shake(&mut self) -> io::Result<()> {
        let AsyncStream { socket, tls, room } = self;
        let Some(tls) = tls else { return Ok(()) };
        loop {
            let shaken = tls.shake();
            let sent = send(socket, tls.unsent()).await;
            tls.note_sent(tls.unsent().len());
            let is_over = shaken?;
            sent?;
            if is_over {
                // OpenSSL has checked the name already. This checks it again, as connections of threads do.
                return tls.caller().as_process();
            }
            match receive(socket, room).await? {
                0 => return Err(ErrorKind::UnexpectedEof.into()),
                count => tls.feed(&room[..count]),
            }
        }
    }

    async fn greet(&mut self, introduction: &Introduction) -> io::Result<()> {
        let (mut greeter, hello) = Greeter::new(&introduction.terms, NO_SERVER, VERSION);
        self.write_all(&hello).await?;
        let mut room = [0; 512];
        loop {
            match self.read(&mut room).await? {
                0 => return Err(ErrorKind::UnexpectedEof.into()),
                count => {
                    if greeter.receive(&room[..count])?.is_some() {
                        return Ok(());
                    }
                }
            }
        }
    }

    /// Sends all of these bytes.
    pub(crate) async fn write_all(&mut self, mut bytes: &[u8]) -> io::Result<()> {
        let Some(tls) = &mut self.tls else {
            return send(&self.socket, bytes).await;
        };
        while !bytes.is_empty() {
            let count = tls.seal(bytes)?;
            bytes = &bytes[count..];
            let sent = send(&self.socket, tls.unsent()).await;
            tls.note_sent(tls.unsent().len());
            sent?;
        }
        Ok(())
    }

    /// Reads bytes, and returns their number. If it is 0, the connection has ended.
    async fn read(&mut self, into: &mut [u8]) -> io::Result<usize> {
        let AsyncStream { socket, tls, room } = self;
        let Some(tls) = tls else {
            return receive(socket, into).await;
        };
        loop {
            match tls.open(into) {
                Err(error) if error.kind() == ErrorKind::WouldBlock => {}
                opened => return opened,
            }
            match receive(socket, room).await? {
                0 => tls.note_end(),
                count => tls.feed(&room[..count]),
            }
        }
    }

    /// Reads a frame. If the frame is longer than [`LONGEST`], refuses it before making room for it.
    pub(crate) async fn read_frame(&mut self) -> io::Result<Vec<u8>> {
        let mut length = [0; LENGTH];
        self.fill(&mut length).await?;
        let length = u32::from_be_bytes(length) as usize;
        if length > LONGEST {
            let why = WireFault::TooLong;
            return Err(io::Error::new(ErrorKind::InvalidData, why));
        }
        let mut frame = Vec::new();
        while frame.len() < length {
            // This makes room only for the bytes that have come, because the length may be false.
            let begin = frame.len();
            frame.resize(length.min(begin + ROOM), 0);
            self.fill(&mut frame[begin..]).await?;
        }
        Ok(frame)
    }

    async fn fill(&mut self, mut into: &mut [u8]) -> io::Result<()> {
        while !into.is_empty() {
            match self.read(into).await? {
                0 => return Err(ErrorKind::UnexpectedEof.into()),
                count => into = &mut into[count..],
            }
        }
        Ok(())
    }
}

impl Quiet for AsyncStream {
    fn is_quiet(&self) -> bool {
        is_quiet(self.socket.get_ref())
    }
}

/// Waits for bytes from the socket.
async fn receive(socket: &AsyncFd<TcpStream>, room: &mut [u8]) -> io::Result<usize> {
    loop {
        let mut ready = socket.readable().await?;
        if let Ok(received) = ready.try_io(|it| it.get_ref().read(room)) {
            return received;
        }
    }
}

/// Waits until the socket has taken all of these bytes.
async fn send(socket: &AsyncFd<TcpStream>, mut bytes: &[u8]) -> io::Result<()> {
    while !bytes.is_empty() {
        let mut ready = socket.writable().await?;
        if let Ok(sent) = ready.try_io(|it| it.get_ref().write(bytes)) {
            match sent? {
                0 => return Err(ErrorKind::WriteZero.into()),
                count => bytes = &bytes[count..],
            }
        }
    }
    Ok(())
}
