use std::io::{self, BufRead, BufReader, Read, Write};
use std::net::{TcpStream, ToSocketAddrs};
use std::time::Duration;

/// The most bytes of a reply. A server's reply has far fewer.
const MOST: usize = 64 << 20;

/// A connection that speaks the Redis protocol.
pub struct RespClient {
    stream: BufReader<TcpStream>,
    /// How many more bytes the reply may have that is being read.
    left: usize,
}

/// A reply of a server.
#[derive(Clone, Debug, PartialEq, Eq)]
pub enum RespReply {
    /// A line, such as `OK`.
    Line(String),
    /// A number.
    Number(i64),
    /// A text, or none.
    Text(Option<String>),
    /// Several replies.
    List(Vec<RespReply>),
    /// A refusal.
    Error(String),
}

/// Why there is no reply. The command may have been done.
#[derive(Debug)]
pub struct Failure(pub io::Error);

impl Failure {
    /// Returns whether bytes came that aren't a reply.
    pub fn is_garbled(&self) -> bool {
        self.0.kind() == io::ErrorKind::InvalidData
    }
}

impl From<io::Error> for Failure {
    fn from(error: io::Error) -> Failure {
        Failure(error)
    }
}

impl RespClient {
    /// Connects, and waits at most this long, for the connection and for each reply.
    ///
    /// # Errors
    ///
    /// If nobody listens there, or nobody takes the connection in time.
    pub fn connect(address: impl ToSocketAddrs, patience: Duration) -> io::Result<RespClient> {
        let address = address.to_socket_addrs()?.next();
        let address = address.ok_or_else(|| io::Error::from(io::ErrorKind::NotFound))?;
        // A process that is stopped takes no connection, and closes none.
        let stream = TcpStream::connect_timeout(&address, patience)?;
        stream.set_nodelay(true)?;
        stream.set_read_timeout(Some(patience))?;
        stream.set_write_timeout(Some(patience))?;
        Ok(RespClient {
            stream: BufReader::new(stream),
            left: 0,
        })
    }

    /// Sends a command, and waits for its reply.
    ///
    /// # Errors
    ///
    /// If no reply comes, or one of more than 64 MiB. The connection must not be used after that.
    pub fn call(&mut self, words: &[&str]) -> Result<RespReply, Failure> {
        let mut sent = format!("*{}\r\n", words.len());
        for word in words {
            sent += &format!("${}\r\n{word}\r\n", word.len());
        }
        self.stream.get_mut().write_all(sent.as_bytes())?;
        self.left = MOST;
        self.reply()
    }

    fn reply(&mut self) -> Result<RespReply, Failure> {
        let line = self.line()?;
        let wrong = || garbled(&line);
        let (kind, rest) = line.split_at_checked(1).ok_or_else(wrong)?;
        match kind {
            "+" => Ok(RespReply::Line(rest.to_owned())),
            "-" => Ok(RespReply::Error(rest.to_owned())),
            ":" => rest.parse().map(RespReply::Number).map_err(|_| wrong()),
            "$" if rest == "-1" => Ok(RespReply::Text(None)),
            "$" => self.text(rest).map(|it| RespReply::Text(Some(it))),
            "*" => {
                let count: usize = rest.parse().map_err(|_| wrong())?;
                (0..count)
                    .map(|_| self.reply())
                    .collect::<Result<_, _>>()
                    .map(RespReply::List)
            }
            _ => Err(wrong()),
        }
    }

    fn line(&mut self) -> Result<String, Failure> {
        let (mut line, most) = (String::new(), self.left);
        let mut stream = self.stream.by_ref().take(most as u64);
        let read = stream.read_line(&mut line)?;
        self.left -= read;
        match line.strip_suffix("\r\n") {
            Some(it) => Ok(it.to_owned()),
            None if line.ends_with('\n') || read == most => Err(garbled(&line)),
            None => Err(Failure(io::ErrorKind::UnexpectedEof.into())),
        }
    }

    /// Returns the next text, which has this length, and reads the end of its line.
    fn text(&mut self, length: &str) -> Result<String, Failure> {
        let wrong = |came: &str| garbled(&format!("${length} {came}"));
        let whole = length.parse().ok().and_then(|it: usize| it.checked_add(2));
        let whole = whole.filter(|it| *it <= self.left);
        let mut bytes = vec![0; whole.ok_or_else(|| wrong(""))?];
        self.left -= bytes.len();
        self.stream.read_exact(&mut bytes)?;
        let text = bytes.strip_suffix(b"\r\n");
        let text = text.and_then(|it| std::str::from_utf8(it).ok());
        text.map(str::to_owned)
            .ok_or_else(|| wrong(&String::from_utf8_lossy(&bytes)))
    }
}

fn garbled(came: &str) -> Failure {
    let told = format!("what is no reply: {came:?}");
    Failure(io::Error::new(io::ErrorKind::InvalidData, told))
}
