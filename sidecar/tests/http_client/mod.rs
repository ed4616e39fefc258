//! A client of HTTP, which makes a connection for each request.
use std::collections::BTreeMap;
use std::io::{self, Read, Write};
use std::net::{SocketAddr, TcpStream};
use std::time::Duration;

/// How long a response may take.
pub const PATIENCE: Duration = Duration::from_secs(60);

/// A response.
#[derive(Debug)]
pub struct Reply {
    pub status: u16,
    pub headers: BTreeMap<String, String>,
    pub body: String,
}

impl Reply {
    /// Returns the value of a header, or an empty text.
    pub fn header(&self, name: &str) -> &str {
        self.headers.get(name).map_or("", String::as_str)
    }

    /// Returns the status and the name of the error.
    pub fn fault(&self) -> (u16, &str) {
        (self.status, self.header("durkenzo-error"))
    }
}

/// Sends the head of a request, and returns the stream.
pub fn begun(at: SocketAddr, first: &str, headers: &[(&str, &str)]) -> io::Result<TcpStream> {
    let mut stream = TcpStream::connect(at)?;
    stream.set_read_timeout(Some(PATIENCE))?;
    let mut head = format!("{first} HTTP/1.1\r\nhost: {at}\r\nconnection: close\r\n");
    for (name, value) in headers {
        head += &format!("{name}: {value}\r\n");
    }
    stream.write_all(format!("{head}\r\n").as_bytes())?;
    Ok(stream)
}

/// Reads a response to its end.
pub fn reply(stream: &mut TcpStream) -> io::Result<Reply> {
    let mut bytes = Vec::new();
    stream.read_to_end(&mut bytes)?;
    let text = String::from_utf8_lossy(&bytes);
    let early = || io::Error::other(format!("the response ends early: {text}"));
    let (head, body) = text.split_once("\r\n\r\n").ok_or_else(early)?;
    let mut lines = head.lines();
    let status = lines
        .next()
        .and_then(|it| it.split(' ').nth(1)?.parse().ok());
    let headers = lines.filter_map(|it| it.split_once(": "));
    Ok(Reply {
        status: status.ok_or_else(early)?,
        headers: headers
            .map(|(name, value)| (name.to_lowercase(), value.to_owned()))
            .collect(),
        body: body.to_owned(),
    })
}

/// Asks with these headers and this body.
pub fn asked(
    at: SocketAddr,
    first: &str,
    headers: &[(&str, &str)],
    body: &str,
) -> io::Result<Reply> {
    let length = body.len().to_string();
    let headers = [headers, &[("content-length", &*length)]].concat();
    let mut stream = begun(at, first, &headers)?;
    // The other side may refuse the request before it has read the body.
    let _ = stream.write_all(body.as_bytes());
    reply(&mut stream)
}

pub fn post(at: SocketAddr, path: &str, body: &str) -> Reply {
    asked(at, &format!("POST {path}"), &[], body).unwrap()
}

pub fn get(at: SocketAddr, path: &str) -> Reply {
    asked(at, &format!("GET {path}"), &[], "").unwrap()
}
