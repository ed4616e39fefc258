//! A client of a server for Redis clients. It sends commands, and reads their answers.
use std::io::{BufRead, BufReader, Read, Write};
use std::net::TcpStream;

pub struct RedisClient {
    reader: BufReader<TcpStream>,
    line: String,
    text: Vec<u8>,
}

/// Returns the bytes of a command.
pub fn command(words: &[&[u8]]) -> Vec<u8> {
    let mut bytes = format!("*{}\r\n", words.len()).into_bytes();
    for word in words {
        bytes.extend_from_slice(format!("${}\r\n", word.len()).as_bytes());
        bytes.extend_from_slice(word);
        bytes.extend_from_slice(b"\r\n");
    }
    bytes
}

impl RedisClient {
    pub fn new(port: u16) -> RedisClient {
        let stream = TcpStream::connect(("127.0.0.1", port)).expect("a server at this port");
        stream.set_nodelay(true).expect("a socket");
        RedisClient {
            reader: BufReader::with_capacity(1 << 16, stream),
            line: String::new(),
            text: Vec::new(),
        }
    }

    pub fn send(&mut self, bytes: &[u8]) {
        self.reader
            .get_mut()
            .write_all(bytes)
            .expect("a server that reads");
    }

    /// Reads an answer. Returns the number or the length of the text, or 0 if it is a line such as `+OK`. If it is an
    /// error, returns its line.
    pub fn told(&mut self) -> Result<i64, String> {
        self.line.clear();
        let read = self.reader.read_line(&mut self.line);
        read.expect("a server that answers");
        let kind = self.line.as_bytes().first().copied();
        let rest = self.line.get(1..).unwrap_or("").trim_end();
        let number = || rest.parse().expect("a number");
        match kind {
            Some(b'+') => Ok(0),
            Some(b':') => Ok(number()),
            Some(b'$') => {
                let length: i64 = number();
                self.text.resize((length + 2).max(0) as usize, 0);
                self.reader.read_exact(&mut self.text).expect("a text");
                Ok(length)
            }
            _ => Err(self.line.clone()),
        }
    }

    /// Reads an answer, which must not be an error.
    pub fn answer(&mut self) -> i64 {
        self.told().expect("a server that refuses nothing")
    }

    /// Moves the shard to this server. If that is refused, returns the line of the error.
    pub fn migrate(&mut self, shard: usize, to: u16) -> Result<i64, String> {
        let (shard, to) = (shard.to_string(), to.to_string());
        self.send(&command(&[
            b"SM",
            b"MIGRATE",
            shard.as_bytes(),
            to.as_bytes(),
        ]));
        self.told()
    }
}
