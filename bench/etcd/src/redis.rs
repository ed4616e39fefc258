use crate::{Workload, KEYS};
use std::io::{BufRead, BufReader, Read, Write};
use std::net::TcpStream;
use std::time::Duration;

/// How long a connection waits for the next bytes of an answer.
const PATIENCE: Duration = Duration::from_secs(30);

/// A client that sends SET and GET to servers of a cluster.
pub(crate) struct Redis {
    streams: Vec<RedisConnection>,
    /// The place in `streams` of the connection to ask, for each shard.
    routes: Vec<usize>,
    writes: bool,
    name: u64,
}

impl Redis {
    /// Returns a client of this name that sends all requests to this server. Its keys are spread over this many shards.
    pub(crate) fn of_one(address: &str, shards: usize, name: u64) -> Result<Redis, String> {
        Ok(Redis {
            streams: vec![RedisConnection::connect(address)?],
            routes: vec![0; shards],
            writes: true,
            name,
        })
    }

    /// Returns a client of this name that sends each request to the owner of the key's shard. It asks the server at
    /// this address for the owners.
    pub(crate) fn of_owners(address: &str, name: u64) -> Result<Redis, String> {
        let (mut streams, mut routes) = (Vec::new(), Vec::new());
        let mut known: Vec<String> = Vec::new();
        for owner in RedisConnection::connect(address)?.owners()? {
            let place = known.iter().position(|it| *it == owner);
            routes.push(place.unwrap_or(known.len()));
            if place.is_none() {
                streams.push(RedisConnection::connect(&owner)?);
                known.push(owner);
            }
        }
        Ok(Redis {
            streams,
            routes,
            writes: true,
            name,
        })
    }
}

impl Workload for Redis {
    /// Writes all keys of the client.
    fn prepare(&mut self, writes: bool) -> Result<(), String> {
        (0..KEYS).try_for_each(|it| self.call(it))?;
        self.writes = writes;
        Ok(())
    }

    fn call(&mut self, number: u64) -> Result<(), String> {
        let at = number % KEYS;
        let shard = (self.name + at) as usize % self.routes.len();
        let key = format!("{shard:04}:{:05}:{at:02}", self.name);
        let length = key.len();
        let asked = match self.writes {
            true => format!("*3\r\n$3\r\nSET\r\n${length}\r\n{key}\r\n$32\r\n{number:032}\r\n"),
            false => format!("*2\r\n$3\r\nGET\r\n${length}\r\n{key}\r\n"),
        };
        let stream = &mut self.streams[self.routes[shard]];
        match stream.ask(&asked)? {
            "+OK" => Ok(()),
            "$32" => stream.skip_text(),
            other => Err(format!("{key} is answered {other:?}")),
        }
    }
}

/// A connection to one server.
struct RedisConnection {
    stream: BufReader<TcpStream>,
    line: String,
}

impl RedisConnection {
    fn connect(address: &str) -> Result<RedisConnection, String> {
        let connected = TcpStream::connect(address).and_then(|it| {
            it.set_nodelay(true)?;
            it.set_read_timeout(Some(PATIENCE))?;
            Ok(it)
        });
        Ok(RedisConnection {
            stream: BufReader::new(connected.map_err(|error| format!("{address}: {error}"))?),
            line: String::new(),
        })
    }

    /// Sends these bytes, and returns the first line of the answer.
    fn ask(&mut self, asked: &str) -> Result<&str, String> {
        let sent = self.stream.get_mut().write_all(asked.as_bytes());
        sent.map_err(|error| error.to_string())?;
        self.next_line()
    }

    fn next_line(&mut self) -> Result<&str, String> {
        self.line.clear();
        let read = self.stream.read_line(&mut self.line);
        read.map_err(|error| error.to_string())?;
        Ok(self.line.trim_end())
    }

    /// Reads past the text of 32 bytes whose length was just read, and past the end of its line.
    fn skip_text(&mut self) -> Result<(), String> {
        let read = self.stream.read_exact(&mut [0; 34]);
        read.map_err(|error| error.to_string())
    }

    /// Returns the address of each shard's owner.
    fn owners(&mut self) -> Result<Vec<String>, String> {
        let told = self.ask("*2\r\n$2\r\nSM\r\n$6\r\nROUTES\r\n")?;
        let count = told.strip_prefix('*').and_then(|it| it.parse().ok());
        let mut left: usize = count.ok_or_else(|| format!("SM ROUTES is answered {told:?}"))?;
        let mut owners = Vec::new();
        while left > 0 {
            let line = self.next_line()?;
            if line.starts_with('$') {
                continue;
            }
            left -= 1;
            // The first line has no third word, because it tells a revision.
            owners.extend(line.split(' ').nth(2).map(str::to_owned));
        }
        Ok(owners)
    }
}
